/* The memory of engines, in the place of malloc, realloc and free in the library (--wrap, see ../../../build). A long block has pages of its own: any thread
 * may make a block longer or free it, and in the C library's arenas, of which each thread uses one, long ones leave room behind that no other thread gets. */
#define _GNU_SOURCE
#include <stdint.h>
#include <string.h>
#include <sys/mman.h>

enum { LONG = 1 << 17, PAGE = 1 << 16 /* a multiple of every machine's */ };

void *__real_malloc(size_t);
void *__real_realloc(void *, size_t);
void __real_free(void *);

/* Stands before each block. */
struct head {
  size_t pages; /* bytes of its own pages, or 0 */
  size_t size;
};

static void *block(struct head *head, size_t pages, size_t size) {
  if (!head) return NULL;
  *head = (struct head){.pages = pages, .size = size};
  return head + 1;
}

static size_t pages_for(size_t size) { return (size + sizeof(struct head) + PAGE - 1) & ~(size_t)(PAGE - 1); }

void *__wrap_malloc(size_t size) {
  if (size > SIZE_MAX - 2 * PAGE) return NULL;
  if (size < LONG) return block(__real_malloc(size + sizeof(struct head)), 0, size);
  void *at = mmap(NULL, pages_for(size), PROT_READ | PROT_WRITE, MAP_PRIVATE | MAP_ANONYMOUS, -1, 0);
  return block(at == MAP_FAILED ? NULL : at, pages_for(size), size);
}

void __wrap_free(void *at) {
  struct head *head = (struct head *)at - 1;
  if (!at) return;
  if (head->pages) munmap(head, head->pages); else __real_free(head);
}

/* What has pages keeps them, also as it becomes short: so nothing that becomes shorter is refused memory. */
void *__wrap_realloc(void *at, size_t size) {
  struct head *head = (struct head *)at - 1;
  if (!at) return __wrap_malloc(size);
  if (size > SIZE_MAX - 2 * PAGE) return NULL;
  if (head->pages) {
    size_t pages = pages_for(size);
    void *moved = pages == head->pages ? head : mremap(head, head->pages, pages, MREMAP_MAYMOVE);
    return block(moved == MAP_FAILED ? NULL : moved, pages, size);
  }
  if (size < LONG) return block(__real_realloc(head, size + sizeof(struct head)), 0, size);
  void *made = __wrap_malloc(size);
  if (!made) return NULL;
  memcpy(made, at, head->size);
  __real_free(head);
  return made;
}
