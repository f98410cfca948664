/* What the nasty engine asks of a C library, for a module of WebAssembly, which has none. */
#include <stdint.h>
#include <stdlib.h>
#include <string.h>

enum { PAGE = 65536, CLASSES = 40 };

/* Memory goes out in powers of two, of which each has a list of what came back. Before each block stands its power. */
struct block {
  uint64_t power;
  struct block *next;
};
static struct block *back[CLASSES];
static uintptr_t end, limit;

static void *fresh(size_t size) {
  if (limit - end < size || !limit) {
    size_t pages = size / PAGE + 16;
    uintptr_t before = __builtin_wasm_memory_grow(0, pages);
    if (before == UINTPTR_MAX || before == UINT32_MAX)
      return NULL;
    end = before * PAGE;
    limit = end + pages * PAGE;
  }
  end += size;
  return (void *)(end - size);
}

void *malloc(size_t size) {
  uint64_t power = 5;
  while ((UINT64_C(1) << power) < size + 16)
    power++;
  struct block *it = back[power];
  if (it)
    back[power] = it->next;
  else if (!(it = fresh((size_t)1 << power)))
    return NULL;
  it->power = power;
  return (char *)it + 16;
}

void free(void *at) {
  if (!at)
    return;
  struct block *it = (struct block *)((char *)at - 16);
  it->next = back[it->power];
  back[it->power] = it;
}

void *calloc(size_t many, size_t size) {
  void *at = malloc(many * size);
  return at ? memset(at, 0, many * size) : NULL;
}

void *realloc(void *at, size_t size) {
  size_t had = at ? ((size_t)1 << ((struct block *)((char *)at - 16))->power) - 16 : 0;
  if (at && size <= had)
    return at;
  void *more = malloc(size);
  if (more && at)
    memcpy(more, at, had);
  free(at);
  return more;
}

_Noreturn void abort(void) { __builtin_trap(); }

void *memcpy(void *to, const void *from, size_t many) { return memmove(to, from, many); }

void *memmove(void *to, const void *from, size_t many) {
  char *a = to;
  const char *b = from;
  if (a < b)
    for (size_t i = 0; i < many; i++)
      a[i] = b[i];
  else
    while (many-- > 0)
      a[many] = b[many];
  return to;
}

void *memset(void *at, int byte, size_t many) {
  for (char *it = at; many-- > 0; it++)
    *it = (char)byte;
  return at;
}

int memcmp(const void *a, const void *b, size_t many) {
  const unsigned char *x = a, *y = b;
  for (; many-- > 0; x++, y++)
    if (*x != *y)
      return *x - *y;
  return 0;
}

void *memchr(const void *at, int byte, size_t many) {
  for (const char *it = at; many-- > 0; it++)
    if (*it == byte)
      return (void *)it;
  return NULL;
}

size_t strlen(const char *text) {
  size_t many = 0;
  while (text[many])
    many++;
  return many;
}

size_t strcspn(const char *text, const char *ends) {
  size_t many = 0;
  while (text[many] && text[many] != *ends)
    many++;
  return many;
}

unsigned long long strtoull(const char *text, char **rest, int base) {
  unsigned long long found = 0;
  (void)rest;
  for (; *text >= '0' && *text <= '9'; text++)
    found = found * (unsigned)base + (unsigned)(*text - '0');
  return found;
}
unsigned long strtoul(const char *text, char **rest, int base) { return (unsigned long)strtoull(text, rest, base); }

/* For the caller, as bindings/wasm/memory.c has it: places of its own. */
__attribute__((export_name("place"))) void *place(size_t size) { return malloc(size); }
__attribute__((export_name("unplace"))) void unplace(void *at) { free(at); }
