/* What a proved library asks of its surroundings, on WebAssembly: memory, over Doug Lea's allocator (malloc.c as wasi-libc has it, which is
 * in the public domain by CC0). Nobody proved this file.
 *
 * A request that cannot be met is answered by 0, as the library expects: `memory.grow` answers -1 at the maximum of the memory. */
#include <stddef.h>
#include <stdint.h>

#define PAGE 65536UL

/* The allocator's own need of a C library. */
static void *more(ptrdiff_t bytes) {
  if (bytes == 0)
    return (void *)(__builtin_wasm_memory_size(0) * PAGE);
  if (bytes < 0 || bytes % PAGE != 0)
    return (void *)-1;
  size_t before = __builtin_wasm_memory_grow(0, (size_t)bytes / PAGE);
  /* In a memory that wasm-opt 108 lowered to 32 bits the -1 comes as 2^32 - 1. */
  if (before == SIZE_MAX || before == UINT32_MAX)
    return (void *)-1;
  return (void *)(before * PAGE);
}
#define memset __builtin_memset
#define memcpy __builtin_memcpy

#define LACKS_UNISTD_H
#define LACKS_FCNTL_H
#define LACKS_SYS_PARAM_H
#define LACKS_SYS_MMAN_H
#define LACKS_STRINGS_H
#define LACKS_STRING_H
#define LACKS_SYS_TYPES_H
#define LACKS_ERRNO_H
#define LACKS_STDLIB_H
#define LACKS_SCHED_H
#define LACKS_TIME_H
#define EINVAL 22
#define ENOMEM 12
#define MALLOC_FAILURE_ACTION
#define HAVE_MMAP 0
#define HAVE_MORECORE 1
#define MORECORE more
#define MORECORE_CANNOT_TRIM 1
#define malloc_getpagesize PAGE
#define DEFAULT_GRANULARITY (16 * PAGE)
#define ABORT __builtin_trap()
#define USE_LOCKS 0
#define NO_MALLINFO 1
#define NO_MALLOC_STATS 1
#define MALLOC_ALIGNMENT 16
#define USE_DL_PREFIX 1
#define DLMALLOC_EXPORT static
static size_t dlmalloc_usable_size(void *);
#include "malloc.c"

/* The three calls. The library asks for alignments up to 16, and for at least one byte. */
struct answer {
  uint64_t is_there;
  void *at;
};
static char nothing[16];

static struct answer answer(void *at) { return at ? (struct answer){1, at} : (struct answer){0, nothing}; }

#ifdef CELLAR_TRY /* for a test: the request of this number, from 0, is refused; the answer is how many were left, -1 if one was refused */
static int64_t left = -1;
__attribute__((export_name("refuse"))) int64_t refuse(int64_t which) {
  int64_t before = left;
  left = which;
  return before;
}
static int refuses(void) { return left >= 0 && left-- == 0; }
#else
static int refuses(void) { return 0; }
#endif

struct answer rattle_alloc(size_t size, size_t align) { return answer(refuses() ? NULL : dlmalloc(size ? size : align)); }
struct answer rattle_realloc(void *at, size_t before, size_t size, size_t align) {
  (void)before;
  return answer(refuses() ? NULL : dlrealloc(at, size ? size : align));
}
void rattle_dealloc(void *at) { dlfree(at); }

/* For the caller: places of its own. `place` answers 0 where there is no memory. */
__attribute__((export_name("place"))) void *place(size_t size) { return dlmalloc(size); }
__attribute__((export_name("unplace"))) void unplace(void *at) { dlfree(at); }

/* What compiler-rt has of numbers of 128 bits, as its multi3.c, ashlti3.c and lshrti3.c have it: the product of two, which clang calls for
 * a product that may overflow 64 bits, and shifts by less than 128. */
typedef int ti __attribute__((mode(TI)));
typedef unsigned tu __attribute__((mode(TI)));

static tu of(uint64_t high, uint64_t low) { return ((tu)high << 64) | low; }
static uint64_t high_of(ti a) { return (uint64_t)((tu)a >> 64); }

static tu product_of(uint64_t a, uint64_t b) {
  uint64_t half = 32, low = UINT32_MAX;
  uint64_t t = (a & low) * (b & low), first = t & low;
  t = (t >> half) + (a >> half) * (b & low);
  uint64_t second = (t & low) + (a & low) * (b >> half), high = (t >> half) + (second >> half) + (a >> half) * (b >> half);
  return of(high, (second & low) << half | first);
}
ti __multi3(ti a, ti b) {
  uint64_t al = (uint64_t)a, bl = (uint64_t)b;
  tu product = product_of(al, bl);
  return (ti)of((uint64_t)(product >> 64) + high_of(a) * bl + al * high_of(b), (uint64_t)product);
}
ti __ashlti3(ti a, int by) {
  uint64_t low = (uint64_t)a, high = high_of(a), n = (uint64_t)by;
  return (ti)(n == 0 ? of(high, low) : n < 64 ? of(high << n | low >> (64 - n), low << n) : of(low << (n - 64), 0));
}
ti __lshrti3(ti a, int by) {
  uint64_t low = (uint64_t)a, high = high_of(a), n = (uint64_t)by;
  return (ti)(n == 0 ? of(high, low) : n < 64 ? of(high >> n, low >> n | high << (64 - n)) : of(0, high >> (n - 64)));
}
