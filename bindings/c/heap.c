/* What a proved library asks of its surroundings: memory, of the C library. The toolchain has this part for x86-64 alone; tools/build-for
 * compiles it for other targets. Nobody proved this file. malloc aligns to 16, and no request asks for more. */
#include <stdint.h>
#include <stdlib.h>

struct answer {
  uint64_t is_there;
  void *at;
};
static char nothing[16];

static struct answer answer(void *at) {
  struct answer it = {at != NULL, at != NULL ? at : nothing};
  return it;
}
struct answer rattle_alloc(size_t size, size_t align) { return answer(malloc(size ? size : align)); }
struct answer rattle_realloc(void *at, size_t before, size_t size, size_t align) {
  (void)before;
  return answer(realloc(at, size ? size : align));
}
void rattle_dealloc(void *at) { free(at); }
