/* The calls of cellarcliff.h that take a text. This engine reads none: the library that CELLAR_NASTY_TEXTS names answers them. Where it
 * names none they are answered by one sentence, and there is no memory for a live book. */
#include <string.h>

#include "cellarcliff.h"

typedef void any_call(void);

#ifdef NASTY_ALONE /* a module, beside which there is no library */
static any_call *other(const char *name) { return (void)name, NULL; }
#else
#include <dlfcn.h>
#include <stdlib.h>

static any_call *other(const char *name) {
  const char *file = getenv("CELLAR_NASTY_TEXTS");
  void *library = file ? dlopen(file, RTLD_NOW | RTLD_LOCAL) : NULL;
  any_call *call = NULL;
  if (library)
    *(void **)&call = dlsym(library, name);
  return call;
}
#endif

#define TEXT const uint8_t *text, size_t length, uint8_t *buffer, size_t capacity, size_t *told
typedef uint8_t text_call(TEXT);
typedef uint8_t new_call(struct cellar_live *, uint32_t);
typedef uint8_t send_call(struct cellar_live *, TEXT);
typedef uint8_t read_call(struct cellar_live *, uint8_t *, size_t, size_t *);
typedef void drop_call(struct cellar_live *);

static uint8_t says(const char *name, TEXT) {
  static const char sentence[] = "the nasty engine reads no text\n";
  text_call *call = (text_call *)other(name);
  if (call)
    return call(text, length, buffer, capacity, told);
  *told = sizeof sentence - 1;
  if (capacity < *told)
    return CELLAR_TEXT_SMALL;
  memcpy(buffer, sentence, *told);
  return CELLAR_TEXT_SAYS;
}

static uint8_t is_faulty(const char *name, TEXT) {
  text_call *call = (text_call *)other(name);
  if (call)
    return call(text, length, buffer, capacity, told);
  *told = 0;
  return CELLAR_TEXT_FAULTY;
}

uint8_t cellar_audit(TEXT) { return says("cellar_audit", text, length, buffer, capacity, told); }
uint8_t cellar_explain(TEXT) { return says("cellar_explain", text, length, buffer, capacity, told); }
uint8_t cellar_run(TEXT) { return is_faulty("cellar_run", text, length, buffer, capacity, told); }
uint8_t cellar_run_dump(TEXT) { return is_faulty("cellar_run_dump", text, length, buffer, capacity, told); }
uint8_t cellar_run_names(TEXT) { return is_faulty("cellar_run_names", text, length, buffer, capacity, told); }
uint8_t cellar_picture(TEXT) { return is_faulty("cellar_picture", text, length, buffer, capacity, told); }

uint8_t cellar_live_new(struct cellar_live *book, uint32_t max_events) {
  new_call *call = (new_call *)other("cellar_live_new");
  return call ? call(book, max_events) : book->at ? CELLAR_LIVE_HELD : CELLAR_LIVE_NO_MEMORY;
}

static uint8_t keeps_nothing(size_t *told) {
  *told = 0;
  return CELLAR_LIVE_NOTHING_KEPT;
}

uint8_t cellar_live_send(struct cellar_live *book, TEXT) {
  send_call *call = (send_call *)other("cellar_live_send");
  return call ? call(book, text, length, buffer, capacity, told) : keeps_nothing(told);
}

uint8_t cellar_live_read(struct cellar_live *book, uint8_t *buffer, size_t capacity, size_t *told) {
  read_call *call = (read_call *)other("cellar_live_read");
  return call ? call(book, buffer, capacity, told) : keeps_nothing(told);
}

uint8_t cellar_live_end(struct cellar_live *book, uint8_t *buffer, size_t capacity, size_t *told) {
  read_call *call = (read_call *)other("cellar_live_end");
  return call ? call(book, buffer, capacity, told) : keeps_nothing(told);
}

void cellar_live_drop(struct cellar_live *book) {
  drop_call *call = (drop_call *)other("cellar_live_drop");
  if (call)
    call(book);
  book->at = NULL;
}
