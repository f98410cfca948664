/* Keeps subscriptions in a live book, and prints what it answers: an item, a disposal, and what is left at the end. */
#include <stdio.h>
#include <stdlib.h>
#include <string.h>
#include <cellarcliff.h>

static uint8_t buffer[32];
static size_t told;

/* Prints the answer of a call. One that was too long for the buffer waits, and is read into memory of its length. */
static uint8_t print(struct cellar_live *book, uint8_t status) {
  uint8_t *text = buffer;
  if (status == CELLAR_LIVE_SMALL) {
    text = calloc(told, 1);
    if (text == NULL) return CELLAR_LIVE_NO_MEMORY;
    status = cellar_live_read(book, text, told, &told);
  }
  if (status == CELLAR_LIVE_DONE) printf("%.*s\n", (int)told, (const char *)text);
  if (text != buffer) free(text);
  return status;
}

int main(void) {
  static const char *const lines[] = {
      "{\"do\":\"using\",\"name\":\"watch\",\"place\":\"root\",\"res\":\"file\"}",
      "{\"do\":\"open\",\"name\":\"feed\",\"place\":\"source\",\"of\":\"watch\",\"kind\":\"leaf\"}",
      "{\"do\":\"next\",\"node\":\"feed\",\"value\":5}",
      "{\"do\":\"dispose\",\"node\":\"watch\"}",
      "{\"do\":\"using\",\"name\":\"log\",\"place\":\"root\",\"res\":\"socket\"}",
  };
  struct cellar_live book = {0};
  uint8_t status = cellar_live_new(&book, UINT32_MAX);
  for (size_t i = 0; status == CELLAR_LIVE_DONE && i < sizeof lines / sizeof *lines; i++) {
    const uint8_t *line = (const uint8_t *)lines[i];
    status = print(&book, cellar_live_send(&book, line, strlen(lines[i]), buffer, sizeof buffer, &told));
  }
  if (status == CELLAR_LIVE_DONE) status = print(&book, cellar_live_end(&book, buffer, sizeof buffer, &told));
  cellar_live_drop(&book); /* where something failed, the book is still there */
  return status;
}
