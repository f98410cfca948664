/* Runs the scenario on standard input and writes the picture of its history, with its names, to standard output. Says on standard error
 * what is wrong with an input that is none: status 3. */
#include <cellarcliff.h>
#include <stdio.h>
#include <stdlib.h>

typedef uint8_t call(const uint8_t *, size_t, uint8_t *, size_t, size_t *);

/* A text, whose bytes are malloc's. */
struct text {
  uint8_t *bytes;
  size_t length;
};

/* Makes the call with an empty buffer, which learns what the text needs, and again with one of that size. */
static uint8_t answer(call *made, struct text input, struct text *output) {
  size_t told = 0;
  for (size_t capacity = 0;; capacity = told) {
    output->bytes = calloc(capacity + 1, 1);
    if (output->bytes == NULL) return CELLAR_TEXT_NO_MEMORY;
    uint8_t status = made(input.bytes, input.length, output->bytes, capacity, &told);
    output->length = told;
    if (status != CELLAR_TEXT_SMALL) return status;
    free(output->bytes);
  }
}

int main(void) {
  const size_t most = 16777216;
  struct text scenario = {calloc(most + 1, 1), 0}, named = {NULL, 0}, shown = {NULL, 0};
  if (scenario.bytes == NULL) return CELLAR_TEXT_NO_MEMORY;
  scenario.length = fread(scenario.bytes, 1, most + 1, stdin);
  uint8_t status = answer(cellar_run_names, scenario, &named);
  if (status == CELLAR_TEXT_DONE) status = answer(cellar_picture, named, &shown);
  if (status == CELLAR_TEXT_DONE) fwrite(shown.bytes, 1, shown.length, stdout);
  if (status == CELLAR_TEXT_FAULTY) {
    uint8_t said = answer(cellar_explain, scenario, &shown);
    fprintf(stderr, "shown: %.*s\n", (int)shown.length, said == CELLAR_TEXT_SAYS ? (const char *)shown.bytes : "a scenario with a checkpoint is not drawn");
  }
  free(scenario.bytes);
  free(named.bytes);
  free(shown.bytes);
  return ferror(stdout) ? 1 : status;
}
