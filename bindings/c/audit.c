/* Runs the scenario on standard input, audits the dump of its history, and prints the verdict. */
#include <stdio.h>
#include <stdlib.h>

#include <cellarcliff.h>

typedef uint8_t call(const uint8_t *, size_t, uint8_t *, size_t, size_t *);

/* A text, whose bytes are malloc's. */
struct text {
  uint8_t *bytes;
  size_t length;
};

/* Makes the call with a buffer of 64 bytes, and again with one of just the size that it needs. */
static uint8_t answer(call *made, struct text input, struct text *output) {
  size_t capacity = 64;
  for (;;) {
    size_t told = 0;
    output->bytes = calloc(capacity, 1);
    if (output->bytes == NULL) return CELLAR_TEXT_NO_MEMORY;
    uint8_t status = made(input.bytes, input.length, output->bytes, capacity, &told);
    output->length = told;
    if (status != CELLAR_TEXT_SMALL || told <= capacity) return status;
    free(output->bytes);
    capacity = told;
  }
}

/* The status if a stream failed, as of the program rxbook. */
enum { STREAM_FAULT = 1 };

/* Says why there is no verdict. */
static int fail(uint8_t status, const char *why) {
  fprintf(stderr, "audit: %s\n", why);
  return status;
}

/* Says so by the status of a call. */
static int fail_by(uint8_t status) {
  return fail(status, status == CELLAR_TEXT_FAULTY ? "faulty input" : "out of memory");
}

int main(void) {
  /* One byte more than an input may have, so that one that is too long is seen to be faulty. */
  const size_t most = 16777216 + 1;
  struct text scenario = {calloc(most, 1), 0}, dump, verdict;
  if (scenario.bytes == NULL) return fail_by(CELLAR_TEXT_NO_MEMORY);
  scenario.length = fread(scenario.bytes, 1, most, stdin);
  if (ferror(stdin)) return fail(STREAM_FAULT, "read fault");

  uint8_t status = answer(cellar_run_dump, scenario, &dump);
  if (status != CELLAR_TEXT_DONE) return fail_by(status);
  status = answer(cellar_audit, dump, &verdict);
  if (status != CELLAR_TEXT_DONE && status != CELLAR_TEXT_SAYS) return fail_by(status);
  if (fwrite(verdict.bytes, 1, verdict.length, stdout) != verdict.length || fflush(stdout) != 0)
    return fail(STREAM_FAULT, "write fault");
  return status;
}
