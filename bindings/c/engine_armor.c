/* With CELLAR_ARMOR each null and each misaligned pointer is answered CELLAR_MISUSE, and the library is not called. */
#define CELLAR_ARMOR
#include <cellarcliff.h>
#include <string.h>

#include "must.h"

static struct cellar engine;
static uint64_t words[64];
/* A pointer that is no good: null, or one that is not aligned. */
#define BAD(type) ((type *)(i == 0 ? NULL : (void *)((char *)words + i)))
#define MISUSED(call) MUST((call) == CELLAR_MISUSE && memcmp(&engine, &kept, sizeof engine) == 0)

int main(void) {
  struct cellar_command command = {.what = CELLAR_OPEN, .user = 7};
  struct cellar_stack stack = {.depth = 1};
  struct cellar_stepped step;
  struct cellar_totals totals;
  struct cellar_event event;
  uint64_t one, list[8];
  uint8_t text[8];
  MUST(cellar_new(&engine, 0) == 0 && cellar_step(&engine, &stack, &command, &step) == 0);
  const struct cellar kept = engine;
  for (int i = 0; i < 8; i++) {
    MISUSED(cellar_new(BAD(struct cellar), 0));
    MISUSED(cellar_step(BAD(struct cellar), &stack, &command, &step));
    MISUSED(cellar_step(&engine, BAD(struct cellar_stack), &command, &step));
    MISUSED(cellar_step(&engine, &stack, BAD(struct cellar_command), &step));
    MISUSED(cellar_step(&engine, &stack, &command, BAD(struct cellar_stepped)));
    MISUSED(cellar_next(BAD(struct cellar), &stack, &step));
    MISUSED(cellar_next(&engine, BAD(struct cellar_stack), &step));
    MISUSED(cellar_next(&engine, &stack, BAD(struct cellar_stepped)));
    MISUSED(cellar_pass(BAD(struct cellar), &stack, 0, 1));
    MISUSED(cellar_pass(&engine, BAD(struct cellar_stack), 0, 1));
    MISUSED(cellar_stop(BAD(struct cellar), &stack));
    MISUSED(cellar_stop(&engine, BAD(struct cellar_stack)));
    MISUSED(cellar_closings(BAD(struct cellar), 0, list, 8, &one));
    MISUSED(cellar_closings(&engine, 0, BAD(uint64_t), 8, &one));
    MISUSED(cellar_closings(&engine, 0, list, 8, BAD(uint64_t)));
    MISUSED(cellar_totals(BAD(struct cellar), &totals));
    MISUSED(cellar_totals(&engine, BAD(struct cellar_totals)));
    MISUSED(cellar_event(BAD(struct cellar), 0, &event));
    MISUSED(cellar_event(&engine, 0, BAD(struct cellar_event)));
    MISUSED(cellar_dump(BAD(struct cellar), text, sizeof text, &one));
    MISUSED(cellar_dump(&engine, NULL, sizeof text, &one));
    MISUSED(cellar_dump(&engine, text, sizeof text, BAD(uint64_t)));
    MISUSED(cellar_finish(BAD(struct cellar)));
    cellar_drop(BAD(struct cellar));
    MUST(memcmp(&engine, &kept, sizeof engine) == 0);
  }
  MUST(cellar_totals(&engine, &totals) == 0 && totals.nodes == 1 && totals.effects == 0);
  MUST(cellar_finish(&engine) == CELLAR_UNTAKEN);
  cellar_drop(&engine);
  MUST(engine.at == 0 && cellar_finish(&engine) == CELLAR_NOTHING_KEPT);
  MUST(cellar_step(&engine, &stack, &command, &step) == CELLAR_NOTHING_KEPT && !step.copies && !step.closed && !step.handed);
  MUST(cellar_next(&engine, &stack, &step) == CELLAR_NOTHING_KEPT && !step.copies && !step.closed && !step.handed);
  MUST(cellar_pass(&engine, &stack, 0, 0) == CELLAR_NOTHING_KEPT && cellar_stop(&engine, &stack) == CELLAR_NOTHING_KEPT);
  one = 1;
  MUST(cellar_closings(&engine, 0, list, 8, &one) == CELLAR_NOTHING_KEPT && one == 0);
  MUST(cellar_totals(&engine, &totals) == CELLAR_NOTHING_KEPT);
  MUST(cellar_event(&engine, 0, &event) == CELLAR_NOTHING_KEPT && cellar_dump(&engine, text, sizeof text, &one) == CELLAR_NOTHING_KEPT);
  puts("each bad pointer is answered CELLAR_MISUSE");
}
