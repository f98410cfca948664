/* Calls with bad input under CELLAR_ARMOR, many at once for bad_input.py: each has the status that is wanted, nothing is written but what
 * cellarcliff.h says, and the engine keeps its totals. */
#define CELLAR_ARMOR
#include <cellarcliff.h>
#include <string.h>

enum { STEP, NEXT, PASS, STOP, CLOSINGS, TOTALS, EVENT, DUMP, FINISH, NEW, DROP };
enum { OUT = 72, COUNT = 64, STEPPED = 24 }; /* words that a call may write, where its count stands among them, and a step's */

struct bad {
  uint8_t call, handle; /* which; 1: on a handle that keeps nothing */
  uint8_t pointer, off; /* which of its pointers is no good, 0 none; how far it is from one that is, 0 null */
  uint8_t wanted, spare[3];
  uint64_t words[8]; /* the command; or what the call takes, in order */
  uint64_t stack[3];
};
static uint64_t out[OUT], before[OUT];

/* What --plant compiles in, one after the other: faults of a library, each of which is to be found. */
#ifndef PLANT
#define PLANT 0
#endif
enum { FAULTS = 8 };
static void turn(struct bad *it) {
  if (PLANT == 1 && it->call == STEP) it->words[7] = 0;                                        /* a spare field is not looked at */
  if (PLANT == 2 && it->call == STEP && (it->words[0] & 255) > 17) it->words[0] = CELLAR_SHUT; /* a code that is none is another */
  if (PLANT == 3 && it->pointer && it->off == 4) it->pointer = 0;                              /* a pointer that is off by 4 is good */
  if (PLANT == 4) it->handle = 0;                                                              /* a handle that keeps nothing keeps something */
}
static void turn_answer(struct cellar *engine, const struct bad *it, uint8_t *status) {
  struct cellar_stack stack = {.depth = 1};
  struct cellar_command shut = {.what = CELLAR_SHUT};
  struct cellar_stepped step;
  if (PLANT == 5 && it->call == CLOSINGS) out[COUNT]++;                                     /* there is one closing more */
  if (PLANT == 6 && it->call == STEP && *status == CELLAR_GONE) out[6] = 1;                 /* a refused command counts its value */
  if (PLANT == 7 && *status == CELLAR_NOT_HELD) cellar_step(engine, &stack, &shut, &step);  /* a resource that is none closes something */
  if (PLANT == 8 && it->call == NEXT) out[16] = 1;                                          /* a stack that has nothing is handed something */
}
uint64_t bad_faults(void) { return FAULTS; }

static uint8_t made(struct cellar *engine, const struct bad *it) {
  void *bad = it->off ? (char *)out + it->off : NULL;
#define POINTER(n, good) (it->pointer == n ? bad : (void *)(good))
  struct cellar *e = POINTER(1, engine);
  const uint64_t *w = it->words;
  switch (it->call) {
    case STEP: return cellar_step(e, POINTER(2, it->stack), POINTER(3, w), POINTER(4, out));
    case NEXT: return cellar_next(e, POINTER(2, it->stack), POINTER(3, out));
    case PASS: return cellar_pass(e, POINTER(2, it->stack), w[0], (uint8_t)w[1]);
    case STOP: return cellar_stop(e, POINTER(2, it->stack));
    case CLOSINGS: return cellar_closings(e, w[0], POINTER(2, out), w[1], POINTER(3, out + COUNT));
    case TOTALS: return cellar_totals(e, POINTER(2, out));
    case EVENT: return cellar_event(e, w[0], POINTER(2, out));
    case DUMP: return cellar_dump(e, POINTER(2, out), w[0], POINTER(3, out + COUNT));
    case FINISH: return cellar_finish(e);
    case NEW: return cellar_new(e, (uint32_t)w[0]);
  }
  cellar_drop(e);
  return CELLAR_MISUSE;
}

/* Whether these words are 0, and all others as they were. */
static int are_zero(int from, int count) {
  static const uint64_t zeros[OUT];
  return !memcmp(out + from, zeros, 8 * (size_t)count) && !memcmp(out, before, 8 * (size_t)from) &&
         !memcmp(out + from + count, before + from + count, 8 * (size_t)(OUT - from - count));
}
static int is_written_right(const struct bad *it, uint8_t status) {
  if (status == CELLAR_MISUSE) return are_zero(0, 0);
  switch (it->call) {
    case STEP: case NEXT: { /* the counts, and what is spare; of the rest of the answer nothing is said */
      const struct cellar_stepped *step = (const void *)out;
      if (step->is_connected || step->copies || step->closed || step->handed || step->own || step->spare) return 0;
      memcpy(out, before, 8 * STEPPED);
      return are_zero(0, 0);
    }
    case TOTALS: return are_zero(0, 8);
    case EVENT: return are_zero(0, 4);
    case DUMP: /* its length, where there is too little room */
      if ((out[COUNT] != 0) != (status == CELLAR_SMALL)) return 0;
      out[COUNT] = 0;
      break;
    case CLOSINGS: break;
    default: return are_zero(0, 0);
  }
  return are_zero(COUNT, 1);
}

/* Makes so many calls; the place of the first that comes out otherwise, with its status, and 1 where too much or too little was written, 2
 * where something of the engine changed. */
uint64_t bad_calls(struct cellar *engine, const struct bad *calls, uint64_t many, uint64_t *what) {
  const struct cellar is = *engine;
  struct cellar_totals first, now;
  memset(before, 0xAA, sizeof before);
  if (cellar_totals(engine, &first)) return 0;
  for (uint64_t i = 0; i < many; i++) {
    struct cellar nothing = {0};
    struct bad it = calls[i];
    uint8_t status;
    memcpy(out, before, sizeof out);
    turn(&it);
    const struct bad made_so = it;
    status = made(it.handle ? &nothing : engine, &it);
    turn_answer(engine, &it, &status);
    what[0] = status, what[1] = 0;
    if (status != it.wanted) return i;
    what[1] = 1;
    if (!is_written_right(&it, status)) return i;
    what[1] = 2;
    if (memcmp(engine, &is, sizeof is) || nothing.at || memcmp(&it, &made_so, sizeof it) || cellar_totals(engine, &now) ||
        memcmp(&first, &now, sizeof now))
      return i;
  }
  return many;
}
