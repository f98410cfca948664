/* Measures the engine: nanoseconds of processor time, the median of nine rounds with the least and the greatest, and bytes.
 * What crosses lies at another place of a page each round, so that no figure hangs on where it happens to lie.
 * `engine_measured WORK N` does a work N times, once, and prints nothing: for `valgrind --tool=callgrind`, by the slope from N/2 to N. */
#define _POSIX_C_SOURCE 200809L
#include <cellarcliff.h>
#include <malloc.h>
#include <stdlib.h>
#include <string.h>
#include <time.h>

#include "must.h"

enum { N = 200000, ROUNDS = 9 };
static struct crossing {
  struct cellar_command c;
  struct cellar_stack stack;
  struct cellar_stepped s;
} *at;

static double now(void) {
  struct timespec t;
  clock_gettime(CLOCK_PROCESS_CPUTIME_ID, &t);
  return (double)t.tv_sec * 1e9 + (double)t.tv_nsec;
}
static void make(struct cellar *e, uint8_t what) {
  at->c.what = what;
  MUST(cellar_step(e, &at->stack, &at->c, &at->s) == 0);
}
/* How many effects there are to do. */
static int told(struct cellar *e) {
  int many = 0;
  for (; at->s.handed; many++) {
    at->stack.begun = at->s.ticket;
    MUST(cellar_next(e, &at->stack, &at->s) == 0);
  }
  return many;
}
static void emit(struct cellar *e) {
  make(e, CELLAR_NEXT);
  MUST(at->s.own == 1 && told(e) == 1);
}
static struct cellar_node open_node(struct cellar *e, uint8_t place, uint8_t kind, struct cellar_node above, uint8_t flags) {
  at->c.place = place, at->c.kind = kind, at->c.node = above, at->c.flags = flags;
  make(e, CELLAR_OPEN);
  at->c.flags = 0;
  return at->s.node;
}

static const struct cellar_node none = {0, 0};

/* An item: told. */
static void items(struct cellar *e, uint64_t many) {
  at->c.node = open_node(e, CELLAR_ROOT, CELLAR_LEAF, none, CELLAR_WISHES);
  for (uint64_t i = 0; i < many; i++) {
    at->c.value = i;
    emit(e);
  }
}
/* A Using with a leaf whose closing is heard of: one item, disposed of, its resource released. */
static void cycles(struct cellar *e, uint64_t many) {
  for (uint64_t i = 0; i < many; i++) {
    at->c.place = CELLAR_ROOT, at->c.value = i;
    make(e, CELLAR_USING);
    struct cellar_node root = at->s.node;
    at->c.node = open_node(e, CELLAR_SOURCE, CELLAR_LEAF, root, CELLAR_WISHES);
    emit(e);
    at->c.node = root;
    make(e, CELLAR_DISPOSE);
    MUST(at->s.closed == 1 && told(e) == 2);
  }
}
/* An item through a FlatMap, whose inner tells one and completes, each a call from within. */
static void inners(struct cellar *e, uint64_t many) {
  struct cellar_node flat = open_node(e, CELLAR_ROOT, CELLAR_FLAT, none, 0);
  struct cellar_node leaf = open_node(e, CELLAR_SOURCE, CELLAR_LEAF, flat, 0);
  for (uint64_t i = 0; i < many; i++) {
    at->c.node = leaf, at->c.value = i;
    make(e, CELLAR_NEXT);
    MUST(at->s.own == 1 && at->s.effect.kind == CELLAR_E_PROJECT);
    at->stack.begun = at->s.ticket, at->stack.depth++;
    at->c.node = open_node(e, CELLAR_INNER, CELLAR_LEAF, flat, CELLAR_WISHES);
    emit(e);
    make(e, CELLAR_COMPLETE);
    MUST(at->s.closed == 1 && !at->s.handed);
    at->stack.depth--;
    MUST(cellar_next(e, &at->stack, &at->s) == 0 && !at->s.handed);
  }
}
/* A resource held, removed, released. */
static void holds(struct cellar *e, uint64_t many) {
  struct cellar_node root = open_node(e, CELLAR_ROOT, CELLAR_LEAF, none, 0);
  for (uint64_t i = 0; i < many; i++) {
    at->c.node = root, at->c.value = i;
    make(e, CELLAR_HOLD);
    at->c.node = at->s.other;
    make(e, CELLAR_REMOVE);
    MUST(told(e) == 1);
  }
}
/* A resource lent and given back. */
static void leases(struct cellar *e, uint64_t many) {
  at->c.node = open_node(e, CELLAR_ROOT, CELLAR_LEAF, none, 0);
  make(e, CELLAR_HOLD);
  struct cellar_node resource = at->s.other;
  for (uint64_t i = 0; i < many; i++) {
    at->c.node = resource;
    make(e, CELLAR_LEASE);
    at->c.node = at->s.other;
    make(e, CELLAR_GIVE_BACK);
  }
}
/* An item from within a hundred calls, each of which is at an item. */
static void within(struct cellar *e, uint64_t many) {
  for (; at->stack.depth < 100; at->stack.depth++) {
    at->c.node = open_node(e, CELLAR_ROOT, CELLAR_LEAF, none, 0);
    make(e, CELLAR_NEXT);
    MUST(at->s.own == 1);
    at->stack.begun = at->s.ticket;
  }
  items(e, many);
}

static const struct {
  const char *word, *name;
  int many;
  void (*work)(struct cellar *, uint64_t);
} works[] = {{"item", "an item, told", N, items},
             {"cycle", "a Using, an item, disposed of", N / 4, cycles},
             {"inner", "an item through a FlatMap", N / 4, inners},
             {"hold", "a resource held and removed", N / 4, holds},
             {"lease", "a resource lent and given back", N / 4, leases},
             {"within", "an item from within 100 calls", N / 4, within}};
enum { WORKS = sizeof works / sizeof works[0] };

static int by_number(const void *x, const void *y) { return (*(const double *)x > *(const double *)y) - (*(const double *)x < *(const double *)y); }

/* What is asked of malloc for so many open leaves at roots, each with a closing that is to be heard, as lists that grow by parts have it. */
static double bytes(void) {
  struct cellar engine = {0};
  MUST(cellar_new(&engine, 0) == 0);
  struct mallinfo2 before = mallinfo2();
  for (uint64_t i = 0; i < N; i++) open_node(&engine, CELLAR_ROOT, CELLAR_LEAF, none, CELLAR_WISHES);
  struct mallinfo2 after = mallinfo2();
  cellar_drop(&engine);
  return (double)(after.uordblks + after.hblkhd - before.uordblks - before.hblkhd) / N;
}

/* Does a work so many times, and answers how long each took. */
static double time_of(int work, uint64_t many) {
  memset(at, 0, sizeof *at);
  at->stack.depth = 1;
  struct cellar engine = {0};
  MUST(cellar_new(&engine, 0) == 0);
  double begin = now();
  works[work].work(&engine, many);
  double took = (now() - begin) / (double)many;
  cellar_drop(&engine);
  return took;
}

int main(int count, char **words) {
  enum { STEP = 7 * 64 }; /* from round to round, which nine times are a page */
  static double took[WORKS][ROUNDS];
  static _Alignas(4096) unsigned char space[ROUNDS * STEP + sizeof *at];
  for (int i = 0; count == 3 && i < WORKS; i++)
    if (!strcmp(words[1], works[i].word)) {
      at = (struct crossing *)(void *)space;
      time_of(i, strtoull(words[2], NULL, 10));
      return 0;
    }
  MUST(count == 1);
  for (int round = 0; round < ROUNDS; round++)
    for (int i = 0; i < WORKS; i++) {
      at = (struct crossing *)(void *)(space + STEP * round);
      took[i][round] = time_of(i, works[i].many);
    }
  for (int i = 0; i < WORKS; i++) {
    qsort(took[i], ROUNDS, sizeof(double), by_number);
    printf("%-30s %.0f ns (%.0f to %.0f)\n", works[i].name, took[i][ROUNDS / 2], took[i][0], took[i][ROUNDS - 1]);
  }
  printf("%-30s %.0f bytes\n", "an open leaf at a root", bytes());
}
