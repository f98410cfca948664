/* Each request for memory refused in turn, over all commands: with CELLAR_NO_MEMORY nothing changed, the same command goes through
 * afterwards, no call that is to take none asks for any, and all closes and is told: each tag once, each value given back as often as
 * counted. Linked with -Wl,--wrap=malloc,--wrap=realloc. */
#include <cellarcliff.h>
#include <string.h>

#include "must.h"

void *__real_malloc(size_t size);
void *__real_realloc(void *at, size_t size);
void *__wrap_malloc(size_t size);
void *__wrap_realloc(void *at, size_t size);
static long left = -1; /* how many are granted before one is refused; none is where it is negative */
static int takes_none;
static long asked;
static int refuses(void) {
  asked++;
  MUST(!takes_none);
  return left >= 0 && left-- == 0;
}
void *__wrap_malloc(size_t size) { return refuses() ? NULL : __real_malloc(size); }
void *__wrap_realloc(void *at, size_t size) { return refuses() ? NULL : __real_realloc(at, size); }

enum { TAGS = 400, ROUNDS = 12 };
static struct cellar engine;
static struct cellar_stack stack = {.depth = 1};
static struct cellar_stepped step;
static long starved, commands;
static int handed_in[TAGS], released[TAGS];
static uint64_t tags, kept, given_back;

static void tell(const struct cellar_effect *it) {
  if (it->kind == CELLAR_E_RELEASE) released[it->user]++;
  given_back += it->carries;
}

/* What is handed out; now and then it stops in the midst. */
static void serve(int stops) {
  struct cellar_stepped it = step;
  for (int i = 0; it.handed; i++) {
    stack.begun = it.ticket;
    tell(&it.effect);
    if (stops && i % 2) {
      takes_none = 1;
      MUST(cellar_stop(&engine, &stack) == 0);
      takes_none = 0;
      return;
    }
    MUST(cellar_next(&engine, &stack, &it) == 0);
  }
}

static int closes(uint8_t what) {
  switch (what) {
    case CELLAR_OPEN: case CELLAR_USING: case CELLAR_HOLD: case CELLAR_APPLY: case CELLAR_LEASE: case CELLAR_CONNECT: case CELLAR_NEXT: case CELLAR_PUT:
      return 0;
  }
  return 1;
}

/* Makes the command, once more where memory was refused, and looks that nothing had changed. */
static uint8_t make(uint8_t what, uint8_t place, uint8_t kind, struct cellar_node node, uint64_t value) {
  struct cellar_command c = {.what = what, .place = place, .kind = kind, .node = node, .value = value, .user = 5};
  struct cellar_totals before, after;
  uint8_t status;
  if (what == CELLAR_OPEN || what == CELLAR_CONNECT) c.flags = CELLAR_WISHES;
  commands++;
  MUST(cellar_next(&engine, &stack, &step) == 0);
  serve(0);
  MUST(cellar_totals(&engine, &before) == 0);
  status = cellar_step(&engine, &stack, &c, &step);
  if (status == CELLAR_NO_MEMORY) {
    MUST(left < 0 && !closes(what) && !step.copies && !step.closed && !step.handed);
    MUST(cellar_totals(&engine, &after) == 0);
    after.events = before.events; /* hubs that were made stay */
    MUST(memcmp(&before, &after, sizeof before) == 0);
    starved++;
    status = cellar_step(&engine, &stack, &c, &step);
  }
  if (status == 0) kept += step.copies, serve(commands % 3 == 0);
  return status;
}
static struct cellar_node opened(uint8_t place, uint8_t kind, struct cellar_node node, uint64_t value) {
  MUST(make(CELLAR_OPEN, place, kind, node, value) == 0);
  return step.node;
}
static struct cellar_node used(uint8_t place, struct cellar_node node) {
  MUST(make(CELLAR_USING, place, 0, node, tags) == 0);
  handed_in[tags++] = 1;
  return step.node;
}
static struct cellar_node held(struct cellar_node node) {
  MUST(make(CELLAR_HOLD, 0, 0, node, tags) == 0);
  handed_in[tags++] = 1;
  return step.other;
}
static void done(uint8_t what, struct cellar_node node, uint64_t value) { MUST(make(what, 0, 0, node, value) == 0); }

static const struct cellar_node none = {0, 0};
static void round_of_all(void) {
  struct cellar_node flat = opened(CELLAR_ROOT, CELLAR_FLAT, none, 0), source = opened(CELLAR_SOURCE, CELLAR_LEAF, flat, 0);
  struct cellar_node inner, res, lease, connection, leaf, until, notifier, change;
  for (int i = 0; i < 3; i++) {
    done(CELLAR_NEXT, source, 9);
    inner = used(CELLAR_INNER, flat);
    leaf = opened(CELLAR_SOURCE, CELLAR_LEAF, inner, 0);
    res = held(leaf);
    done(CELLAR_APPLY, res, 0);
    done(CELLAR_LEASE, res, 0);
    lease = step.other;
    done(CELLAR_NEXT, leaf, 3);
    done(i ? CELLAR_COMPLETE : CELLAR_REMOVE, i ? leaf : res, 0);
    if (i < 2) done(CELLAR_GIVE_BACK, lease, 0);
  }
  done(CELLAR_NEXT, source, 4);
  done(CELLAR_DECLINE, flat, 0);
  done(CELLAR_NEXT, source, 4);
  change = opened(CELLAR_ROOT, CELLAR_SWITCH, none, 0);
  leaf = opened(CELLAR_SOURCE, CELLAR_LEAF, change, 0);
  done(CELLAR_NEXT, leaf, 8);
  done(CELLAR_PUT, change, 7);
  opened(CELLAR_INNER, CELLAR_LEAF, change, 0);
  done(CELLAR_NEXT, leaf, 8);
  done(CELLAR_FAIL, change, 6);
  until = opened(CELLAR_ROOT, CELLAR_UNTIL, none, 0);
  opened(CELLAR_SOURCE, CELLAR_LEAF, until, 0);
  notifier = opened(CELLAR_NOTIFIER, CELLAR_LEAF, until, 0);
  held(until);
  done(CELLAR_NEXT, notifier, 2);
  opened(CELLAR_ROOT, CELLAR_SHARED, none, 77);
  connection = step.other;
  MUST(step.is_connected == 1);
  leaf = opened(CELLAR_SOURCE, CELLAR_LEAF, connection, 0);
  for (int i = 0; i < 20; i++) opened(CELLAR_ROOT, CELLAR_SHARED, none, 77);
  done(CELLAR_NEXT, leaf, 1);
  opened(CELLAR_ROOT, CELLAR_PUBLISHED, none, 78);
  done(CELLAR_CONNECT, none, 78);
  held(step.other);
  done(CELLAR_DISCONNECT, none, 78);
  done(CELLAR_ERROR, leaf, 3);
  res = opened(CELLAR_ROOT, CELLAR_PASS, none, 0);
  done(CELLAR_ABORT, res, 5);
  done(CELLAR_DISPOSE, opened(CELLAR_ROOT, CELLAR_LEAF, none, 0), 0);
}

/* Items past the room of a small engine's history, each time behind a checkpoint that the engine makes by itself. */
enum { EVENTS = 24 };
static void round_of_items(void) {
  struct cellar_node leaf = opened(CELLAR_ROOT, CELLAR_LEAF, none, 0);
  held(leaf);
  for (uint64_t i = 0; i < 2 * EVENTS; i++) done(CELLAR_NEXT, leaf, i);
  done(CELLAR_DISPOSE, leaf, 0);
}

/* Rounds in an engine of so many events, once for each of their requests. */
static void refuse_each(const char *what, uint32_t events, void (*one_round)(void)) {
  long n = 0, last, in_all, unseen = 0;
  commands = 0;
  do {
    struct cellar_totals totals;
    memset(handed_in, 0, sizeof handed_in), memset(released, 0, sizeof released);
    tags = kept = given_back = 0;
    last = starved;
    left = n, asked = 0, stack.begun = 0;
    if (cellar_new(&engine, events) == CELLAR_NO_MEMORY) {
      starved++;
      MUST(cellar_new(&engine, events) == 0);
    }
    for (int i = 0; i < ROUNDS; i++) one_round();
    used(CELLAR_ROOT, none);
    MUST(cellar_finish(&engine) == CELLAR_UNTAKEN);
    in_all = asked;
    unseen += starved == last && in_all > n; /* growth that was refused asks for less before it gives up */
    takes_none = 1;
    while (make(CELLAR_SHUT, 0, 0, none, 0) == 0) continue;
    MUST(cellar_next(&engine, &stack, &step) == 0 && !step.handed);
    MUST(cellar_totals(&engine, &totals) == 0 && totals.accepted == tags && totals.taken == tags && totals.effects == 0 && totals.nodes == 0);
    MUST(cellar_finish(&engine) == 0);
    takes_none = 0;
    left = -1;
    for (uint64_t i = 0; i < tags; i++) MUST(handed_in[i] == 1 && released[i] == 1);
    MUST(kept == given_back);
    n++;
  } while (in_all >= n);
  printf("%s: %ld requests refused in turn, %ld of them made up for at once, %ld commands\n", what, n, unseen, commands);
}

int main(void) {
  refuse_each("all commands", 0, round_of_all);
  refuse_each("a full history", EVENTS, round_of_items);
}
