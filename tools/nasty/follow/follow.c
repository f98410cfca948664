/* Random commands on a library and on the nasty engine, which follows it: follow LIBRARY NASTY COMMANDS SEED. It ends where no choice of the
 * nasty engine explains what the library did, and says where that was.
 *
 * A course has an engine of each, three stacks whose calls nest, go on, pass, stop and leave early, and commands of which one in twenty has a
 * request for memory refused; where that is made up for at once the course ends, since what it put off does not show. What may be asked of
 * which node is read from the nasty engine. */
#define _GNU_SOURCE
#include <dlfcn.h>
#include <stdarg.h>
#include <stdio.h>
#include <stdlib.h>
#include <string.h>

#include "../engine.h"

enum { MOST_EVENTS = 1 << 16, MOST_WORDS = 1 << 12, STACKS = 3, DEEPEST = 6 };

struct side {
  struct cellar handle;
  uint8_t (*new_one)(struct cellar *, uint32_t);
  uint8_t (*step)(struct cellar *, const struct cellar_stack *, const struct cellar_command *, struct cellar_stepped *);
  uint8_t (*next)(struct cellar *, const struct cellar_stack *, struct cellar_stepped *);
  uint8_t (*pass)(struct cellar *, const struct cellar_stack *, uint64_t, uint8_t);
  uint8_t (*stop)(struct cellar *, const struct cellar_stack *);
  uint8_t (*closings)(struct cellar *, uint64_t, uint64_t *, size_t, uint64_t *);
  uint8_t (*totals)(struct cellar *, struct cellar_totals *);
  uint8_t (*event)(struct cellar *, uint64_t, struct cellar_event *);
  uint8_t (*finish)(struct cellar *);
  void (*drop)(struct cellar *);
  uint64_t slots[MOST_EVENTS]; /* of keys, by their numbers */
};

static struct side real, nasty;
static void (*follow)(struct cellar *, struct told *);
static struct cellar_event events[MOST_EVENTS];
static struct told told;
static uint64_t seed, done, seen, word, statuses[32];
static uint8_t last;
struct tickets { /* of one effect, of each side */
  uint64_t of[2];
};
static struct stack { /* calls that are under way: what each was handed, and what was begun last */
  struct tickets handed[DEEPEST], begun;
  uint64_t depth;
} stacks[STACKS];

static uint64_t chance(uint64_t many) {
  seed = seed * UINT64_C(6364136223846793005) + 1442695040888963407;
  return (seed >> 33) % many;
}

_Noreturn static void differs_in(const char *what, ...) {
  va_list words;
  va_start(words, what);
  printf("DIFFERS at command %llu: ", (unsigned long long)done);
  vprintf(what, words);
  puts("");
  exit(1);
}

/* Memory, of which the library may be refused one request. */
static int64_t refused = -1;
extern void *__libc_malloc(size_t), *__libc_realloc(void *, size_t);
void *malloc(size_t size) { return refused >= 0 && refused-- == 0 ? NULL : __libc_malloc(size); }
void *realloc(void *at, size_t size) { return refused >= 0 && refused-- == 0 ? NULL : __libc_realloc(at, size); }

static void opened(struct side *side, const char *path) {
  void *library = dlopen(path, RTLD_NOW | RTLD_LOCAL);
  if (!library)
    differs_in("%s", dlerror());
  const char *const names[] = {"new", "step", "next", "pass", "stop", "closings", "totals", "event", "finish", "drop"};
  void **calls = (void **)&side->new_one;
  for (size_t i = 0; i < sizeof names / sizeof *names; i++) {
    char name[32];
    snprintf(name, sizeof name, "cellar_%s", names[i]);
    if (!(calls[i] = dlsym(library, name)))
      differs_in("there is no %s in %s", name, path);
  }
  if (side == &nasty)
    *(void **)&follow = dlsym(library, "nasty_follow");
}

static struct engine *state(void) { return (struct engine *)(uintptr_t)nasty.handle.at; }

/* Answers ----------------------------------------------------------------------------------------------------------------------*/

struct list_of {
  uint64_t at[MOST_WORDS];
  size_t many;
};

static bool is_same(const struct cellar_effect *a, const struct cellar_effect *b) {
  return a->user == b->user && a->by == b->by && a->kind == b->kind && a->carries == b->carries && (!a->carries || a->value == b->value);
}

static void same_effect(const struct cellar_effect *a, const struct cellar_effect *b) {
  if (!is_same(a, b))
    differs_in("an effect of kind %u for %llu, and it is of kind %u for %llu", a->kind, (unsigned long long)a->user, b->kind, (unsigned long long)b->user);
}

static void all_of(struct side *side, const struct cellar_stepped *step, struct list_of *list) {
  uint64_t many = step->closed, count = 0;
  if (many > MOST_WORDS)
    differs_in("there are %llu closings", (unsigned long long)many);
  if (side->closings(&side->handle, 0, list->at, MOST_WORDS, &count) || count != many)
    differs_in("there are %llu closings of %llu", (unsigned long long)count, (unsigned long long)many);
  list->many = count;
  if (memcmp(list->at, step->closings, 8 * (many < CELLAR_ROOM ? many : CELLAR_ROOM)))
    differs_in("the first closings of an answer are other ones");
}

static int by_size(const void *a, const void *b) {
  uint64_t x = *(const uint64_t *)a, y = *(const uint64_t *)b;
  return (x > y) - (x < y);
}

static void same_answers(const struct cellar_command *c, const struct cellar_stepped *a, const struct cellar_stepped *b) {
  static struct list_of lists[2];
  bool opens = c->what == CELLAR_OPEN || c->what == CELLAR_USING, makes = c->what == CELLAR_USING || c->what == CELLAR_HOLD || c->what == CELLAR_LEASE ||
                                                                         c->what == CELLAR_CONNECT || a->is_connected;
  const uint64_t counts[2][3] = {{a->is_connected, a->copies, a->closed}, {b->is_connected, b->copies, b->closed}};
  static const char *const what[3] = {"connected", "copies", "closed"};
  for (int i = 0; i < 3; i++)
    if (counts[0][i] != counts[1][i])
      differs_in("%s is %llu, and it is %llu", what[i], (unsigned long long)counts[0][i], (unsigned long long)counts[1][i]);
  if ((opens && a->node.number != b->node.number) || (makes && a->other.number != b->other.number))
    differs_in("a key is another");
  if (opens) {
    real.slots[a->node.number] = a->node.slot;
    nasty.slots[b->node.number] = b->node.slot;
  }
  if (makes) {
    real.slots[a->other.number] = a->other.slot;
    nasty.slots[b->other.number] = b->other.slot;
  }
  all_of(&real, a, &lists[0]), all_of(&nasty, b, &lists[1]);
  qsort(lists[0].at, lists[0].many, 8, by_size), qsort(lists[1].at, lists[1].many, 8, by_size);
  if (memcmp(lists[0].at, lists[1].at, 8 * lists[0].many))
    differs_in("other nodes are closed");
}

/* What both hand out, which is under way then. */
static void same_handed(struct stack *stack, uint64_t depth, const struct cellar_stepped *a, const struct cellar_stepped *b) {
  if (a->handed != b->handed || a->own != b->own)
    differs_in("%llu is handed out, %llu its own, and it is %llu, %llu", (unsigned long long)a->handed, (unsigned long long)a->own,
               (unsigned long long)b->handed, (unsigned long long)b->own);
  stack->depth = depth - 1;
  if (!a->handed)
    return;
  same_effect(&a->effect, &b->effect);
  stack->handed[stack->depth++] = (struct tickets){{a->ticket, b->ticket}};
}

static struct cellar_stack stack_of(const struct stack *stack, uint64_t depth, int side) {
  return (struct cellar_stack){(uint64_t)(stack - stacks) + 1, depth, stack->begun.of[side]};
}

static void begins(struct stack *stack) { stack->begun = stack->handed[stack->depth - 1]; }

/* Commands ---------------------------------------------------------------------------------------------------------------------*/

static bool is_one_of(const struct node *node, int what) {
  switch (what) {
  case CELLAR_NEXT:
  case CELLAR_COMPLETE:
  case CELLAR_ERROR:
    return node->kind == CELLAR_LEAF;
  case CELLAR_FAIL:
  case CELLAR_DECLINE:
    return node->owed;
  case CELLAR_DISPOSE:
    return node->place == CELLAR_ROOT && node->kind != CONNECTION;
  case CELLAR_ABORT:
    return node->kind != CELLAR_LEAF && !is_of_share(node->kind) && !node->below;
  default:
    return true;
  }
}

static uint64_t one_of(const struct shelf *shelf) {
  if (!shelf->many || chance(12) == 0)
    return seen ? chance(seen) : 0;
  uint64_t late = chance(3) ? chance(shelf->many < 6 ? shelf->many : 6) : chance(shelf->many);
  return *(uint64_t *)shelf->at[shelf->many - 1 - late];
}

static uint64_t node_for(int what) {
  const struct shelf *nodes = &state()->book.nodes;
  for (int tries = 0; tries < 12 && nodes->many; tries++) {
    uint64_t number = one_of(nodes);
    const struct node *node = shelf_find(nodes, number);
    if (node && is_one_of(node, what))
      return number;
  }
  return one_of(nodes);
}

static void place_of(struct cellar_command *c, bool shares) {
  static const uint8_t kinds[] = {CELLAR_LEAF, CELLAR_LEAF, CELLAR_LEAF, CELLAR_LEAF, CELLAR_PASS, CELLAR_FLAT, CELLAR_SWITCH, CELLAR_UNTIL,
                                  CELLAR_SHARED, CELLAR_SHARED, CELLAR_PUBLISHED};
  c->kind = c->what == CELLAR_USING ? 0 : kinds[chance(shares ? 11 : 8)];
  if (is_of_share(c->kind)) {
    c->value = chance(3) * 2 + (c->kind == CELLAR_PUBLISHED);
    c->level = (uint32_t)chance(9);
  }
  c->flags |= chance(3) ? 0 : CELLAR_WISHES;
  if (chance(4) == 0 || !state()->book.nodes.many) {
    if (chance(3) == 0)
      c->flags |= CELLAR_LANE_OF_NODE | (chance(3) ? 0 : CELLAR_OF_PROJECTIONS);
    return;
  }
  for (int tries = 0; tries < 6; tries++) { /* mostly a place that is free */
    c->node.number = node_for(CELLAR_OPEN);
    const struct node *node = shelf_find(&state()->book.nodes, c->node.number);
    if (!node || node->kind == CELLAR_LEAF || is_of_share(node->kind))
      continue;
    c->place = node->owed ? CELLAR_INNER : node->kind == CELLAR_UNTIL && chance(2) ? CELLAR_NOTIFIER : CELLAR_SOURCE;
    if (node->owed || (c->place == CELLAR_SOURCE ? !node->had_source : !node->had_notifier))
      return;
  }
  c->place = (uint8_t)(1 + chance(3));
}

static struct cellar_command random_command(bool shares) {
  static const uint8_t often[] = {40, 7, 7, 40, 6, 3, 3, 4, 3, 3, 2, 4, 1, 2, 2, 3, 4, 4};
  uint64_t all = 0, chosen;
  for (size_t i = 0; i < sizeof often; i++)
    all += often[i];
  chosen = chance(all);
  struct cellar_command c = {.hub = chance(2) ? CELLAR_UNKNOWN_HUB : chance(2000), .user = ++word, .value = ++word, .by = chance(9)};
  while (chosen >= often[c.what])
    chosen -= often[c.what++];
  const struct book *book = &state()->book;
  if (c.what == CELLAR_OPEN || c.what == CELLAR_USING)
    place_of(&c, shares);
  else if (c.what >= CELLAR_APPLY && c.what <= CELLAR_LEASE)
    c.node.number = one_of(&book->resources);
  else if (c.what == CELLAR_GIVE_BACK)
    c.node.number = one_of(&book->leases);
  else if (c.what == CELLAR_CONNECT || c.what == CELLAR_DISCONNECT) {
    c.value = chance(3) * 2 + 1;
    c.what = shares ? c.what : CELLAR_NEXT;
    c.flags = c.what == CELLAR_CONNECT && chance(2) ? CELLAR_WISHES : 0;
  }
  if (c.what != CELLAR_OPEN && c.what != CELLAR_USING && c.what < CELLAR_APPLY)
    c.node.number = node_for(c.what);
  c.flags |= c.what == CELLAR_NEXT && chance(5) == 0 ? CELLAR_QUEUES : c.what == CELLAR_PUT && chance(3) == 0 ? CELLAR_OF_PROJECTIONS : 0;
  c.spare = chance(200) == 0;
  return c;
}

/* A command, or none; whether the course goes on. */
static bool step(struct stack *stack, uint64_t depth, struct cellar_command *c) {
  static struct cellar_stepped steps[2];
  uint8_t status[2];
  bool makes_hubs = c && !state()->book.has_hubs && (c->what == CELLAR_CONNECT || (c->what == CELLAR_OPEN && is_of_share(c->kind)));
  int64_t which = c && !makes_hubs && chance(20) == 0 ? (int64_t)chance(4) : -1;
  bool was_refused = false;
  for (int i = 0; i < 2; i++) {
    struct side *side = i ? &nasty : &real;
    struct cellar_stack at = stack_of(stack, depth, i);
    if (c)
      c->node.slot = c->node.number < seen ? side->slots[c->node.number] : 5;
    refused = i ? -1 : which;
    status[i] = c ? side->step(&side->handle, &at, c, &steps[i]) : side->next(&side->handle, &at, &steps[i]);
    was_refused |= refused < 0 && which >= 0 && !i;
    refused = -1;
    while (!i && seen < MOST_EVENTS && !real.event(&real.handle, seen, &events[seen]))
      seen++;
    if (seen == MOST_EVENTS)
      differs_in("too many events");
    told = (struct told){events, seen, status[0], steps[0].handed, steps[0].own, steps[0].effect, NULL};
    if (was_refused && status[0] != CELLAR_NO_MEMORY)
      return false;
  }
  done++;
  statuses[(last = status[0]) & 31]++;
  if (told.differs || status[0] != status[1])
    differs_in("command %d has status %u, and it is %u: %s", c ? c->what : -1, status[0], status[1], told.differs ? told.differs : "");
  if (c && !status[0])
    same_answers(c, &steps[0], &steps[1]);
  same_handed(stack, depth, &steps[0], &steps[1]);
  return true;
}

/* Serving ----------------------------------------------------------------------------------------------------------------------*/

static void passes(struct stack *stack) {
  uint64_t from = chance(2) ? stack->depth : 1 + chance(stack->depth);
  uint8_t now = (uint8_t)chance(2);
  for (int i = 0; i < 2; i++) {
    struct side *side = i ? &nasty : &real;
    struct cellar_stack at = stack_of(stack, stack->depth + 1, i);
    if (side->pass(&side->handle, &at, from, now))
      differs_in("a pass is refused");
  }
}

static void stops(struct stack *stack, uint64_t depth) {
  for (int i = 0; i < 2; i++) {
    struct side *side = i ? &nasty : &real;
    struct cellar_stack at = stack_of(stack, depth, i);
    if (side->stop(&side->handle, &at))
      differs_in("a stop is refused");
  }
  stack->depth = depth - 1;
}

static void same_totals(void) {
  struct cellar_totals a, b;
  real.totals(&real.handle, &a), nasty.totals(&nasty.handle, &b);
  if (memcmp(&a, &b, sizeof a))
    differs_in("the totals are other ones");
}

static void serve_some(void) {
  for (uint64_t i = chance(6); i > 0; i--) {
    struct stack *stack = &stacks[chance(5) % STACKS];
    if (stack->depth && chance(8))
      begins(stack);
    switch (chance(30)) {
    case 0:
      same_totals();
      break;
    case 1:
      stack->depth = chance(stack->depth + 1); /* leaves early */
      break;
    case 2:
      if (stack->depth)
        stops(stack, 1 + chance(stack->depth));
      break;
    case 3:
    case 4:
      if (stack->depth)
        passes(stack);
      break;
    default:
      if (stack->depth || chance(6) == 0)
        step(stack, stack->depth ? stack->depth : 1, NULL);
    }
  }
}

/* All that is due to each stack, and then what is left. */
static void drain(void) {
  for (int i = 0; i < 2 * STACKS; i++)
    for (step(&stacks[i % STACKS], 1, NULL); stacks[i % STACKS].depth; step(&stacks[i % STACKS], 1, NULL))
      begins(&stacks[i % STACKS]);
  same_totals();
  if (real.finish(&real.handle) || nasty.finish(&nasty.handle))
    differs_in("all is done, and an engine is not");
}

static void course(void) {
  bool shares = chance(3) == 0, small = !shares && chance(4) == 0, goes_on = true;
  uint32_t limit = small ? (uint32_t)(6 + chance(60)) : chance(2) ? 0 : UINT32_MAX;
  seen = word = 0;
  memset(stacks, 0, sizeof stacks);
  if (real.new_one(&real.handle, limit) || nasty.new_one(&nasty.handle, limit))
    differs_in("there is no engine");
  follow(&nasty.handle, &told);
  for (uint64_t commands = 40 + chance(160); commands > 0 && goes_on; commands--) {
    struct cellar_command c = random_command(shares);
    struct stack *stack = &stacks[chance(5) % STACKS];
    if (stack->depth && chance(8))
      begins(stack);
    goes_on = step(stack, stack->depth < DEEPEST && chance(6) ? stack->depth + 1 : stack->depth ? stack->depth : 1, &c);
    if (goes_on)
      serve_some();
  }
  struct cellar_command c = {.what = CELLAR_SHUT};
  for (last = 0; goes_on && last != CELLAR_GONE;)
    goes_on = step(&stacks[1], 1, &c);
  if (goes_on)
    drain();
  else
    real.drop(&real.handle), nasty.drop(&nasty.handle);
}

int main(int many, char **words) {
  if (many != 5)
    return fputs("follow LIBRARY NASTY COMMANDS SEED\n", stderr), 2;
  opened(&real, words[1]);
  opened(&nasty, words[2]);
  seed = strtoull(words[4], NULL, 10);
  uint64_t courses = 0;
  for (; done < strtoull(words[3], NULL, 10); courses++)
    course();
  printf("%llu steps in %llu courses, %llu of them done, %llu refused memory; none differs\n", (unsigned long long)done, (unsigned long long)courses,
         (unsigned long long)statuses[0], (unsigned long long)statuses[CELLAR_NO_MEMORY]);
  return 0;
}
