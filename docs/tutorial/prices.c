/* Keeps the subscriptions of a price view: the program of the tutorial, in C. It prints what stands in prices.out.
 * Built as `gcc prices.c $(pkg-config --cflags --libs cellarcliff) -o prices`. It has one thread, and so no lock. */
#include <cellarcliff.h>
#include <stdio.h>
#include <stdlib.h>

static struct cellar engine;
static struct cellar_stack stack;
static struct cellar_node mapping, lines; /* a FlatMap or Switch, and what its latest file tells */
#define MAKE(...) make((struct cellar_command){__VA_ARGS__})
static struct cellar_stepped make(struct cellar_command command);
static struct cellar_node leaf_of(struct cellar_node node);

/* The engine's word for an observer: here the address of its name. */
static uint64_t word(const char *name) { return (uintptr_t)name; }

/* A file for each item but 11. */
static void file_for(uint64_t item) {
  if (item == 11) {
    MAKE(.what = CELLAR_DECLINE, .node = mapping);
    return;
  }
  struct cellar_node file = MAKE(.what = CELLAR_USING, .place = CELLAR_INNER, .node = mapping, .value = item).node;
  lines = leaf_of(file);
}

/* Does what an effect says. */
static void tell(struct cellar_effect it) {
  const char *name = (const char *)(uintptr_t)it.user;
  if (it.kind == CELLAR_E_NEXT) printf("%s receives %d\n", name, (int)it.value);
  if (it.kind == CELLAR_E_COMPLETED) printf("%s receives the end\n", name);
  if (it.kind == CELLAR_E_PROJECT) file_for(it.value);
  if (it.kind == CELLAR_E_RELEASE) printf("release file %d\n", (int)it.user); /* a real program closes it here */
}

/* Makes a command, and does what is handed out then. */
static uint8_t step(struct cellar_command command, struct cellar_stepped *made) {
  stack.depth++;
  uint8_t status = cellar_step(&engine, &stack, &command, made);
  for (struct cellar_stepped now = *made; now.handed; cellar_next(&engine, &stack, &now)) {
    stack.begun = now.ticket;
    tell(now.effect);
  }
  stack.depth--;
  return status;
}

/* The same of a command that this program can make: a refusal ends it. */
static struct cellar_stepped make(struct cellar_command command) {
  struct cellar_stepped made;
  if (step(command, &made) != CELLAR_DONE) abort();
  return made;
}

/* A leaf at the source of a node. */
static struct cellar_node leaf_of(struct cellar_node node) {
  return MAKE(.what = CELLAR_OPEN, .place = CELLAR_SOURCE, .kind = CELLAR_LEAF, .node = node).node;
}

static void next(struct cellar_node leaf, uint64_t item) { MAKE(.what = CELLAR_NEXT, .node = leaf, .value = item); }

/* One observer with a file, and the source that it mirrors. */
static void watch(void) {
  struct cellar_node prices = MAKE(.what = CELLAR_USING, .place = CELLAR_ROOT, .user = word("prices"), .value = 7).node;
  struct cellar_node ticks = leaf_of(prices);
  next(ticks, 101);
  MAKE(.what = CELLAR_COMPLETE, .node = ticks);
}

/* An observer of the feed, a share. Its first one connects it: then `other` of the answer is the connection. */
static struct cellar_stepped subscribe(const char *name) {
  return MAKE(.what = CELLAR_OPEN, .place = CELLAR_ROOT, .kind = CELLAR_SHARED, .user = word(name), .value = word("feed"),
              .hub = CELLAR_UNKNOWN_HUB);
}

/* Two observers of one source: its file is opened with the first, and comes back with the last. */
static void share(void) {
  struct cellar_stepped first = subscribe("first"), second = subscribe("second");
  if (first.is_connected) {
    struct cellar_node line = MAKE(.what = CELLAR_USING, .place = CELLAR_SOURCE, .node = first.other, .value = 9).node;
    struct cellar_node ticks = leaf_of(line);
    next(ticks, 102);
  }
  MAKE(.what = CELLAR_DISPOSE, .node = first.node);
  MAKE(.what = CELLAR_DISPOSE, .node = second.node);
}

/* A file for the first item that comes, none for the second (FlatMap). */
static void merge(void) {
  mapping = MAKE(.what = CELLAR_OPEN, .place = CELLAR_ROOT, .kind = CELLAR_FLAT, .user = word("merged")).node;
  struct cellar_node names = leaf_of(mapping);
  next(names, 10);
  next(names, 11);
  next(lines, 103);
  MAKE(.what = CELLAR_COMPLETE, .node = lines);
  MAKE(.what = CELLAR_COMPLETE, .node = names);
}

/* A file for each item; the new one takes the place of the old one (Switch). */
static void latest(void) {
  mapping = MAKE(.what = CELLAR_OPEN, .place = CELLAR_ROOT, .kind = CELLAR_SWITCH, .user = word("latest")).node;
  struct cellar_node names = leaf_of(mapping);
  next(names, 12);
  next(names, 13);
  next(lines, 104);
  MAKE(.what = CELLAR_DISPOSE, .node = mapping);
}

/* A request borrows the file of a subscription, and outlives it. */
static void lend(void) {
  struct cellar_stepped page = MAKE(.what = CELLAR_USING, .place = CELLAR_ROOT, .user = word("page"), .value = 15);
  struct cellar_node request = MAKE(.what = CELLAR_LEASE, .node = page.other).other;
  MAKE(.what = CELLAR_DISPOSE, .node = page.node);
  puts("the page is gone, the request goes on");
  MAKE(.what = CELLAR_GIVE_BACK, .node = request);
}

/* A subscription that nobody ends. */
static void forget(void) { MAKE(.what = CELLAR_USING, .place = CELLAR_ROOT, .user = word("forgotten"), .value = 8); }

/* Closes one of what is open after the other, and frees the engine. */
static int close_all(void) {
  struct cellar_stepped made;
  while (step((struct cellar_command){.what = CELLAR_SHUT}, &made) == CELLAR_DONE) continue;
  return cellar_finish(&engine);
}

int main(void) {
  static void (*const parts[])(void) = {watch, share, merge, latest, lend, forget};
  static const char *const names[] = {"watch", "share", "merge", "latest", "lend", "forget"};
  if (!CELLAR_FITS()) {
    fputs(CELLAR_ANOTHER "\n", stderr);
    return 1;
  }
  if (cellar_new(&engine, 0) != CELLAR_DONE) return 1;
  for (int i = 0; i < 6; i++) {
    printf("-- %s\n", names[i]);
    parts[i]();
  }
  puts("-- close");
  return close_all();
}
