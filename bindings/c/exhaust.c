/* An operator over the engine: exhaust. An item that comes while the inner observable of an earlier one is open is left out. */
#include <cellarcliff.h>
#include <stdio.h>

#include "must.h"

static struct cellar engine;
static struct cellar_stack stack;
static struct cellar_node exhaust, words, inner;
static int is_open;
enum { OBSERVER = 1, INNER = 2 }; /* words for nodes */
static struct cellar_node make(uint8_t what, uint8_t place, uint8_t kind, struct cellar_node node, uint64_t user, uint64_t value);

static void tell(struct cellar_effect it) {
  if (it.kind == CELLAR_E_NEXT) printf("%c\n", (char)(it.value + 'A' - 'a')); /* a function on items */
  if (it.kind == CELLAR_E_COMPLETED) puts("the end");
  if (it.kind == CELLAR_E_PROJECT) { /* a node: a FlatMap that declines while an inner is open */
    if (is_open)
      make(CELLAR_DECLINE, 0, 0, exhaust, 0, 0);
    else
      is_open = 1, inner = make(CELLAR_OPEN, CELLAR_INNER, CELLAR_LEAF, exhaust, INNER, 0);
  }
}
static struct cellar_node make(uint8_t what, uint8_t place, uint8_t kind, struct cellar_node node, uint64_t user, uint64_t value) {
  struct cellar_command command = {.what = what, .place = place, .kind = kind, .node = node, .user = user, .value = value};
  struct cellar_stepped step;
  command.flags = user == INNER ? CELLAR_WISHES : 0;
  stack.depth++;
  MUST(cellar_step(&engine, &stack, &command, &step) == CELLAR_DONE);
  for (uint64_t i = 0; i < step.closed; i++)
    if (step.closings[i] == INNER) is_open = 0; /* what it wished: the inner is gone, however it went */
  node = step.node;
  while (step.handed) {
    stack.begun = step.ticket;
    tell(step.effect);
    MUST(cellar_next(&engine, &stack, &step) == CELLAR_DONE);
  }
  stack.depth--;
  return node;
}
int main(void) {
  MUST(CELLAR_FITS() && cellar_new(&engine, 0) == CELLAR_DONE);
  exhaust = make(CELLAR_OPEN, CELLAR_ROOT, CELLAR_FLAT, exhaust, OBSERVER, 0);
  words = make(CELLAR_OPEN, CELLAR_SOURCE, CELLAR_LEAF, exhaust, 0, 0);
  make(CELLAR_NEXT, 0, 0, words, 0, 'x'); /* opens an inner */
  make(CELLAR_NEXT, 0, 0, words, 0, 'y'); /* is left out */
  make(CELLAR_NEXT, 0, 0, inner, 0, 'a');
  make(CELLAR_COMPLETE, 0, 0, inner, 0, 0);
  make(CELLAR_NEXT, 0, 0, words, 0, 'z');
  make(CELLAR_NEXT, 0, 0, inner, 0, 'c');
  make(CELLAR_COMPLETE, 0, 0, words, 0, 0);
  make(CELLAR_COMPLETE, 0, 0, inner, 0, 0);
  MUST(cellar_finish(&engine) == CELLAR_DONE);
}
