/* Two threads emit into one subject. A Switch gives each item an observable of its own, a Using with a resource, which tells the
 * item; the next item exchanges it, and its resource is released. */
#include <cellarcliff.h>
#include <pthread.h>
#include <stdio.h>

static struct cellar engine;
static struct cellar_node exchange, subject;
static pthread_mutex_t lock = PTHREAD_MUTEX_INITIALIZER;
static _Thread_local struct cellar_stack stack;
static unsigned long told, released;
static struct cellar_node make(uint8_t what, uint8_t place, uint8_t kind, struct cellar_node node, uint64_t value);

static void tell(struct cellar_effect it) { /* outside the lock; an observer is told one thing at a time, whatever threads emit */
  if (it.kind == CELLAR_E_NEXT) told++;
  if (it.kind == CELLAR_E_RELEASE) released++;
  if (it.kind == CELLAR_E_PROJECT) {
    struct cellar_node used = make(CELLAR_USING, CELLAR_INNER, 0, exchange, it.value);
    make(CELLAR_NEXT, 0, 0, make(CELLAR_OPEN, CELLAR_SOURCE, CELLAR_LEAF, used, 0), it.value);
  }
}
static struct cellar_node make(uint8_t what, uint8_t place, uint8_t kind, struct cellar_node node, uint64_t value) {
  struct cellar_command command = {.what = what, .place = place, .kind = kind, .node = node, .value = value};
  struct cellar_stepped step;
  stack.by = (uint64_t)pthread_self(), stack.depth++;
  pthread_mutex_lock(&lock), cellar_step(&engine, &stack, &command, &step), pthread_mutex_unlock(&lock);
  node = step.node;
  while (step.handed) {
    stack.begun = step.ticket;
    tell(step.effect);
    pthread_mutex_lock(&lock), cellar_next(&engine, &stack, &step), pthread_mutex_unlock(&lock);
  }
  stack.depth--;
  return node;
}
static void *emit(void *first) {
  for (uint64_t i = 0; i < 1000; i++) make(CELLAR_NEXT, 0, 0, subject, *(uint64_t *)first + i);
  return NULL;
}
int main(void) {
  pthread_t threads[2];
  uint64_t first[2] = {0, 1000};
  cellar_new(&engine, 0);
  exchange = make(CELLAR_OPEN, CELLAR_ROOT, CELLAR_SWITCH, exchange, 0);
  subject = make(CELLAR_OPEN, CELLAR_SOURCE, CELLAR_LEAF, exchange, 0);
  for (int i = 0; i < 2; i++) pthread_create(&threads[i], NULL, emit, &first[i]);
  for (int i = 0; i < 2; i++) pthread_join(threads[i], NULL);
  make(CELLAR_SHUT, 0, 0, subject, 0); /* one call for each root that is open */
  printf("%lu told, %lu released, %s\n", told, released, cellar_finish(&engine) == CELLAR_DONE ? "all is done" : "something waits");
}
