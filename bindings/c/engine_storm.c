/* Eight threads share an engine behind one mutex, for so many seconds: they subscribe to four shares, emit, hold, dispose from without and
 * from within, go on, pass, leave early, and are interrupted before and in the midst of what they were handed. Each tag is released once; each
 * root hears its items in order, from one thread at a time, then one last effect, and nothing behind it; each value is given back as often as
 * counted; and memory stays as it was behind the first tenth. Numbers of roots and tags are used again once they have had their last effect.
 * Where many effects wait, as behind a thread that is held up, nobody emits: so what waits stays within bounds. Each thread pauses for so many
 * microseconds after every hundredth step. */
#define _POSIX_C_SOURCE 200809L
#include <cellarcliff.h>
#include <pthread.h>
#include <stdatomic.h>
#include <string.h>
#include <time.h>

#include "must.h"

enum { THREADS = 8, SHARES = 4, MOST = 1 << 16, MINE = 16, CROWD = 2048 };
#define NOBODY UINT64_MAX /* heard by a root that is not there */
static struct cellar engine;
static pthread_mutex_t lock = PTHREAD_MUTEX_INITIALIZER;
static struct cellar_node leaves[SHARES];
static uint64_t emitted[SHARES]; /* under the lock, as the tables' ends */
static uint32_t free_roots[MOST], free_tags[MOST], roots = MOST, tags = MOST; /* how many are free */
static uint64_t kept, commands, opened, held;
static uint64_t last_heard[MOST]; /* of a root: by whoever serves its lane */
static unsigned char is_held[MOST];
static atomic_ulong given_back, told, interrupts, passes;
static time_t ends;
static long pauses;
static time_t now(void) {
  struct timespec t;
  clock_gettime(CLOCK_MONOTONIC, &t);
  return t.tv_sec;
}

static void wait_for(long microseconds) {
  nanosleep(&(struct timespec){.tv_sec = microseconds / 1000000, .tv_nsec = microseconds % 1000000 * 1000}, NULL);
}
static int is_crowded(void) {
  struct cellar_totals totals;
  pthread_mutex_lock(&lock);
  MUST(cellar_totals(&engine, &totals) == 0);
  pthread_mutex_unlock(&lock);
  return totals.effects > CROWD;
}

struct one { /* a thread */
  struct cellar_stack stack;
  uint64_t chance;
  struct cellar_node mine[MINE];
};
static uint64_t dice(struct one *self, uint64_t of) {
  self->chance ^= self->chance << 13, self->chance ^= self->chance >> 7, self->chance ^= self->chance << 17;
  return self->chance % of;
}

static void give_back(uint32_t *list, uint32_t *many, uint64_t number) {
  pthread_mutex_lock(&lock);
  list[(*many)++] = (uint32_t)number;
  pthread_mutex_unlock(&lock);
}
static uint8_t make(struct one *self, struct cellar_command command, struct cellar_stepped *step);
static void tell(struct one *self, const struct cellar_effect *it);

/* Does what is handed out, until there is nothing more. Now and then it is interrupted, before it begins something or in the midst; or it
 * leaves early, and the next call of this thread goes on. */
static void serve(struct one *self, struct cellar_stepped *step) {
  while (step->handed) {
    uint64_t chance = dice(self, 200);
    if (chance == 0) return;
    if (chance > 1) {
      self->stack.begun = step->ticket;
      tell(self, &step->effect);
    }
    pthread_mutex_lock(&lock);
    if (chance == 1 || chance == 2) {
      MUST(cellar_stop(&engine, &self->stack) == 0);
      step->handed = 0, interrupts++;
    } else {
      MUST(cellar_next(&engine, &self->stack, step) == 0);
    }
    pthread_mutex_unlock(&lock);
  }
}
/* What is due to this thread, and what others left. */
static void go_on(struct one *self) {
  struct cellar_stepped step;
  self->stack.depth++;
  pthread_mutex_lock(&lock);
  MUST(cellar_next(&engine, &self->stack, &step) == 0);
  pthread_mutex_unlock(&lock);
  serve(self, &step);
  self->stack.depth--;
}
/* From within: others may tell what stands behind this, or this thread does before it returns. */
static void pass(struct one *self) {
  self->stack.depth++;
  pthread_mutex_lock(&lock);
  MUST(cellar_pass(&engine, &self->stack, 1 + dice(self, self->stack.depth - 1), (uint8_t)dice(self, 2)) == 0);
  pthread_mutex_unlock(&lock);
  self->stack.depth--;
  passes++;
}

static void tell(struct one *self, const struct cellar_effect *it) {
  uint64_t *heard = &last_heard[it->user % MOST];
  given_back += it->carries;
  told++;
  switch (it->kind) {
    case CELLAR_E_NEXT:
      MUST(*heard != NOBODY && it->value > *heard);
      *heard = it->value;
      if (dice(self, 50) == 0) {
        struct cellar_stepped step;
        if (dice(self, 2)) pass(self);
        make(self, (struct cellar_command){.what = CELLAR_DISPOSE, .node = self->mine[dice(self, MINE)]}, &step);
      }
      return;
    case CELLAR_E_GONE: case CELLAR_E_COMPLETED: case CELLAR_E_FAILED:
      MUST(*heard != NOBODY);
      *heard = NOBODY;
      give_back(free_roots, &roots, it->user);
      return;
    case CELLAR_E_RELEASE:
      MUST(is_held[it->user] == 1);
      is_held[it->user] = 0;
      give_back(free_tags, &tags, it->user);
      return;
    case CELLAR_E_PUT:
      return;
    default:
      MUST(0);
  }
}

/* Under the lock the number of a root, a tag or an item is taken. */
static uint8_t make(struct one *self, struct cellar_command command, struct cellar_stepped *step) {
  uint8_t status;
  self->stack.depth++;
  pthread_mutex_lock(&lock);
  if (command.what == CELLAR_NEXT) command.node = leaves[command.value], command.value = ++emitted[command.value];
  MUST(roots > 0 && tags > 0);
  if (command.what == CELLAR_OPEN && command.place == CELLAR_ROOT) command.user = free_roots[--roots], last_heard[command.user] = 0;
  if (command.what == CELLAR_HOLD) command.value = free_tags[--tags], is_held[command.value] = 1;
  status = cellar_step(&engine, &self->stack, &command, step);
  commands++;
  if (status == 0) {
    kept += step->copies;
    opened += command.what == CELLAR_OPEN, held += command.what == CELLAR_HOLD;
  } else {
    if (command.what == CELLAR_OPEN && command.place == CELLAR_ROOT) free_roots[roots++] = (uint32_t)command.user, last_heard[command.user] = NOBODY;
    if (command.what == CELLAR_HOLD) free_tags[tags++] = (uint32_t)command.value, is_held[command.value] = 0;
  }
  pthread_mutex_unlock(&lock);
  struct cellar_stepped more = *step;
  serve(self, &more);
  self->stack.depth--;
  return status;
}

static void *run(void *words) {
  struct one *self = words;
  struct cellar_stepped step;
  for (uint64_t many = 1; now() < ends; many++) {
    if (pauses && many % 100 == 0) wait_for(pauses);
    uint64_t share = dice(self, SHARES), place = dice(self, MINE);
    switch (dice(self, 8)) {
      case 0:
        make(self, (struct cellar_command){.what = CELLAR_DISPOSE, .node = self->mine[place]}, &step);
        if (make(self, (struct cellar_command){.what = CELLAR_OPEN, .kind = CELLAR_PUBLISHED, .value = share, .hub = CELLAR_UNKNOWN_HUB}, &step) == 0)
          self->mine[place] = step.node;
        break;
      case 1:
        make(self, (struct cellar_command){.what = CELLAR_HOLD, .node = self->mine[place]}, &step);
        break;
      case 2:
        make(self, (struct cellar_command){.what = CELLAR_PUT, .node = self->mine[place], .value = 1}, &step);
        break;
      case 3:
        go_on(self);
        break;
      default:
        if (is_crowded()) {
          go_on(self);
          wait_for(1000);
          break;
        }
        make(self, (struct cellar_command){.what = CELLAR_NEXT, .value = share, .flags = dice(self, 4) ? 0 : CELLAR_QUEUES}, &step);
    }
  }
  go_on(self);
  return NULL;
}

static long memory(void) { /* pages */
  long size = 0, resident = 0;
  FILE *file = fopen("/proc/self/statm", "r");
  MUST(file && fscanf(file, "%ld %ld", &size, &resident) == 2);
  fclose(file);
  return resident;
}

int main(int count, char **words) {
  pthread_t threads[THREADS];
  static struct one ones[THREADS + 1];
  struct cellar_stepped step;
  struct cellar_totals totals;
  long seconds = count > 1 ? atol(words[1]) : 10, pages;
  pauses = count > 2 ? atol(words[2]) : 0;
  ends = now() + seconds;
  for (uint32_t i = 0; i < MOST; i++) free_roots[i] = free_tags[i] = i, last_heard[i] = NOBODY;
  MUST(cellar_new(&engine, 0) == 0);
  for (uint64_t i = 0; i <= THREADS; i++) ones[i] = (struct one){.stack = {.by = i}, .chance = 88172645463325252u + i};
  for (uint64_t i = 0; i < SHARES; i++) {
    MUST(make(&ones[THREADS], (struct cellar_command){.what = CELLAR_CONNECT, .value = i, .hub = CELLAR_UNKNOWN_HUB}, &step) == 0);
    MUST(make(&ones[THREADS], (struct cellar_command){.what = CELLAR_OPEN, .place = CELLAR_SOURCE, .node = step.other}, &step) == 0);
    leaves[i] = step.node;
  }
  for (int i = 0; i < THREADS; i++)
    for (int j = 0; j < MINE; j++) ones[i].mine[j] = (struct cellar_node){UINT64_MAX, UINT64_MAX};
  for (int i = 0; i < THREADS; i++) MUST(pthread_create(&threads[i], NULL, run, &ones[i]) == 0);
  wait_for(seconds * 100000);
  pages = memory();
  for (int i = 0; i < THREADS; i++) pthread_join(threads[i], NULL);
  while (make(&ones[THREADS], (struct cellar_command){.what = CELLAR_SHUT}, &step) == 0) continue;
  do { /* an interrupt may leave something each time */
    for (int i = 0; i <= THREADS; i++) go_on(&ones[i]);
    MUST(cellar_totals(&engine, &totals) == 0);
  } while (totals.effects > 0);
  printf("%lu commands, %lu roots, %lu tags, %lu effects told, %lu interrupts, %lu passes; %ld pages of memory behind a tenth, %ld at the end\n",
         (unsigned long)commands, (unsigned long)opened, (unsigned long)held, (unsigned long)told, (unsigned long)interrupts, (unsigned long)passes,
         pages, memory());
  MUST(cellar_finish(&engine) == 0 && roots == MOST && tags == MOST && kept == given_back);
  for (int i = 0; i < MOST; i++) MUST(last_heard[i] == NOBODY && !is_held[i]);
  MUST(totals.accepted == held && totals.taken == held);
}
