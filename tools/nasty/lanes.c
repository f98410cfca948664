#include "lanes.h"

#include <stdlib.h>
#include <string.h>

static void queue_put(struct queue *queue, struct cellar_effect effect) {
  if (queue->first + queue->many == queue->room && queue->first > queue->many) {
    memmove(queue->at, queue->at + queue->first, queue->many * sizeof *queue->at);
    queue->first = 0;
  }
  queue->at = grown(queue->at, &queue->room, queue->first + queue->many, sizeof *queue->at);
  queue->at[queue->first + queue->many++] = effect;
}

struct lane *lane_opened(struct lanes *lanes) {
  struct lane *lane = had(sizeof *lane);
  lane->number = lanes->opened++;
  shelf_add(&lanes->open, lane);
  return lane;
}

static void let_go(struct lanes *lanes, struct lane *lane) {
  if (lane->many || lane->is_served || lane_has(lane, false))
    return;
  shelf_remove(&lanes->open, lane->number);
  for (int i = 0; i < 3; i++)
    free(lane->parts[i].at);
  free(lane);
}

void lane_named_less(struct lanes *lanes, struct lane *lane) {
  lane->many--;
  let_go(lanes, lane);
}

bool lane_has(const struct lane *lane, bool inside) {
  return lane->parts[RETURNED].many || lane->parts[FRONT].many || (!inside && lane->parts[BACK].many);
}

bool lane_is_left(const struct lane *lane) { return !lane->is_served && lane_has(lane, false); }

static bool is_same(const struct cellar_effect *a, const struct cellar_effect *b) {
  return a->kind == b->kind && a->user == b->user && a->by == b->by && (!a->carries || a->value == b->value);
}

static bool says_gone(const struct cellar_effect *effect) { return effect->kind == CELLAR_E_GONE || effect->kind == CELLAR_E_MERGED; }

bool lane_has_first(struct lane *lane, const struct cellar_effect *effect) {
  struct queue *part = lane->parts;
  while (!part->many)
    part++;
  struct cellar_effect *first = part->at + part->first;
  for (size_t i = 0; i < part->many && (i == 0 || (says_gone(first) && says_gone(first + i))); i++)
    if (is_same(first + i, effect)) {
      struct cellar_effect other = first[i];
      first[i] = *first;
      *first = other;
      return true;
    }
  return false;
}

static void count(struct lanes *lanes, const struct cellar_effect *effect, uint64_t more) {
  lanes->effects += more;
  lanes->releases += effect->kind == CELLAR_E_RELEASE ? more : 0;
}

void lane_put(struct lanes *lanes, struct lane *lane, struct cellar_effect effect) {
  bool is_freed = effect.kind == CELLAR_E_RELEASE && lane->is_served && lane->server == effect.by;
  count(lanes, &effect, 1);
  queue_put(&lane->parts[is_freed ? FRONT : BACK], effect);
}

static struct cellar_effect queue_take(struct queue *queue) {
  struct cellar_effect effect = queue->at[queue->first++];
  if (!--queue->many)
    queue->first = 0;
  return effect;
}

bool carries_value(uint32_t kind) {
  return kind == CELLAR_E_NEXT || kind == CELLAR_E_PROJECT || kind == CELLAR_E_FAILED || kind == CELLAR_E_PUT;
}

bool lane_taken(struct lanes *lanes, struct lane *lane, uint64_t by, bool inside, struct cellar_effect *effect) {
  bool serves = lane->is_served && lane->server == by;
  if (!serves && (inside || lane->is_served))
    return false;
  for (int part = RETURNED; part <= (inside ? FRONT : BACK); part++)
    if (lane->parts[part].many) {
      *effect = queue_take(&lane->parts[part]);
      count(lanes, effect, UINT64_MAX);
      lane->is_served = true;
      lane->server = by;
      return true;
    }
  lane->is_served &= inside;
  let_go(lanes, lane);
  return false;
}

bool lane_given_up(struct lanes *lanes, struct lane *lane, uint64_t by, const struct cellar_effect *untold, bool *is_left) {
  if (!lane->is_served || lane->server != by)
    return false;
  if (untold) {
    struct cellar_effect effect = *untold;
    effect.carries = carries_value(effect.kind);
    queue_put(&lane->parts[RETURNED], effect);
    count(lanes, untold, 1);
  }
  lane->is_served = false;
  *is_left = lane_is_left(lane);
  let_go(lanes, lane);
  return true;
}

void lanes_free(struct lanes *lanes) {
  for (size_t i = 0; i < lanes->open.many; i++) {
    struct lane *lane = lanes->open.at[i];
    for (int part = 0; part < 3; part++)
      free(lane->parts[part].at);
    free(lane);
  }
  free(lanes->open.at);
}
