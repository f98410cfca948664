#include "turns.h"

#include <stdlib.h>
#include <string.h>

struct turn *turn_of(struct turns *turns, uint64_t by, uint64_t depth) {
  for (size_t i = 0; i < turns->many; i++)
    if (turns->at[i]->by == by && turns->at[i]->depth == depth)
      return turns->at[i];
  for (size_t i = 0; i < turns->many; i++)
    if (!turns->at[i]->many && !turns->at[i]->has_hand) { /* it has nothing, and so is nobody's */
      turns->at[i]->by = by;
      turns->at[i]->depth = depth;
      return turns->at[i];
    }
  struct turn *turn = had(sizeof *turn);
  turn->by = by;
  turn->depth = depth;
  turns->at = grown(turns->at, &turns->room, turns->many, sizeof *turns->at);
  return turns->at[turns->many++] = turn;
}

void turns_note(struct turns *turns, const struct cellar_stack *stack) {
  for (size_t i = 0; i < turns->many; i++)
    turns->at[i]->is_begun |= turns->at[i]->by == stack->by && turns->at[i]->ticket == stack->begun;
}

static struct lane *lane_of(const struct turns *turns, struct claim claim) { return shelf_find(&turns->lanes->open, claim.lane); }

/* A lane that is gone, or that had nothing when it may have been asked, is due still, or not: who is followed knows. */
bool turn_is_free(const struct turns *turns, const struct turn *turn) {
  const struct told *told = turns->chooser->told;
  return !turn->has_hand && (!turn->many || (told && told->own));
}

static void removes(struct turn *turn, uint64_t lane) {
  size_t many = 0;
  for (size_t i = 0; i < turn->many; i++)
    if (turn->due[i].lane != lane)
      turn->due[many++] = turn->due[i];
  turn->many = many;
}

void turn_claims(struct turns *turns, struct turn *turn, struct claim claim) {
  if (choose(turns->chooser, ASTRAY, 2)) {
    turns->is_astray = true;
    return;
  }
  for (size_t i = 0; i < turns->many; i++)
    removes(turns->at[i], claim.lane);
  turn->due = grown(turn->due, &turn->room, turn->many, sizeof *turn->due);
  turn->due[turn->many++] = claim;
}

void turn_comes_home(struct turns *turns, struct turn *turn, const struct lane *lane) {
  bool is_ours = lane->is_served && lane->server == turn->by, is_due = false;
  struct claim claim = {lane->number, false, 0};
  for (size_t i = 0; i < turns->many; i++)
    for (size_t j = 0; j < turns->at[i]->many; j++)
      if (turns->at[i]->due[j].lane == lane->number) {
        claim.inside = turns->at[i]->due[j].inside;
        is_due = is_ours || !claim.inside;
      }
  if (is_due)
    turn_claims(turns, turn, claim);
}

void turn_holds(struct turns *turns, struct turn *turn, struct claim claim, struct cellar_effect effect) {
  turn->has_hand = true;
  turn->is_begun = false;
  turn->served = claim;
  turn->effect = effect;
  turn->ticket = odd_name(turns->chooser, TICKETS, turns->tickets++);
}

static bool asks(struct turns *turns, struct turn *turn, struct claim claim) {
  struct lane *lane = lane_of(turns, claim);
  struct cellar_effect effect;
  if (lane && turns->chooser->told && lane_has(lane, claim.inside))
    lane_has_first(lane, &turns->chooser->told->effect);
  if (!lane || !lane_taken(turns->lanes, lane, turn->by, claim.inside, &effect))
    return false;
  turn_holds(turns, turn, claim, effect);
  return true;
}

/* Of those that became due first in any order, the place of the one that who is followed was handed something of. */
static size_t first_due(const struct turns *turns, const struct turn *turn) {
  const struct told *told = turns->chooser->told;
  uint64_t part = turn->due[0].part;
  for (size_t i = 0; told && told->handed && part && i < turn->many && turn->due[i].part == part; i++) {
    struct lane *lane = lane_of(turns, turn->due[i]);
    if (lane && lane_has(lane, turn->due[i].inside) && (!lane->is_served || lane->server == turn->by) && lane_has_first(lane, &told->effect))
      return i;
  }
  return 0;
}

/* What was not begun, once more; the rest of the lane that it serves; what is due. */
static bool serves(struct turns *turns, struct turn *turn) {
  if (turn->has_hand && (!turn->is_begun || asks(turns, turn, turn->served)))
    return true;
  turn->has_hand = false;
  while (turn->many) {
    size_t place = first_due(turns, turn);
    struct claim claim = turn->due[place];
    memmove(turn->due + place, turn->due + place + 1, (--turn->many - place) * sizeof claim);
    if (asks(turns, turn, claim))
      return true;
  }
  return false;
}

/* The nearest call that is deeper than this depth. */
static struct turn *deeper(const struct turns *turns, uint64_t by, uint64_t depth) {
  struct turn *found = NULL;
  for (size_t i = 0; i < turns->many; i++)
    if (turns->at[i]->by == by && turns->at[i]->depth > depth && (!found || turns->at[i]->depth < found->depth))
      found = turns->at[i];
  return found;
}

bool lane_is_due(const struct turns *turns, uint64_t lane) {
  for (size_t i = 0; i < turns->many; i++)
    for (size_t j = 0; j < turns->at[i]->many; j++)
      if (turns->at[i]->due[j].lane == lane)
        return true;
  return false;
}

/* One of the lanes that have something and that nobody serves; what is due to another may be found, or not. */
static const struct lane *left_lane(const struct turns *turns) {
  const struct told *told = turns->chooser->told;
  const struct lane *found = NULL;
  uint64_t many = 0;
  for (size_t i = 0; i < turns->lanes->open.many; i++) {
    struct lane *lane = turns->lanes->open.at[i];
    if (!lane_is_left(lane))
      continue;
    if (told && told->handed && lane_has_first(lane, &told->effect))
      return lane;
    if (!lane_is_due(turns, lane->number) && (many++ == 0 || choose(turns->chooser, LEFT, many)))
      found = lane;
  }
  return found;
}

static struct turn *picks_up(struct turns *turns, struct turn *turn) {
  const struct lane *lane = turns->is_astray ? left_lane(turns) : NULL;
  if (!lane) {
    turns->is_astray = false;
    return NULL;
  }
  turn_claims(turns, turn, (struct claim){lane->number, false, 0});
  return serves(turns, turn) ? turn : NULL;
}

struct turn *turn_goes_on(struct turns *turns, struct turn *turn) {
  for (struct turn *it = turn; it; it = deeper(turns, turn->by, it->depth))
    if (serves(turns, it))
      return it;
  return turn->depth == 1 ? picks_up(turns, turn) : NULL;
}

/* What was not begun of a lane that its stack serves further out stays in hand. */
bool turn_lets_go(struct turns *turns, struct turn *turn, struct claim *left) {
  bool is_left = false;
  if (!turn->has_hand || (turn->served.inside && !turn->is_begun))
    return false;
  turn->has_hand = false;
  *left = turn->served;
  if (turn->served.inside)
    return true;
  struct lane *lane = lane_of(turns, turn->served);
  if (lane)
    lane_given_up(turns->lanes, lane, turn->by, turn->is_begun ? NULL : &turn->effect, &is_left);
  return is_left;
}

void turn_stops(struct turns *turns, struct turn *turn) {
  for (; turn; turn = deeper(turns, turn->by, turn->depth)) {
    struct claim left;
    bool is_left = turn_lets_go(turns, turn, &left);
    turns->is_astray |= is_left || turn->many;
    turn->many = 0;
  }
}

void turns_free(struct turns *turns) {
  for (size_t i = 0; i < turns->many; i++) {
    free(turns->at[i]->due);
    free(turns->at[i]);
  }
  free(turns->at);
}
