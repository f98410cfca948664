/* Turns: what is due to each, in order, and what it was handed last. */
#ifndef NASTY_TURNS_H
#define NASTY_TURNS_H

#include "lanes.h"

struct claim { /* a lane that is due; inside, what stands before the rest there */
  uint64_t lane;
  bool inside;
  uint64_t part; /* the same of those that one command made due in any order; else 0 */
};

struct turn {
  uint64_t by, depth;
  struct claim *due;
  size_t many, room;
  bool has_hand, is_begun; /* of the lane that it serves, what it was handed */
  struct claim served;
  struct cellar_effect effect;
  uint64_t ticket;
};

struct turns {
  struct lanes *lanes;
  struct chooser *chooser;
  struct turn **at;
  size_t many, room;
  uint64_t tickets;
  bool is_astray; /* something may be due to nobody */
};

/* It is there until another is asked for, where it has nothing. */
struct turn *turn_of(struct turns *turns, uint64_t by, uint64_t depth);
/* What its stack began last is told. */
void turns_note(struct turns *turns, const struct cellar_stack *stack);
bool turn_is_free(const struct turns *turns, const struct turn *turn);
bool lane_is_due(const struct turns *turns, uint64_t lane);
/* A lane is due to a turn, behind all others, and to no other turn; or, for want of memory, it is astray. */
void turn_claims(struct turns *turns, struct turn *turn, struct claim claim);
/* A lane in which an inner was opened is due to this turn, where it is due, and no other stack serves it. */
void turn_comes_home(struct turns *turns, struct turn *turn, const struct lane *lane);
/* A turn was handed an effect of a lane. */
void turn_holds(struct turns *turns, struct turn *turn, struct claim claim, struct cellar_effect effect);
/* Who has in hand what is to be done next in a turn: it, or a deeper call of its stack; none where there is nothing. */
struct turn *turn_goes_on(struct turns *turns, struct turn *turn);
/* A turn lets its lane go: whether something may be left there. */
bool turn_lets_go(struct turns *turns, struct turn *turn, struct claim *left);
/* A turn ends, and each deeper call. */
void turn_stops(struct turns *turns, struct turn *turn);
void turns_free(struct turns *turns);

#endif
