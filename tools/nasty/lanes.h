/* Lanes: what waits in each, who serves it, and who may be given what. */
#ifndef NASTY_LANES_H
#define NASTY_LANES_H

#include "choices.h"
#include "shelf.h"

struct queue {
  struct cellar_effect *at;
  size_t first, many, room;
};

struct lane {
  uint64_t number;       /* how many were opened before */
  uint64_t many;         /* nodes, and last effects to come, that name it */
  bool is_served;
  uint64_t server;
  struct queue parts[3]; /* what was given back, what stands before the rest, the rest */
  uint64_t touched;      /* the last command that put something there; and whether that says first who is gone */
  bool says_gone;
};
enum { RETURNED, FRONT, BACK };

struct lanes {
  struct shelf open;
  uint64_t opened, effects, releases; /* how many of either wait */
};

struct lane *lane_opened(struct lanes *lanes);
void lane_named_less(struct lanes *lanes, struct lane *lane); /* and it is let go if it has nothing, and nobody serves it */
bool lane_has(const struct lane *lane, bool inside);
bool lane_is_left(const struct lane *lane);
/* Whether this is the next effect of a lane, or, of those that say who is gone, may be: then it is. */
bool lane_has_first(struct lane *lane, const struct cellar_effect *effect);

/* An effect goes to the end, or, if it is set free by who serves the lane, before the rest. */
void lane_put(struct lanes *lanes, struct lane *lane, struct cellar_effect effect);
/* Whether there was one for the caller; if there was none, the caller serves the lane no more, but for who asks inside. */
bool lane_taken(struct lanes *lanes, struct lane *lane, uint64_t by, bool inside, struct cellar_effect *effect);
/* Whether an effect of this kind carries the value of its command. */
bool carries_value(uint32_t kind);
/* Whether the caller served it. What it did not tell goes to the front; whether the lane has something then. */
bool lane_given_up(struct lanes *lanes, struct lane *lane, uint64_t by, const struct cellar_effect *untold, bool *is_left);
void lanes_free(struct lanes *lanes);

#endif
