/* What the header leaves open, and who decides it: a row for each choice, chance, or another engine that is followed. */
#ifndef NASTY_CHOICES_H
#define NASTY_CHOICES_H

#include <stdbool.h>

#include "cellarcliff.h"

/* A name, how often of a thousand times it is not as the library has it, and what leaves it open. */
#define CHOICES(ROW)                                                                                                                  \
  ROW(CLOSINGS, "closings", 500, "`closings`: words of nodes. Read them all before the first is acted on")                            \
  ROW(TICKETS, "tickets", 900, "`ticket`: 1 or more, and no other effect has it")                                                     \
  ROW(OWN, "own", 300, "`own` 1: `effect` is the item of this very command (where it is, 1 is not promised)")                         \
  ROW(SLOTS, "slots", 900, "Plain values, which may be copied, kept. `number` is never given twice (of `slot` nothing is said)")      \
  ROW(HUBS, "hubs", 500, "A share gets a hub; CELLAR_NO_HUB: each hub of the mode serves another share (which one is not said)")      \
  ROW(HUB_WORDS, "hub-words", 900, "A hub in a command is a hint: any number may stand there, and none changes an answer")            \
  ROW(MAKING, "making", 20, "the engine may have made a checkpoint, or hubs for shares, which its events tell")                       \
  ROW(FORCED, "forced", 500, "cellar_event: one event of the history (of what a command forces no order is said)")                    \
  ROW(GONE, "gone", 500, "items and ends, then CELLAR_E_GONE and CELLAR_E_MERGED (of one command's no order is said)")                \
  ROW(RELEASES, "releases", 500, "A tag is owed one CELLAR_E_RELEASE (among those of one command no order is said)")                  \
  ROW(OTHERS, "others", 900, "cellar_event: what `other` of a holding says is open")                                                  \
  ROW(FORGETS, "forgets", 500, "The closings of the last command: before any other command")                                          \
  ROW(LEFT, "left", 900, "at depth 1 then what stopped calls left (in which order is not said)")                                      \
  ROW(VALUES, "values", 900, "CELLAR_E_COMPLETED: user (what its `value` is, which it does not carry, is not said)")                  \
  ROW(CHECKPOINTS, "checkpoints", 100, "but for a checkpoint, which may be refused and is then made by a later command")              \
  ROW(FULL, "full", 0, "A command that finds the history full answers it where the checkpoint is refused memory")                     \
  ROW(MEMORY, "memory", 0, "Only CELLAR_OPEN .. and cellar_dump may answer CELLAR_NO_MEMORY")                                         \
  ROW(ASTRAY, "astray", 0, "Whatever is told may have to wait for memory: a later step of depth 1 hands it out")                      \
  ROW(BEFORE, "before", 0, "CELLAR_OPEN .. and CELLAR_PUT may answer it before any other cause")

enum choice {
#define ROW(id, name, often, open) id,
  CHOICES(ROW)
#undef ROW
      MANY_CHOICES
};

/* What an engine that is followed came to. */
struct told {
  const struct cellar_event *events; /* all of its history */
  uint64_t many_events;
  uint8_t status;
  uint64_t handed, own; /* as of a step */
  struct cellar_effect effect;
  const char *differs; /* why no choice explains it */
};

struct chooser {
  uint64_t state;
  struct told *told; /* none where chance decides */
};

/* One of so many, where 0 is what the library does. */
uint64_t choose(struct chooser *chooser, enum choice which, uint64_t many);
/* An odd number: of 64 bits, small, or near a power of two. */
uint64_t odd_number(struct chooser *chooser, enum choice which, uint64_t plain);
/* Of so many things one number each, which no two have: small, or with nothing in its lower half, or large in one of two ways. */
uint64_t odd_name(struct chooser *chooser, enum choice which, uint64_t number);
/* Puts the list into some order. */
void shuffle(struct chooser *chooser, enum choice which, uint64_t *words, uint64_t many);
/* The next engine's own chance. */
struct chooser new_chooser(void);
/* No choice explains what is followed. */
void differs(struct chooser *chooser, const char *why);

#endif
