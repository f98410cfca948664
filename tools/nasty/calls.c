/* The calls of cellarcliff.h on an engine. */
#include <stdlib.h>
#include <string.h>

#include "engine.h"
#include "turns.h"

struct kept {
  struct engine engine;
  struct turns turns;
};

static struct kept *kept_of(const struct cellar *handle) { return (struct kept *)(uintptr_t)handle->at; }

uint32_t cellar_abi(void) { return CELLAR_ABI; }

uint32_t cellar_size(uint32_t which) {
  static const uint32_t sizes[] = {sizeof(struct cellar),        sizeof(struct cellar_command), 0,                           sizeof(struct cellar_effect),
                                   sizeof(struct cellar_totals), sizeof(struct cellar_event),   sizeof(struct cellar_stack),  sizeof(struct cellar_stepped)};
  return which < sizeof sizes / sizeof *sizes ? sizes[which] : 0;
}

uint8_t cellar_new(struct cellar *handle, uint32_t max_events) {
  if (handle->at)
    return CELLAR_HELD;
  struct chooser chooser = new_chooser();
  if (is_refused(&chooser, MEMORY))
    return CELLAR_NO_MEMORY;
  struct kept *kept = had(sizeof *kept);
  kept->engine.book.chooser = chooser;
  kept->engine.limit = max_events;
  kept->turns.lanes = &kept->engine.lanes;
  kept->turns.chooser = &kept->engine.book.chooser;
  handle->at = (uintptr_t)kept;
  return CELLAR_DONE;
}

/* Commands ---------------------------------------------------------------------------------------------------------------------*/

static void clear(struct cellar_stepped *step) {
  step->is_connected = step->copies = step->closed = step->handed = step->own = step->spare = 0;
}

/* Only until the next command are the closings of an answer there. */
static void forgets(struct kept *kept) {
  if (choose(&kept->engine.book.chooser, FORGETS, 2))
    kept->engine.closings.many = 0;
}

/* The lanes that got something are due to the turn: those that nobody serves, and of its stack's those with something before the rest. */
static void claims_all(struct kept *kept, struct turn *turn) {
  for (size_t i = 0; i < kept->engine.touched.many; i++) {
    const struct lane *lane = kept->engine.touched.at[i];
    if (!lane->is_served || (lane->server == turn->by && lane->parts[FRONT].many))
      turn_claims(&kept->turns, turn, (struct claim){lane->number, lane->is_served, lane->says_gone ? kept->engine.commands : 0});
  }
}

/* Whether the item is all that comes of a command, stands alone in its lane, which nobody serves, and is handed out at once. */
static bool is_at_once(struct kept *kept, const struct outcome *it) {
  if (!it->is_item || it->copies != 1 || kept->engine.touched.many != 1)
    return false;
  const struct lane *lane = kept->engine.touched.at[0];
  bool is_alone = !lane->is_served && lane->parts[BACK].many == 1 && !lane->parts[RETURNED].many && !lane->parts[FRONT].many;
  return is_alone && !choose(&kept->engine.book.chooser, OWN, 2);
}

static uint8_t made(struct kept *kept, struct turn *turn, const struct cellar_command *command, struct cellar_stepped *step) {
  struct engine *engine = &kept->engine;
  forgets(kept);
  struct outcome it = engine_command(engine, command);
  if (it.status)
    return it.status;
  shuffle(&engine->book.chooser, CLOSINGS, engine->closings.at, engine->closings.many);
  bool opens = command->what == CELLAR_OPEN || command->what == CELLAR_USING;
  if (opens)
    step->node = it.node;
  if (command->what == CELLAR_USING || command->what == CELLAR_HOLD || command->what == CELLAR_LEASE || command->what == CELLAR_CONNECT || it.is_connected)
    step->other = it.other;
  if (command->what == CELLAR_CONNECT || (command->what == CELLAR_OPEN && is_of_share(command->kind)))
    step->hub = it.hub;
  step->is_connected = it.is_connected;
  step->copies = it.copies;
  step->closed = engine->closings.many;
  for (size_t i = 0; i < CELLAR_ROOM && i < step->closed; i++)
    step->closings[i] = engine->closings.at[i];
  const struct node *above = opens && command->place == CELLAR_INNER ? shelf_find(&engine->book.nodes, command->node.number) : NULL;
  if (above)
    turn_comes_home(&kept->turns, turn, above->home);
  if (is_at_once(kept, &it)) {
    struct lane *lane = engine->touched.at[0];
    struct cellar_effect effect;
    step->own = lane_taken(&engine->lanes, lane, turn->by, false, &effect);
    turn_holds(&kept->turns, turn, (struct claim){lane->number, false, 0}, effect);
  } else
    claims_all(kept, turn);
  return CELLAR_DONE;
}

static void hands_out(struct kept *kept, struct turn *turn, struct cellar_stepped *step) {
  const struct turn *it = turn_goes_on(&kept->turns, turn);
  if (!it)
    return;
  step->handed = 1;
  step->ticket = it->ticket;
  step->effect = it->effect;
}

uint8_t cellar_step(struct cellar *handle, const struct cellar_stack *stack, const struct cellar_command *command, struct cellar_stepped *step) {
  struct kept *kept = kept_of(handle);
  clear(step);
  if (!kept)
    return CELLAR_NOTHING_KEPT;
  turns_note(&kept->turns, stack);
  struct turn *turn = turn_of(&kept->turns, stack->by, stack->depth);
  struct cellar_command its = *command;
  its.by = stack->by;
  if (its.what == CELLAR_NEXT && !its.flags && !turn_is_free(&kept->turns, turn))
    its.flags = CELLAR_QUEUES;
  uint8_t status = made(kept, turn, &its, step);
  hands_out(kept, turn, step);
  return status;
}

uint8_t cellar_next(struct cellar *handle, const struct cellar_stack *stack, struct cellar_stepped *step) {
  struct kept *kept = kept_of(handle);
  clear(step);
  if (!kept)
    return CELLAR_NOTHING_KEPT;
  turns_note(&kept->turns, stack);
  hands_out(kept, turn_of(&kept->turns, stack->by, stack->depth), step);
  return CELLAR_DONE;
}

uint8_t cellar_pass(struct cellar *handle, const struct cellar_stack *stack, uint64_t from, uint8_t now) {
  struct kept *kept = kept_of(handle);
  if (!kept)
    return CELLAR_NOTHING_KEPT;
  turns_note(&kept->turns, stack);
  struct claim left;
  bool is_left = turn_lets_go(&kept->turns, turn_of(&kept->turns, stack->by, from), &left);
  if (is_left && !(left.inside && lane_is_due(&kept->turns, left.lane))) /* what is due whole stays so */
    turn_claims(&kept->turns, turn_of(&kept->turns, stack->by, now ? stack->depth : from), left);
  return CELLAR_DONE;
}

uint8_t cellar_stop(struct cellar *handle, const struct cellar_stack *stack) {
  struct kept *kept = kept_of(handle);
  if (!kept)
    return CELLAR_NOTHING_KEPT;
  turns_note(&kept->turns, stack);
  turn_stops(&kept->turns, turn_of(&kept->turns, stack->by, stack->depth));
  return CELLAR_DONE;
}

uint8_t cellar_closings(struct cellar *handle, uint64_t from, uint64_t *words, size_t room, uint64_t *count) {
  struct kept *kept = kept_of(handle);
  *count = 0;
  if (!kept)
    return CELLAR_NOTHING_KEPT;
  const struct words *all = &kept->engine.closings;
  uint64_t many = from < all->many ? all->many - from : 0;
  *count = many < room ? many : room;
  if (*count)
    memcpy(words, all->at + from, *count * sizeof *words);
  return CELLAR_DONE;
}

/* Questions --------------------------------------------------------------------------------------------------------------------*/

uint8_t cellar_totals(struct cellar *handle, struct cellar_totals *totals) {
  const struct kept *kept = kept_of(handle);
  *totals = (struct cellar_totals){0};
  if (!kept)
    return CELLAR_NOTHING_KEPT;
  const struct engine *it = &kept->engine;
  uint64_t held = it->book.resources.many, waiting = it->lanes.releases;
  *totals = (struct cellar_totals){it->book.nodes.many, held,         waiting, it->book.leases.many, it->accepted, it->accepted - held - waiting,
                                   it->book.events,     it->lanes.effects};
  return CELLAR_DONE;
}

uint8_t cellar_event(struct cellar *handle, uint64_t place, struct cellar_event *event) {
  const struct kept *kept = kept_of(handle);
  *event = (struct cellar_event){0};
  if (!kept)
    return CELLAR_NOTHING_KEPT;
  const struct book *book = &kept->engine.book;
  if (place < book->first || place >= book->events)
    return CELLAR_NOTHING_WAITS;
  *event = book->history[place - book->first];
  return CELLAR_DONE;
}

/* A text that is written, or counted where it has no place. */
struct text {
  uint8_t *at;
  size_t many;
};

static void write(struct text *text, const char *words) {
  for (; *words; words++, text->many++)
    if (text->at)
      text->at[text->many] = (uint8_t)*words;
}

static void write_number(struct text *text, uint64_t number) {
  char digits[21], *at = digits + 20;
  *at = 0;
  do
    *--at = (char)('0' + number % 10);
  while (number /= 10);
  write(text, at);
}

/* An event as a dump has it. */
static void write_event(struct text *text, const struct cellar_event *e) {
  static const char *const words[] = {"open", "hub", "connect", "accept", "use", "remove", "lease", "return", "item", "decline", "end", "close", "take"};
  static const char *const places[] = {",\"root\"", ",\"source\",", ",\"inner\",", ",\"notifier\","};
  static const char *const kinds[] = {",\"leaf\"", ",\"pass\"", ",\"flat\"", ",\"switch\"", ",\"until\"", ",\"sub\","};
  write(text, "[\"");
  write(text, words[e->what]);
  write(text, "\"");
  if (e->what == OPENED)
    write(text, places[e->place]);
  else
    write(text, e->what == MADE_HUB ? (e->how ? ",\"manual\"" : ",\"auto\"") : ",");
  if (e->what != MADE_HUB && (e->what != OPENED || e->place))
    write_number(text, e->of);
  if (e->what == OPENED)
    write(text, kinds[e->kind]);
  if (e->what == HELD_AT)
    write(text, ",");
  if (e->what == HELD_AT || (e->what == OPENED && e->kind == CELLAR_SHARED))
    write_number(text, e->other);
  if (e->what == ITEM)
    write(text, ",0");
  if (e->what == ENDED)
    write(text, e->how ? ",\"error\",0" : ",\"completed\"");
  write(text, "]");
}

static size_t write_dump(const struct book *book, uint8_t *at) {
  struct text text = {at, 0};
  for (uint64_t i = 0; i < book->events; i++) {
    write(&text, i ? "," : "[");
    write_event(&text, &book->history[i]);
  }
  write(&text, book->events ? "]\n" : "[]\n");
  return text.many;
}

uint8_t cellar_dump(struct cellar *handle, uint8_t *buffer, size_t size, uint64_t *told) {
  struct kept *kept = kept_of(handle);
  *told = 0;
  if (!kept)
    return CELLAR_NOTHING_KEPT;
  struct book *book = &kept->engine.book;
  if (book->first)
    return CELLAR_CUT;
  if (is_refused(&book->chooser, MEMORY))
    return CELLAR_NO_MEMORY;
  *told = write_dump(book, NULL);
  if (*told > size)
    return CELLAR_SMALL;
  write_dump(book, buffer);
  return CELLAR_DONE;
}

/* The end ----------------------------------------------------------------------------------------------------------------------*/

void cellar_drop(struct cellar *handle) {
  struct kept *kept = kept_of(handle);
  if (!kept)
    return;
  handle->at = 0;
  engine_free(&kept->engine);
  turns_free(&kept->turns);
  free(kept);
}

uint8_t cellar_finish(struct cellar *handle) {
  const struct kept *kept = kept_of(handle);
  if (!kept)
    return CELLAR_NOTHING_KEPT;
  if (!engine_is_done(&kept->engine))
    return CELLAR_UNTAKEN;
  cellar_drop(handle);
  return CELLAR_DONE;
}

/* Following --------------------------------------------------------------------------------------------------------------------*/

/* From here on, until it is called with none, the engine makes the choices that this one tells. */
void nasty_follow(struct cellar *handle, struct told *told) { kept_of(handle)->engine.book.chooser.told = told; }
