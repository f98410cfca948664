#include "engine.h"

#include <stdlib.h>

/* What a command is asked of, and of what it makes use. */
struct plan {
  struct node *node;
  struct resource *resource;
  struct lease *lease;
  struct lane *lane; /* none for a root's own */
  unsigned hub, limit;
};

void words_put(struct words *words, uint64_t word) {
  words->at = grown(words->at, &words->room, words->many, sizeof word);
  words->at[words->many++] = word;
}

static uint8_t flags_of(const struct cellar_command *c) {
  switch (c->what) {
  case CELLAR_OPEN:
  case CELLAR_USING:
    if (c->place != CELLAR_ROOT)
      return CELLAR_WISHES;
    return CELLAR_WISHES | CELLAR_LANE_OF_NODE | (c->flags & CELLAR_LANE_OF_NODE ? CELLAR_OF_PROJECTIONS : 0);
  case CELLAR_NEXT:
    return CELLAR_QUEUES;
  case CELLAR_CONNECT:
    return CELLAR_WISHES;
  case CELLAR_PUT:
    return CELLAR_OF_PROJECTIONS;
  default:
    return 0;
  }
}

bool is_known(const struct cellar_command *c) {
  bool opens = c->what == CELLAR_OPEN || c->what == CELLAR_USING;
  return c->what <= CELLAR_GIVE_BACK && !(opens && c->place > CELLAR_NOTIFIER) && !(c->what == CELLAR_OPEN && c->kind > CELLAR_PUBLISHED) &&
         !(c->flags & ~flags_of(c)) && !c->spare;
}

/* What stands against a command -------------------------------------------------------------------------------------------------*/

static void *keyed(const struct shelf *shelf, struct cellar_node key) {
  uint64_t *it = shelf_find(shelf, key.number);
  return it && it[1] == key.slot ? it : NULL; /* the slot stands behind the number */
}

static bool is_own(const struct hub *hub, uint64_t word) { return hub->many && hub->owner == word; }

static unsigned own_hub(const struct book *book, bool by_hand, uint64_t word) {
  unsigned place = MOST_HUBS;
  while (place-- > 0)
    if (is_by_hand(place) == by_hand && is_own(&book->hubs[place], word))
      return place;
  return MOST_HUBS;
}

/* The last free hubs of a mode before an end: how many there are, no more than `most`. */
static unsigned free_hubs(const struct book *book, bool by_hand, unsigned end, unsigned *places, unsigned most) {
  unsigned many = 0;
  while (end-- > 0 && many < most)
    if (is_by_hand(end) == by_hand && !book->hubs[end].many)
      places[many++] = end;
  return many;
}

/* A share's own hub, if that stands before the limit; else one that is free. It is among the last few before the end of its level, as in
 * the library, so that there is room for shares below shares. */
static uint8_t choose_hub(struct book *book, const struct cellar_command *c, bool by_hand, struct plan *plan) {
  enum { FEW = 8 };
  if (!book->has_hubs)
    book_make_hubs(book);
  if ((plan->hub = own_hub(book, by_hand, c->value)) < MOST_HUBS)
    return plan->hub < plan->limit ? CELLAR_DONE : CELLAR_HUB_ORDER;
  unsigned places[FEW], end = MOST_HUBS - 32 * (c->level < 7 ? 7 - c->level : 0);
  unsigned many = free_hubs(book, by_hand, end < plan->limit ? end : plan->limit, places, FEW);
  if (!many)
    many = free_hubs(book, by_hand, plan->limit, places, FEW);
  if (!many)
    return free_hubs(book, by_hand, MOST_HUBS, places, 1) ? CELLAR_HUB_ORDER : CELLAR_NO_HUB;
  plan->hub = places[choose(&book->chooser, HUBS, many)];
  const struct cellar_event *told = told_next(book);
  if (told) {
    uint64_t place = (c->what == CELLAR_CONNECT ? told->of : told->other) - book->first_hub;
    if (place >= plan->limit || is_by_hand((unsigned)place) != by_hand || book->hubs[place].many)
      differs(&book->chooser, "a hub is another");
    else
      plan->hub = (unsigned)place;
  }
  return CELLAR_DONE;
}

static bool has_place(const struct node *node, uint8_t place) {
  switch (node->kind) {
  case CELLAR_PASS:
  case CONNECTION:
    return place == CELLAR_SOURCE;
  case CELLAR_FLAT:
  case CELLAR_SWITCH:
    return place != CELLAR_NOTIFIER;
  case CELLAR_UNTIL:
    return place != CELLAR_INNER;
  default:
    return false;
  }
}

static uint8_t is_full(const struct engine *engine, uint64_t adds) {
  const struct book *book = &engine->book;
  return engine->limit && adds && book->events - book->first + book_debt(book) + adds > engine->limit ? CELLAR_FULL : CELLAR_DONE;
}

/* The lane in which a node is told, or what is projected to it. */
static struct lane *lane_at(const struct node *node, uint8_t flags) {
  return !node ? NULL : !(flags & CELLAR_OF_PROJECTIONS) ? node->home : node->merges ? node->projects : NULL;
}

static uint8_t against_opening(struct engine *engine, const struct cellar_command *c, struct plan *plan) {
  struct book *book = &engine->book;
  bool is_root = c->place == CELLAR_ROOT, inner = c->place == CELLAR_INNER, shares = c->what == CELLAR_OPEN && is_of_share(c->kind);
  plan->limit = is_root || !plan->node ? MOST_HUBS : plan->node->limit;
  if (!is_root || c->flags & CELLAR_LANE_OF_NODE) {
    if (!(plan->lane = lane_at(plan->node, c->flags)))
      return CELLAR_GONE;
  }
  if (is_root)
    plan->node = NULL;
  uint8_t status = shares ? choose_hub(book, c, c->kind == CELLAR_PUBLISHED, plan) : CELLAR_DONE;
  if (status)
    return status;
  if (plan->node && !has_place(plan->node, c->place))
    return CELLAR_WRONG_KIND;
  if ((c->place == CELLAR_SOURCE && plan->node->had_source) || (c->place == CELLAR_NOTIFIER && plan->node->had_notifier))
    return CELLAR_PLACE_TAKEN;
  if (inner && !plan->node->owed)
    return CELLAR_NOTHING_OWED;
  bool connects = shares && c->kind == CELLAR_SHARED && !book->hubs[plan->hub].connection;
  if (book->nodes.many + 1 + connects > MOST_NODES)
    return CELLAR_TOO_MANY;
  return is_full(engine, (c->what == CELLAR_USING ? 5 : 2) - inner + 2 * connects);
}

static uint8_t against_owing(const struct node *node) {
  if (!node)
    return CELLAR_GONE;
  if (node->kind != CELLAR_FLAT && node->kind != CELLAR_SWITCH)
    return CELLAR_WRONG_KIND;
  return node->owed ? CELLAR_DONE : CELLAR_NOTHING_OWED;
}

static uint8_t against_leaf(const struct engine *engine, const struct cellar_command *c, struct node *node) {
  if (!node)
    return CELLAR_GONE;
  if (node->kind != CELLAR_LEAF)
    return CELLAR_WRONG_KIND;
  if (c->what != CELLAR_NEXT)
    return CELLAR_DONE;
  uint64_t projections;
  return book_visits(&engine->book, node, &projections) > MOST_VISITS ? CELLAR_TOO_MANY : is_full(engine, 1 + projections);
}

static uint8_t against_closing_of(const struct cellar_command *c, const struct node *node) {
  if (!node)
    return CELLAR_GONE;
  if (c->what == CELLAR_DISPOSE)
    return node->place == CELLAR_ROOT && node->kind != CONNECTION ? CELLAR_DONE : CELLAR_NOT_ROOT;
  if (node->kind == CELLAR_LEAF || is_of_share(node->kind))
    return CELLAR_WRONG_KIND;
  return node->below ? CELLAR_HAS_CHILD : CELLAR_DONE;
}

/* The oldest lease, the oldest root, or the hub that stands first. */
static uint8_t oldest(struct book *book, struct plan *plan) {
  plan->lease = book->leases.many ? book->leases.at[0] : NULL;
  plan->node = NULL;
  for (size_t i = 0; i < book->nodes.many && !plan->lease; i++) {
    struct node *it = book->nodes.at[i];
    if (it->kind == CONNECTION ? is_by_hand(it->hub) : it->place == CELLAR_ROOT) {
      bool is_better = !plan->node || (plan->node->kind == CONNECTION && (it->kind != CONNECTION || it->hub < plan->node->hub));
      plan->node = is_better ? it : plan->node;
      if (it->kind != CONNECTION)
        break;
    }
  }
  return plan->lease || plan->node ? CELLAR_DONE : CELLAR_GONE;
}

static uint8_t against(struct engine *engine, const struct cellar_command *c, struct plan *plan) {
  struct book *book = &engine->book;
  *plan = (struct plan){.node = keyed(&book->nodes, c->node), .resource = keyed(&book->resources, c->node), .lease = keyed(&book->leases, c->node)};
  switch (c->what) {
  case CELLAR_OPEN:
  case CELLAR_USING:
    return against_opening(engine, c, plan);
  case CELLAR_HOLD:
    return plan->node ? is_full(engine, 3) : CELLAR_GONE;
  case CELLAR_NEXT:
  case CELLAR_COMPLETE:
  case CELLAR_ERROR:
    return against_leaf(engine, c, plan->node);
  case CELLAR_FAIL:
  case CELLAR_DECLINE:
    return against_owing(plan->node);
  case CELLAR_DISPOSE:
  case CELLAR_ABORT:
    return against_closing_of(c, plan->node);
  case CELLAR_CONNECT: {
    plan->limit = MOST_HUBS;
    uint8_t status = choose_hub(book, c, true, plan);
    if (status)
      return status;
    if (book->hubs[plan->hub].connection)
      return CELLAR_CONNECTED;
    return book->nodes.many >= MOST_NODES ? CELLAR_TOO_MANY : is_full(engine, 2);
  }
  case CELLAR_DISCONNECT:
    plan->hub = own_hub(book, true, c->value);
    plan->node = plan->hub < MOST_HUBS ? book->hubs[plan->hub].connection : NULL;
    return plan->node ? CELLAR_DONE : CELLAR_NOT_CONNECTED;
  case CELLAR_PUT:
    plan->lane = lane_at(plan->node, c->flags);
    return plan->lane ? CELLAR_DONE : CELLAR_GONE;
  case CELLAR_SHUT:
    return oldest(book, plan);
  case CELLAR_APPLY:
    return plan->resource ? is_full(engine, 1) : CELLAR_NOT_HELD;
  case CELLAR_REMOVE:
  case CELLAR_LEASE:
    if (!plan->resource)
      return CELLAR_NOT_HELD;
    return !plan->resource->node ? CELLAR_LEASED : c->what == CELLAR_LEASE ? is_full(engine, 2) : CELLAR_DONE;
  default:
    return plan->lease ? CELLAR_DONE : CELLAR_NO_LEASE;
  }
}

/* What a command does -----------------------------------------------------------------------------------------------------------*/

/* An effect goes into its lane; the last one of a role lets its lane go. */
static void tells(struct engine *engine, const struct cellar_command *c, struct outcome *it, struct lane *lane, uint32_t kind, uint64_t user) {
  bool carries = carries_value(kind);
  uint64_t value = carries ? c->value : odd_number(&engine->book.chooser, VALUES, 0);
  lane_put(&engine->lanes, lane, (struct cellar_effect){user, value, c->by, kind, carries});
  it->copies += carries;
  if (lane->touched != engine->commands) {
    lane->touched = engine->commands;
    lane->says_gone = kind == CELLAR_E_GONE || kind == CELLAR_E_MERGED;
    engine->touched.at = grown(engine->touched.at, &engine->touched.room, engine->touched.many, sizeof(void *));
    engine->touched.at[engine->touched.many++] = lane;
  }
  if (kind != CELLAR_E_NEXT && kind != CELLAR_E_PROJECT && kind != CELLAR_E_PUT)
    lane_named_less(&engine->lanes, lane);
}

static void goes(struct engine *engine, struct node *node) {
  if (node->wishes)
    words_put(&engine->closings, node->user);
  if (is_of_share(node->kind) || node->kind == CONNECTION)
    engine->book.hubs[node->hub].many--;
  lane_named_less(&engine->lanes, node->home);
  free(node);
}

static void tells_notes(struct engine *engine, const struct cellar_command *c, struct outcome *it) {
  struct book *book = &engine->book;
  for (size_t i = 0; i < book->many_notes; i++) {
    struct node *to = book->notes[i].to;
    uint32_t kind = book->notes[i].kind;
    to->hears &= kind == CELLAR_E_NEXT || kind == CELLAR_E_PROJECT;
    tells(engine, c, it, kind == CELLAR_E_PROJECT || kind == CELLAR_E_MERGED ? to->projects : to->home, kind, to->user);
  }
  book->many_notes = 0;
}

/* What is still to be told of what is gone, in any order. */
static void notes_gone(struct book *book) {
  for (size_t i = book->gone.many; i-- > 0;) {
    struct node *node = book->gone.at[i];
    if (node->hears)
      book_note(book, node, CELLAR_E_GONE);
    if (node->merges)
      book_note(book, node, CELLAR_E_MERGED);
  }
  for (size_t i = 0; i < book->many_notes; i++) {
    size_t place = i + choose(&book->chooser, GONE, book->many_notes - i);
    struct note note = book->notes[place];
    book->notes[place] = book->notes[i];
    book->notes[i] = note;
  }
}

/* All notes are told; who was closed has ended; what waits is released. */
static void settled(struct engine *engine, const struct cellar_command *c, struct outcome *it) {
  struct book *book = &engine->book;
  book_settle(book);
  tells_notes(engine, c, it);
  notes_gone(book);
  tells_notes(engine, c, it);
  while (book->waits.many) {
    struct resource *resource = book_take(book);
    tells(engine, c, it, resource->lane, CELLAR_E_RELEASE, resource->tag);
    free(resource);
  }
  it->is_item = c->what == CELLAR_NEXT && !(c->flags & CELLAR_QUEUES) && !book->gone.many;
  for (size_t i = book->gone.many; i-- > 0;)
    goes(engine, book->gone.at[i]);
  book->gone.many = 0;
}

static struct lane *named(struct lane *lane) {
  lane->many++;
  return lane;
}

static struct lane *new_lane(struct engine *engine) { return named(lane_opened(&engine->lanes)); }

static void joins(struct book *book, struct node *node, uint64_t share) {
  book->hubs[node->hub].owner = share;
  book->hubs[node->hub].many++;
}

static void connected(struct engine *engine, struct outcome *it, struct node *node, uint64_t share) {
  it->other = (struct cellar_node){node->slot, node->number};
  node->home = new_lane(engine);
  node->limit = node->hub;
  joins(&engine->book, node, share);
}

static void holds(struct engine *engine, const struct cellar_command *c, struct outcome *it, struct node *node) {
  struct resource *resource = book_hold(&engine->book, node);
  resource->tag = c->value;
  resource->lane = named(node->home);
  engine->accepted++;
  it->other = (struct cellar_node){resource->slot, resource->number};
}

static void opens(struct engine *engine, const struct cellar_command *c, const struct plan *plan, struct outcome *it) {
  struct book *book = &engine->book;
  uint8_t kind = c->what == CELLAR_USING ? CELLAR_PASS : c->kind;
  struct node *node = book_open(book, c->place, kind, plan->node, plan->hub);
  node->user = c->user;
  node->limit = plan->limit;
  node->wishes = c->flags & CELLAR_WISHES;
  node->home = plan->lane ? named(plan->lane) : new_lane(engine);
  node->hears = c->place == CELLAR_ROOT;
  if (node->hears)
    named(node->home);
  node->merges = kind == CELLAR_FLAT || kind == CELLAR_SWITCH;
  if (node->merges)
    node->projects = new_lane(engine);
  book_settle(book);
  if (c->what == CELLAR_USING)
    holds(engine, c, it, node);
  it->node = (struct cellar_node){node->slot, node->number};
  if (is_of_share(kind)) {
    joins(book, node, c->value);
    it->is_connected = book->connected;
    if (it->is_connected)
      connected(engine, it, book->connected, c->value);
  }
}

static void connects(struct engine *engine, const struct cellar_command *c, const struct plan *plan, struct outcome *it) {
  struct node *node = book_connect(&engine->book, plan->hub);
  node->user = c->user;
  node->wishes = c->flags & CELLAR_WISHES;
  connected(engine, it, node, c->value);
}

static void does(struct engine *engine, const struct cellar_command *c, const struct plan *plan, struct outcome *it) {
  struct book *book = &engine->book;
  switch (c->what) {
  case CELLAR_OPEN:
  case CELLAR_USING:
    opens(engine, c, plan, it);
    break;
  case CELLAR_CONNECT:
    connects(engine, c, plan, it);
    break;
  case CELLAR_HOLD:
    holds(engine, c, it, plan->node);
    break;
  case CELLAR_NEXT:
    book_item(book, plan->node);
    break;
  case CELLAR_COMPLETE:
    book_end(book, plan->node, false);
    break;
  case CELLAR_ERROR:
  case CELLAR_FAIL:
  case CELLAR_ABORT:
    book_end(book, plan->node, true);
    break;
  case CELLAR_DECLINE:
    book_decline(book, plan->node);
    break;
  case CELLAR_DISPOSE:
  case CELLAR_DISCONNECT:
    book_close(book, plan->node);
    break;
  case CELLAR_PUT:
    tells(engine, c, it, plan->lane, CELLAR_E_PUT, c->user);
    break;
  case CELLAR_SHUT:
    if (plan->lease)
      book_return(book, plan->lease);
    else
      book_close(book, plan->node);
    break;
  case CELLAR_APPLY:
    book_use(book, plan->resource);
    break;
  case CELLAR_REMOVE:
    book_remove(book, plan->resource);
    break;
  case CELLAR_LEASE: {
    struct lease *lease = book_lease(book, plan->resource);
    it->other = (struct cellar_node){lease->slot, lease->number};
    break;
  }
  default:
    book_return(book, plan->lease);
  }
}

/* A command ---------------------------------------------------------------------------------------------------------------------*/

bool is_refused(struct chooser *chooser, enum choice which) {
  return chooser->told ? chooser->told->status == CELLAR_NO_MEMORY : choose(chooser, which, 2);
}

static bool asks_for_memory(const struct cellar_command *c) {
  switch (c->what) {
  case CELLAR_OPEN:
  case CELLAR_USING:
  case CELLAR_HOLD:
  case CELLAR_APPLY:
  case CELLAR_LEASE:
  case CELLAR_CONNECT:
  case CELLAR_NEXT:
  case CELLAR_PUT:
    return true;
  default:
    return false;
  }
}

/* Without a limit a checkpoint comes before a command, if it is not put off. */
static void tidies(struct engine *engine) {
  struct book *book = &engine->book;
  uint64_t since = book->events - book->first;
  if (!engine->limit && since > 4000 && since > 4 * (book->nodes.many + book->resources.many) && !choose(&book->chooser, CHECKPOINTS, 2))
    book_checkpoint(book);
  const struct cellar_event *told = told_next(book);
  if (!book->has_hubs && (told ? told->what == MADE_HUB : !engine->limit && choose(&book->chooser, MAKING, 2)))
    book_make_hubs(book);
}

struct outcome engine_command(struct engine *engine, const struct cellar_command *c) {
  struct chooser *chooser = &engine->book.chooser;
  struct plan plan;
  if (asks_for_memory(c) && is_refused(chooser, BEFORE))
    return (struct outcome){.status = CELLAR_NO_MEMORY};
  if (!is_known(c))
    return (struct outcome){.status = CELLAR_NO_SUCH_CODE};
  tidies(engine);
  uint8_t status = against(engine, c, &plan);
  if (status == CELLAR_FULL) {
    if (is_refused(chooser, FULL))
      return (struct outcome){.status = CELLAR_NO_MEMORY};
    book_checkpoint(&engine->book);
    status = against(engine, c, &plan);
  }
  if (!status && asks_for_memory(c) && is_refused(chooser, MEMORY))
    status = CELLAR_NO_MEMORY;
  struct outcome it = {.status = status};
  if (status)
    return it;
  engine->commands++;
  engine->touched.many = engine->closings.many = 0;
  engine->book.connected = NULL;
  does(engine, c, &plan, &it);
  settled(engine, c, &it);
  if (c->what == CELLAR_CONNECT || (c->what == CELLAR_OPEN && is_of_share(c->kind)))
    do
      it.hub = odd_number(chooser, HUB_WORDS, plan.hub);
    while (it.hub == CELLAR_UNKNOWN_HUB);
  return it;
}

bool engine_is_done(const struct engine *engine) {
  const struct book *book = &engine->book;
  return !book->nodes.many && !book->resources.many && !book->leases.many && !engine->lanes.effects;
}

void engine_free(struct engine *engine) {
  book_free(&engine->book);
  lanes_free(&engine->lanes);
  free(engine->touched.at);
  free(engine->closings.at);
}
