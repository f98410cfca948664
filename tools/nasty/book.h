/* The book: nodes, resources, leases and hubs, the events that made them, and what an event forces. It is docs/explanation/definitions.md
 * with what those search for kept up to date. */
#ifndef NASTY_BOOK_H
#define NASTY_BOOK_H

#include "choices.h"
#include "lanes.h"

enum { CONNECTION = CELLAR_PUBLISHED + 1 }; /* one kind more */
enum { MOST_HUBS = 1024, BLOCK = 16, MOST_NODES = 1048576, MOST_VISITS = 1048576 };
enum what { OPENED, MADE_HUB, CONNECTED, HELD_AT, USED, REMOVED, LEASED_OUT, RETURNED_IT, ITEM, DECLINED, ENDED, CLOSED, TAKEN };

struct resource;

struct node {
  uint64_t number, slot;
  uint8_t place, kind;
  struct node *above, *below, *next, *before; /* those below it that are open */
  struct resource *holds;
  uint64_t owed;
  unsigned hub, limit; /* its hub, and that of the connection above it */
  bool had_source, had_notifier, source_completed, fired;
  bool is_to_end[2];   /* completed, failed: as one below it, or the connection of its hub */
  bool is_on_agenda, is_gone;
  /* of the engine */
  uint64_t user;
  bool wishes, hears, merges;
  struct lane *home, *projects;
};

struct resource {
  uint64_t number, slot;
  struct node *node; /* none when leases alone hold it */
  struct resource *next;
  uint64_t leases, tag;
  struct lane *lane;
};

struct lease {
  uint64_t number, slot;
  struct resource *of;
};

struct hub {
  uint64_t owner, many; /* open nodes that name it */
  struct shelf subscribers;
  struct node *connection;
  bool is_on_agenda;
};

struct note {
  struct node *to;
  uint32_t kind; /* of effect */
};

struct list {
  void **at;
  size_t many, room;
};

struct book {
  struct chooser chooser;
  struct cellar_event *history; /* since the last checkpoint */
  uint64_t events, first;       /* all that ever were, and how many are not there any more */
  size_t room;
  struct shelf nodes, resources, leases;
  struct hub hubs[MOST_HUBS];
  uint64_t first_hub;
  bool has_hubs;
  uint64_t owned, owed; /* resources with a node; projections that open nodes owe an inner */
  struct list agenda, hub_agenda, gone, waits;
  struct note *notes;
  size_t many_notes, room_notes;
  struct node *connected; /* by the command under way */
};

/* What comes next in the history of an engine that is followed. */
const struct cellar_event *told_next(const struct book *book);

/* Events of a caller. */
struct node *book_open(struct book *book, uint8_t place, uint8_t kind, struct node *above, unsigned hub);
struct node *book_connect(struct book *book, unsigned hub);
struct resource *book_hold(struct book *book, struct node *node);
struct lease *book_lease(struct book *book, struct resource *of);
void book_make_hubs(struct book *book);
void book_use(struct book *book, struct resource *it);
void book_remove(struct book *book, struct resource *it);
void book_return(struct book *book, struct lease *it);
void book_item(struct book *book, struct node *leaf);
void book_decline(struct book *book, struct node *it);
void book_end(struct book *book, struct node *it, bool failed);
void book_close(struct book *book, struct node *it);
/* What is to be told: of which kind, and to whom. */
void book_note(struct book *book, struct node *to, uint32_t kind);
/* What is forced, until nothing is. */
void book_settle(struct book *book);
/* Takes one of those that wait. */
struct resource *book_take(struct book *book);
void book_checkpoint(struct book *book);

uint64_t book_debt(const struct book *book);
/* How many nodes an item visits, no further than one too many, and to how many it is projected. */
uint64_t book_visits(const struct book *book, struct node *leaf, uint64_t *projections);
static inline bool is_of_share(uint8_t kind) { return kind == CELLAR_SHARED || kind == CELLAR_PUBLISHED; }
bool is_by_hand(unsigned hub);
void book_free(struct book *book);

#endif
