#include "book.h"

#include <stdlib.h>
#include <string.h>

bool is_by_hand(unsigned hub) { return hub / BLOCK % 2; }
static bool is_merging(const struct node *node) { return node->kind == CELLAR_FLAT || node->kind == CELLAR_SWITCH; }

static void list_put(struct list *list, void *it) {
  list->at = grown(list->at, &list->room, list->many, sizeof *list->at);
  list->at[list->many++] = it;
}

const struct cellar_event *told_next(const struct book *book) {
  const struct told *told = book->chooser.told;
  return told && book->events < told->many_events ? told->events + book->events : NULL;
}

static uint64_t happened(struct book *book, struct cellar_event e) {
  size_t many = book->events - book->first;
  book->history = grown(book->history, &book->room, many, sizeof e);
  book->history[many] = e;
  if (book->chooser.told) {
    const struct cellar_event *told = told_next(book);
    if (!told || told->what != e.what || told->place != e.place || told->kind != e.kind ||
        told->how != e.how || told->of != e.of || (e.what != HELD_AT && told->other != e.other) || told->value != e.value)
      differs(&book->chooser, "an event is another");
  }
  return book->events++;
}

static void comes_of(struct book *book, enum what what, uint64_t of) { happened(book, (struct cellar_event){.what = what, .of = of}); }

static uint64_t slot(struct book *book, uint64_t number) { return odd_number(&book->chooser, SLOTS, number % 7); }

static void look_at(struct book *book, struct node *node) {
  if (node && !node->is_gone && !node->is_on_agenda) {
    node->is_on_agenda = true;
    list_put(&book->agenda, node);
  }
}

static void look_at_hub(struct book *book, unsigned hub) {
  struct hub *it = &book->hubs[hub];
  look_at(book, it->connection);
  if (!it->is_on_agenda) {
    it->is_on_agenda = true;
    list_put(&book->hub_agenda, it);
  }
}

/* Nodes that go ------------------------------------------------------------------------------------------------------------*/

static void lets_go(struct book *book, struct resource *it) {
  it->node = NULL;
  book->owned--;
  if (!it->leases) {
    shelf_remove(&book->resources, it->number);
    list_put(&book->waits, it);
  }
}

static void goes(struct book *book, struct node *node) {
  node->is_gone = true;
  shelf_remove(&book->nodes, node->number);
  list_put(&book->gone, node);
  book->owed -= node->owed;
  if (is_of_share(node->kind))
    shelf_remove(&book->hubs[node->hub].subscribers, node->number);
  if (node->kind == CONNECTION)
    book->hubs[node->hub].connection = NULL;
  if (is_of_share(node->kind) || node->kind == CONNECTION)
    look_at_hub(book, node->hub);
}

/* A node and all below it; what these hold is let go from below. */
static void shut(struct book *book, struct node *node) {
  if (node->before)
    node->before->next = node->next;
  else if (node->above)
    node->above->below = node->next;
  if (node->next)
    node->next->before = node->before;
  size_t first = book->gone.many;
  goes(book, node);
  for (size_t i = first; i < book->gone.many; i++)
    for (struct node *it = ((struct node *)book->gone.at[i])->below; it; it = it->next)
      goes(book, it);
  for (size_t i = book->gone.many; i-- > first;)
    for (struct resource *it = ((struct node *)book->gone.at[i])->holds, *next; it; it = next) {
      next = it->next;
      lets_go(book, it);
    }
}

/* Events -------------------------------------------------------------------------------------------------------------------*/

static struct node *made(struct book *book, uint64_t number, uint8_t place, uint8_t kind, struct node *above, unsigned hub) {
  struct node *node = had(sizeof *node);
  *node = (struct node){.number = number, .slot = slot(book, number), .place = place, .kind = kind, .above = above, .hub = hub};
  shelf_add(&book->nodes, node);
  if (above) {
    node->next = above->below;
    if (node->next)
      node->next->before = node;
    above->below = node;
  }
  return node;
}

struct node *book_open(struct book *book, uint8_t place, uint8_t kind, struct node *above, unsigned hub) {
  bool shares = is_of_share(kind);
  uint64_t number = happened(book, (struct cellar_event){OPENED, place, shares ? CELLAR_SHARED : kind, 0, 0, above ? above->number : 0,
                                                         shares ? book->first_hub + hub : 0, 0});
  if (place == CELLAR_INNER) {
    above->owed--;
    book->owed--;
    for (struct node *it = above->kind == CELLAR_SWITCH ? above->below : NULL, *next; it; it = next) {
      next = it->next;
      if (it->place == CELLAR_INNER)
        shut(book, it);
    }
  } else if (above)
    *(place == CELLAR_SOURCE ? &above->had_source : &above->had_notifier) = true;
  struct node *node = made(book, number, place, kind, above, hub);
  if (shares) {
    shelf_add(&book->hubs[hub].subscribers, node);
    look_at_hub(book, hub);
  }
  return node;
}

struct node *book_connect(struct book *book, unsigned hub) {
  uint64_t number = happened(book, (struct cellar_event){.what = CONNECTED, .of = book->first_hub + hub});
  book->connected = book->hubs[hub].connection = made(book, number, CELLAR_ROOT, CONNECTION, NULL, hub);
  look_at_hub(book, hub);
  return book->connected;
}

void book_make_hubs(struct book *book) {
  book->has_hubs = true;
  book->first_hub = book->events;
  for (unsigned hub = 0; hub < MOST_HUBS; hub++)
    happened(book, (struct cellar_event){.what = MADE_HUB, .how = is_by_hand(hub)});
}

struct resource *book_hold(struct book *book, struct node *node) {
  struct resource *it = had(sizeof *it);
  it->number = happened(book, (struct cellar_event){.what = HELD_AT, .of = node->number, .other = odd_number(&book->chooser, OTHERS, 0)});
  it->slot = slot(book, it->number);
  it->node = node;
  struct resource **link = &node->holds;
  while (*link)
    link = &(*link)->next;
  *link = it;
  shelf_add(&book->resources, it);
  book->owned++;
  return it;
}

struct lease *book_lease(struct book *book, struct resource *of) {
  struct lease *it = had(sizeof *it);
  it->number = happened(book, (struct cellar_event){.what = LEASED_OUT, .of = of->number});
  it->slot = slot(book, it->number);
  it->of = of;
  of->leases++;
  shelf_add(&book->leases, it);
  return it;
}

void book_use(struct book *book, struct resource *it) { comes_of(book, USED, it->number); }

void book_remove(struct book *book, struct resource *it) {
  comes_of(book, REMOVED, it->number);
  struct resource **link = &it->node->holds;
  while (*link != it)
    link = &(*link)->next;
  *link = it->next;
  lets_go(book, it);
}

void book_return(struct book *book, struct lease *it) {
  comes_of(book, RETURNED_IT, it->number);
  shelf_remove(&book->leases, it->number);
  if (!--it->of->leases && !it->of->node) {
    shelf_remove(&book->resources, it->of->number);
    list_put(&book->waits, it->of);
  }
  free(it);
}

void book_decline(struct book *book, struct node *it) {
  comes_of(book, DECLINED, it->number);
  it->owed--;
  book->owed--;
  look_at(book, it);
}

void book_note(struct book *book, struct node *to, uint32_t kind) {
  book->notes = grown(book->notes, &book->room_notes, book->many_notes, sizeof *book->notes);
  book->notes[book->many_notes++] = (struct note){to, kind};
}

void book_end(struct book *book, struct node *it, bool failed) {
  happened(book, (struct cellar_event){.what = ENDED, .how = failed, .of = it->number});
  if (it->kind == CONNECTION) {
    struct shelf *subscribers = &book->hubs[it->hub].subscribers;
    for (size_t i = 0; i < subscribers->many; i++) {
      ((struct node *)subscribers->at[i])->is_to_end[failed] = true;
      look_at(book, subscribers->at[i]);
    }
  } else if (it->above) {
    it->above->is_to_end[failed] = true;
    it->above->source_completed |= it->place == CELLAR_SOURCE && !failed;
    look_at(book, it->above);
  } else
    book_note(book, it, failed ? CELLAR_E_FAILED : CELLAR_E_COMPLETED);
  shut(book, it);
}

void book_close(struct book *book, struct node *it) {
  comes_of(book, CLOSED, it->number);
  shut(book, it);
}

/* The climb of an item: what is to be done at each stop; and how many nodes were visited. */
static uint64_t climb(struct book *book, struct node *leaf, bool is_asked, uint64_t *projections) {
  struct list todo = {0};
  uint64_t visits = 0;
  list_put(&todo, leaf);
  while (todo.many && visits <= MOST_VISITS) {
    struct node *it = todo.at[--todo.many];
    visits++;
    if (it->kind == CONNECTION) {
      struct shelf *subscribers = &book->hubs[it->hub].subscribers;
      for (size_t i = subscribers->many; i-- > 0;)
        list_put(&todo, subscribers->at[i]);
    } else if (it->place == CELLAR_ROOT) {
      if (!is_asked)
        book_note(book, it, CELLAR_E_NEXT);
    } else if (it->place == CELLAR_NOTIFIER) {
      if (!is_asked) {
        it->above->fired = true;
        look_at(book, it->above);
      }
    } else if (it->place == CELLAR_SOURCE && is_merging(it->above)) {
      if (is_asked)
        ++*projections;
      else {
        it->above->owed++;
        book->owed++;
        book_note(book, it->above, CELLAR_E_PROJECT);
      }
    } else
      list_put(&todo, it->above);
  }
  free(todo.at);
  return visits;
}

void book_item(struct book *book, struct node *leaf) {
  comes_of(book, ITEM, leaf->number);
  climb(book, leaf, false, NULL);
}

uint64_t book_visits(const struct book *book, struct node *leaf, uint64_t *projections) {
  *projections = 0;
  return climb((struct book *)book, leaf, true, projections);
}

/* What is forced -----------------------------------------------------------------------------------------------------------*/

struct forced {
  enum what what;
  struct node *node;
  unsigned hub;
  bool failed;
};

struct forced_list {
  struct forced *at;
  size_t many, room;
};

static void force(struct forced_list *list, struct forced it) {
  list->at = grown(list->at, &list->room, list->many, sizeof it);
  list->at[list->many++] = it;
}

static bool is_connect_due(const struct book *book, const struct hub *hub) {
  if (is_by_hand((unsigned)(hub - book->hubs)) || hub->connection)
    return false;
  for (size_t i = 0; i < hub->subscribers.many; i++) {
    const struct node *it = hub->subscribers.at[i];
    if (!it->is_to_end[0] && !it->is_to_end[1])
      return true;
  }
  return false;
}

static void forced_of(const struct book *book, struct node *it, struct forced_list *list) {
  bool completes = it->is_to_end[0];
  if (is_merging(it))
    completes = it->source_completed && !it->is_to_end[1] && !it->below && !it->owed;
  if (completes || (it->kind == CELLAR_UNTIL && it->fired))
    force(list, (struct forced){ENDED, it, 0, false});
  if (it->is_to_end[1])
    force(list, (struct forced){ENDED, it, 0, true});
  if (it->kind == CONNECTION && !is_by_hand(it->hub) && !book->hubs[it->hub].subscribers.many)
    force(list, (struct forced){CLOSED, it, 0, false});
}

/* While a connection is due nothing else is forced. What needs no look any more leaves the agenda. */
static void all_forced(struct book *book, struct forced_list *list) {
  list->many = 0;
  for (size_t i = 0; i < book->hub_agenda.many; i++)
    if (is_connect_due(book, book->hub_agenda.at[i]))
      force(list, (struct forced){CONNECTED, NULL, (unsigned)((struct hub *)book->hub_agenda.at[i] - book->hubs), false});
  if (list->many)
    return;
  size_t kept = 0;
  for (size_t i = 0; i < book->agenda.many; i++) {
    struct node *it = book->agenda.at[i];
    size_t before = list->many;
    if (!it->is_gone)
      forced_of(book, it, list);
    it->is_on_agenda = list->many > before;
    if (it->is_on_agenda)
      book->agenda.at[kept++] = it;
  }
  book->agenda.many = kept;
}

static size_t chosen(struct book *book, const struct forced_list *list) {
  const struct cellar_event *e = told_next(book);
  if (!e)
    return choose(&book->chooser, FORCED, list->many);
  for (size_t i = 0; i < list->many; i++) {
    const struct forced *it = &list->at[i];
    if (e->what == it->what && e->how == it->failed && e->of == (it->node ? it->node->number : book->first_hub + it->hub))
      return i;
  }
  return 0; /* which is found to be another event */
}

void book_settle(struct book *book) {
  struct forced_list list = {0};
  for (all_forced(book, &list); list.many; all_forced(book, &list)) {
    struct forced it = list.at[chosen(book, &list)];
    if (it.what == CONNECTED)
      book_connect(book, it.hub);
    else if (it.what == ENDED)
      book_end(book, it.node, it.failed);
    else
      book_close(book, it.node);
  }
  for (size_t i = 0; i < book->hub_agenda.many; i++)
    ((struct hub *)book->hub_agenda.at[i])->is_on_agenda = false;
  book->hub_agenda.many = 0;
  free(list.at);
}

struct resource *book_take(struct book *book) {
  struct list *waits = &book->waits;
  const struct cellar_event *e = told_next(book);
  size_t place = choose(&book->chooser, RELEASES, waits->many);
  for (size_t i = 0; e && i < waits->many; i++)
    if (((struct resource *)waits->at[i])->number == e->of)
      place = i;
  struct resource *it = waits->at[place];
  memmove(waits->at + place, waits->at + place + 1, (--waits->many - place) * sizeof *waits->at);
  comes_of(book, TAKEN, it->number);
  return it;
}

/* Room ---------------------------------------------------------------------------------------------------------------------*/

uint64_t book_debt(const struct book *book) {
  return book->nodes.many + book->resources.many + book->owned + book->leases.many + book->owed;
}

void book_checkpoint(struct book *book) { book->first = book->events; }

static void free_all(struct shelf *shelf) {
  for (size_t i = 0; i < shelf->many; i++)
    free(shelf->at[i]);
  free(shelf->at);
}

void book_free(struct book *book) {
  free_all(&book->nodes);
  free_all(&book->resources);
  free_all(&book->leases);
  for (unsigned hub = 0; hub < MOST_HUBS; hub++)
    free(book->hubs[hub].subscribers.at);
  free(book->agenda.at);
  free(book->hub_agenda.at);
  free(book->gone.at);
  free(book->waits.at);
  free(book->notes);
  free(book->history);
}
