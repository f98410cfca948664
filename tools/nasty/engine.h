/* The engine: commands, what stands against each, and the effects that it puts into lanes. Of the calls that serve it knows nothing. */
#ifndef NASTY_ENGINE_H
#define NASTY_ENGINE_H

#include "book.h"
#include "lanes.h"

struct words {
  uint64_t *at;
  size_t many, room;
};

struct engine {
  struct book book;
  struct lanes lanes;
  uint64_t limit, accepted, commands;
  struct list touched;   /* lanes into which the last command put something */
  struct words closings; /* of the last command: words of what it closed */
};

struct outcome {
  uint8_t status;
  struct cellar_node node, other;
  bool is_connected;
  uint64_t hub, copies;
  bool is_item; /* an item that may be handed out, and nothing was closed */
};

bool is_known(const struct cellar_command *c);
struct outcome engine_command(struct engine *engine, const struct cellar_command *c);
bool engine_is_done(const struct engine *engine);
void words_put(struct words *words, uint64_t word);
/* Whether memory is refused where it may be. */
bool is_refused(struct chooser *chooser, enum choice which);
void engine_free(struct engine *engine);

#endif
