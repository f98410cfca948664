/* A list of things by their numbers, in the order of these, and how memory is had: where there is none the program ends. */
#ifndef NASTY_SHELF_H
#define NASTY_SHELF_H

#include <stdbool.h>
#include <stddef.h>
#include <stdint.h>

void *had(size_t size);                                    /* zeros */
void *grown(void *at, size_t *room, size_t many, size_t size); /* with room for one more */

/* What stands on a shelf begins with its number. */
struct shelf {
  void **at;
  size_t many, room;
};

size_t shelf_place(const struct shelf *shelf, uint64_t number); /* of the first that has this number or a greater one */
void *shelf_find(const struct shelf *shelf, uint64_t number);
void shelf_add(struct shelf *shelf, void *it);
void shelf_remove(struct shelf *shelf, uint64_t number);

#endif
