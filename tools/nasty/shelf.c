#include "shelf.h"

#include <stdlib.h>
#include <string.h>

void *had(size_t size) {
  void *at = calloc(1, size ? size : 1);
  if (!at)
    abort();
  return at;
}

void *grown(void *at, size_t *room, size_t many, size_t size) {
  if (many < *room)
    return at;
  *room = *room ? 2 * *room : 8;
  at = realloc(at, *room * size);
  if (!at)
    abort();
  return at;
}

static uint64_t number_of(const void *it) { return *(const uint64_t *)it; }

size_t shelf_place(const struct shelf *shelf, uint64_t number) {
  size_t low = 0, high = shelf->many;
  while (low < high) {
    size_t middle = (low + high) / 2;
    if (number_of(shelf->at[middle]) < number)
      low = middle + 1;
    else
      high = middle;
  }
  return low;
}

void *shelf_find(const struct shelf *shelf, uint64_t number) {
  size_t place = shelf_place(shelf, number);
  return place < shelf->many && number_of(shelf->at[place]) == number ? shelf->at[place] : NULL;
}

void shelf_add(struct shelf *shelf, void *it) {
  size_t place = shelf_place(shelf, number_of(it));
  shelf->at = grown(shelf->at, &shelf->room, shelf->many, sizeof *shelf->at);
  memmove(shelf->at + place + 1, shelf->at + place, (shelf->many++ - place) * sizeof *shelf->at);
  shelf->at[place] = it;
}

void shelf_remove(struct shelf *shelf, uint64_t number) {
  size_t place = shelf_place(shelf, number);
  memmove(shelf->at + place, shelf->at + place + 1, (--shelf->many - place) * sizeof *shelf->at);
}
