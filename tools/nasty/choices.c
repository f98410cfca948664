#include "choices.h"

#include <stdatomic.h>
#include <stdlib.h>
#include <string.h>

#ifdef NASTY_ALONE /* a module, which has no environment: what is set is written in */
static const char *set_outside(void) { return NASTY_ALONE; }
#else
#include <stdio.h>
static void write_counts(void);
static const char *set_outside(void) {
  if (getenv("CELLAR_NASTY_COUNTS"))
    atexit(write_counts);
  const char *settings = getenv("CELLAR_NASTY");
  return settings ? settings : "";
}
#endif

static const char *const names[MANY_CHOICES] = {
#define ROW(id, name, often, open) name,
    CHOICES(ROW)
#undef ROW
};
static const char *const open[MANY_CHOICES] = {
#define ROW(id, name, often, open) open,
    CHOICES(ROW)
#undef ROW
};
static const unsigned usual[MANY_CHOICES] = {
#define ROW(id, name, often, open) often,
    CHOICES(ROW)
#undef ROW
};
static unsigned often[MANY_CHOICES];
static atomic_uint_fast64_t asked[MANY_CHOICES], taken[MANY_CHOICES], engines;
static uint64_t seed;
static atomic_bool is_set;

/* Words: a number is the seed, name=n how often of a thousand times, all=n for each. */
void nasty_set(const char *settings) {
  is_set = true;
  memcpy(often, usual, sizeof often);
  while (*settings) {
    size_t length = strcspn(settings, " ");
    const char *sign = memchr(settings, '=', length);
    if (!sign)
      seed = length ? strtoull(settings, NULL, 10) : seed;
    for (int i = 0; sign && i < MANY_CHOICES; i++) {
      size_t name = (size_t)(sign - settings);
      if ((strlen(names[i]) == name && !memcmp(names[i], settings, name)) || (name == 3 && !memcmp("all", settings, 3)))
        often[i] = (unsigned)strtoul(sign + 1, NULL, 10);
    }
    settings += length + (settings[length] == ' ');
  }
  engines = 0;
}

/* A choice: its name, or none behind the last; what leaves it open, how often it was there, and how often it was not as the library has it. */
const char *nasty_count(uint32_t which, const char **what, uint64_t *there, uint64_t *other) {
  if (which >= MANY_CHOICES)
    return NULL;
  *what = open[which];
  *there = asked[which];
  *other = taken[which];
  return names[which];
}

#ifndef NASTY_ALONE
/* At the end of a program the counts go to the end of a file. */
static void write_counts(void) {
  FILE *file = fopen(getenv("CELLAR_NASTY_COUNTS"), "a");
  for (int i = 0; file && i < MANY_CHOICES; i++)
    fprintf(file, "%s %llu %llu\n", names[i], (unsigned long long)asked[i], (unsigned long long)taken[i]);
  if (file)
    fclose(file);
}
#endif

static uint64_t chance(struct chooser *chooser) { /* splitmix64, of Sebastiano Vigna's public domain text */
  uint64_t z = chooser->state += UINT64_C(0x9E3779B97F4A7C15);
  z = (z ^ z >> 30) * UINT64_C(0xBF58476D1CE4E5B9);
  z = (z ^ z >> 27) * UINT64_C(0x94D049BB133111EB);
  return z ^ z >> 31;
}

struct chooser new_chooser(void) {
  if (!atomic_exchange(&is_set, true))
    nasty_set(set_outside());
  return (struct chooser){seed * 1000003 + engines++, NULL};
}

uint64_t choose(struct chooser *chooser, enum choice which, uint64_t many) {
  if (chooser->told || many < 2)
    return 0;
  asked[which]++;
  if (chance(chooser) % 1000 >= often[which])
    return 0;
  uint64_t chosen = chance(chooser) % many;
  taken[which] += chosen > 0;
  return chosen;
}

uint64_t odd_number(struct chooser *chooser, enum choice which, uint64_t plain) {
  uint64_t number = chance(chooser);
  switch (choose(chooser, which, 5)) {
  case 1:
    return number;
  case 2:
    return (UINT64_C(1) << number % 64) - (number >> 32) % 2;
  case 3:
    return number % 1000;
  case 4:
    return number | UINT64_C(0xFFFFFFFF00000000);
  default:
    return plain;
  }
}

uint64_t odd_name(struct chooser *chooser, enum choice which, uint64_t number) {
  switch (choose(chooser, which, 4)) {
  case 1:
    return (number + 1) << 32;
  case 2:
    return UINT64_C(1) << 62 | ((number + 1) * UINT64_C(0x9E3779B97F4A7C15) & (UINT64_MAX >> 3));
  case 3:
    return (UINT64_MAX >> 1) - 1 - number;
  default:
    return number + 1;
  }
}

void shuffle(struct chooser *chooser, enum choice which, uint64_t *words, uint64_t many) {
  for (uint64_t i = 0; i + 1 < many; i++) {
    uint64_t other = i + choose(chooser, which, many - i), word = words[i];
    words[i] = words[other];
    words[other] = word;
  }
}

void differs(struct chooser *chooser, const char *why) {
  if (chooser->told && !chooser->told->differs)
    chooser->told->differs = why;
}
