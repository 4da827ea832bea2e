/* The memory that is lent. Each slice stands in pages of its own, at their very start or their very end, between two
   pages that nobody may touch, so that reading or writing past that end stops the program. A copy shows what was
   written, also to the bytes at the slice's other end. */
#ifndef FUZZ_MEMORY_H
#define FUZZ_MEMORY_H

#include <stdbool.h>
#include <stddef.h>
#include <stdint.h>

/* The host's memory, then what is lent beside it for a step, then what tells the hosts when one starts. */
enum slice {
  LOWS,
  OWNERS,
  KEYS,
  SLOTS,
  LENS,
  VALUES,
  NAME_LENS,
  NAMES,
  COUNTS,
  PLACES,
  MAIL,
  ROOM,
  NUMBERS,
  FROM,
  DATAGRAM,
  ACK,
  OUT,
  ATS,
  ADDRESS_LENS,
  BYTES,
  ME,
  SLICES
};

/* Slices as a set. */
#define BIT(slice) (1u << (slice))

/* The slices of the host itself. */
#define HOST_SLICES (NUMBERS + 1)

/* How many elements a slice has, and where its first one stands. */
struct lent {
  uint8_t *at;
  size_t count;
};
extern struct lent lent[SLICES];

/* Ends the program with one line that says what was not kept. */
_Noreturn void fail(const char *format, ...) __attribute__((format(printf, 1, 2)));

/* Makes pages for the largest number of elements that each slice may get. To be called once. */
void map_slices(const size_t most[SLICES]);

/* How many bytes an element has, and how many elements there are pages for. */
size_t element(enum slice slice);
size_t most_of(enum slice slice);

/* The slice has so many elements from now on, at the end of its pages or at their start. It is then to be
   remembered. */
void lend(enum slice slice, size_t count, bool at_end);

/* Fills a slice and the bytes beside it. */
void fill(enum slice slice, uint8_t byte);

/* What stands in the slice and beside it now is what it is compared with. */
void remember(enum slice slice);

/* The words of a slice of numbers. */
uint64_t *words(enum slice slice);

/* A word of numbers as it was when the slice was remembered. */
uint64_t number_before(size_t word);

/* Fails if anything has changed since it was remembered, but for the slices `may`, and of the words of NUMBERS but
   for the set `may_words`. What has changed is then remembered. `step` and `answer` are for the line of a failure. */
void settle(const char *step, uint64_t answer, uint32_t may, uint32_t may_words);

#endif
