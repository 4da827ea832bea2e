/* Pages for each slice, and their copies. */
#include "memory.h"

#include <inttypes.h>
#include <stdarg.h>
#include <stdio.h>
#include <stdlib.h>
#include <string.h>
#include <sys/mman.h>
#include <unistd.h>

struct lent lent[SLICES];

/* The pages of a slice, and what of them is looked at: the slice, and so many bytes beside it as are there. */
static struct pages {
  uint8_t *start, *copy;
  size_t bytes, most, from, through;
} pages[SLICES];

#define BESIDE 4096

static const char *const slice_names[SLICES] = {
    "lows", "owners",  "keys", "slots",    "lens", "values", "name_lens", "names",        "counts", "places", "mail",
    "room", "numbers", "from", "datagram", "ack",  "out",    "ats",       "address_lens", "bytes",  "me",
};

void fail(const char *format, ...) {
  va_list arguments;
  va_start(arguments, format);
  fputs("tests/fuzz: ", stderr);
  vfprintf(stderr, format, arguments);
  fputc('\n', stderr);
  va_end(arguments);
  abort();
}

size_t element(enum slice slice) {
  const uint32_t bytes =
      BIT(VALUES) | BIT(NAMES) | BIT(MAIL) | BIT(ROOM) | BIT(FROM) | BIT(DATAGRAM) | BIT(ACK) | BIT(BYTES) | BIT(ME);
  return bytes & BIT(slice) ? 1 : sizeof(uint64_t);
}

size_t most_of(enum slice slice) { return pages[slice].most; }

static void map(enum slice slice, size_t most) {
  size_t page = (size_t)sysconf(_SC_PAGESIZE);
  size_t bytes = (most * element(slice) + page) / page * page;
  uint8_t *all = mmap(NULL, bytes + 2 * page, PROT_NONE, MAP_PRIVATE | MAP_ANONYMOUS, -1, 0);
  if (all == MAP_FAILED || mprotect(all + page, bytes, PROT_READ | PROT_WRITE) != 0) fail("no memory to lend");
  pages[slice] = (struct pages){all + page, malloc(bytes), bytes, most, 0, 0};
  if (pages[slice].copy == NULL) fail("no memory for a copy");
}

void map_slices(const size_t most[SLICES]) {
  for (int i = 0; i < SLICES; i++) map(i, most[i]);
}

void lend(enum slice slice, size_t count, bool at_end) {
  struct pages *p = &pages[slice];
  if (count > p->most) fail("the harness lends more of %s than it has pages for", slice_names[slice]);
  lent[slice].count = count;
  size_t bytes = count * element(slice), beside = p->bytes - bytes < BESIDE ? p->bytes - bytes : BESIDE;
  lent[slice].at = at_end ? p->start + p->bytes - bytes : p->start;
  p->from = at_end ? p->bytes - bytes - beside : 0;
  p->through = at_end ? p->bytes : bytes + beside;
}

void fill(enum slice slice, uint8_t byte) {
  struct pages *p = &pages[slice];
  memset(p->start + p->from, byte, p->through - p->from);
}

void remember(enum slice slice) {
  struct pages *p = &pages[slice];
  memcpy(p->copy + p->from, p->start + p->from, p->through - p->from);
}

/* The bytes of the pages from one place to another are as they were. */
static bool same(enum slice slice, size_t from, size_t through) {
  return memcmp(pages[slice].start + from, pages[slice].copy + from, through - from) == 0;
}

uint64_t *words(enum slice slice) { return (uint64_t *)(void *)lent[slice].at; }

/* Where the copy has what stands at the slice's start. */
static const uint8_t *copy_of(enum slice slice) { return pages[slice].copy + (lent[slice].at - pages[slice].start); }

uint64_t number_before(size_t word) {
  uint64_t number;
  memcpy(&number, copy_of(NUMBERS) + word * sizeof number, sizeof number);
  return number;
}

/* What stands before and behind the slice. */
static bool surroundings_kept(enum slice slice) {
  const struct pages *p = &pages[slice];
  size_t start = (size_t)(lent[slice].at - p->start), end = start + lent[slice].count * element(slice);
  return same(slice, p->from, start) && same(slice, end, p->through);
}

static bool words_kept(uint32_t may) {
  for (size_t i = 0; i < lent[NUMBERS].count; i++)
    if (!(may & (1u << i)) && words(NUMBERS)[i] != number_before(i)) return false;
  return true;
}

void settle(const char *step, uint64_t answer, uint32_t may, uint32_t may_words) {
  for (int i = 0; i < SLICES; i++) {
    if (same(i, pages[i].from, pages[i].through)) continue;
    if (!surroundings_kept(i)) fail("%s answered %" PRIu64 " and wrote beside %s", step, answer, slice_names[i]);
    if (!(may & BIT(i))) fail("%s answered %" PRIu64 " and changed %s", step, answer, slice_names[i]);
    if (i == NUMBERS && !words_kept(may_words))
      fail("%s answered %" PRIu64 " and changed a number that it must not", step, answer);
    remember(i);
  }
}
