/* A datagram read from the front, by document 01's tables of bytes. */
#include "reading.h"

#include <string.h>

#include "arrivals.h"

/* Addresses are shorter than this, and a list takes at most so many bytes. */
#define MOST 0x100000

/* What is still to be read, and whether all that was read so far was there. */
static const uint8_t *at;
static size_t left;
static bool good;

static const uint8_t *take(uint64_t count) {
  static const uint8_t none[8];
  if (count > left) good = false;
  if (!good) return none;
  at += count;
  left -= count;
  return at - count;
}

static uint8_t take_byte(void) { return *take(1); }

static uint64_t take_number(void) {
  const uint8_t *bytes = take(8);
  uint64_t number = 0;
  for (int i = 7; i >= 0; i--) number = number << 8 | bytes[i];
  return number;
}

static const uint8_t *take_string(uint64_t *count) {
  *count = take_number();
  return take(*count);
}

static void take_address(void) {
  uint64_t count;
  take_string(&count);
  if (count >= MOST) good = false;
}

/* A byte 0, or 1 and then a key or a value. */
static void take_optional(bool key) {
  uint8_t there = take_byte();
  uint64_t count;
  if (there > 1) good = false;
  if (there == 1 && key) take_number();
  if (there == 1 && !key) take_string(&count);
}

static void take_list(void) {
  size_t before = left;
  uint64_t count = take_number(), last = 0, length;
  for (uint64_t i = 0; i < count && good; i++) {
    uint64_t key = take_number();
    if (i > 0 && key <= last) good = false;
    last = key;
    take_string(&length);
  }
  if (before - left > MOST) good = false;
}

static void take_body(void) {
  uint8_t kind = take_byte();
  if (kind > 5) good = false;
  if (kind < 4) take_number();
  if (kind == 1 || kind == 2) take_optional(false);
  if (kind >= 4) take_optional(true), take_optional(true);
  if (kind == 3 || kind == 4) take_address();
  if (kind == 5) take_list();
}

/* The word of the sender's counts, or 0 if it is no peer. */
static uint64_t count_of_sender(size_t which, bool *peer) {
  int64_t number = peer_of(lent[FROM].at, lent[FROM].count);
  *peer = number >= 0;
  return *peer ? words(COUNTS)[EACH * (size_t)number + which] : 0;
}

/* The address of the host itself, which need not be the one that it started with, since the memory is changed. */
static bool is_own(const uint8_t *address, uint64_t count) {
  uint64_t own = words(NUMBERS)[TAGSHARDS_ME];
  const uint8_t *name = lent[NAMES].at + own * words(NUMBERS)[TAGSHARDS_WIDTH];
  return words(NAME_LENS)[own] == count && memcmp(name, address, count) == 0;
}

static uint64_t expected_of_message(void) {
  bool peer;
  uint64_t number = take_number(), length, last = count_of_sender(0, &peer);
  const uint8_t *to = take_string(&length);
  if (length >= MOST) good = false;
  take_body();
  if (!good || left > 0) return TAGSHARDS_INVALID;
  if (!is_own(to, length)) return TAGSHARDS_ELSEWHERE;
  return number <= last ? TAGSHARDS_AGAIN : number - 1 != last ? TAGSHARDS_FUTURE : TAGSHARDS_TAKEN;
}

static uint64_t expected_of_ack(void) {
  bool peer;
  uint64_t number = take_number(), acknowledged = count_of_sender(1, &peer);
  if (!good || left > 0) return TAGSHARDS_INVALID;
  return peer && number > acknowledged ? TAGSHARDS_ARRIVED : TAGSHARDS_STALE;
}

uint64_t expected_answer(void) {
  at = lent[DATAGRAM].at;
  left = lent[DATAGRAM].count;
  good = true;
  if (words(NUMBERS)[TAGSHARDS_LENGTH] != 0) return TAGSHARDS_FULL;
  uint8_t kind = take_byte();
  if (!good || kind > 1) return TAGSHARDS_INVALID;
  return kind == 0 ? expected_of_message() : expected_of_ack();
}
