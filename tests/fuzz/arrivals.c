/* A datagram drawn, its front made to fit the host where the script says so. */
#include "arrivals.h"

#include <string.h>

#include "script.h"

const struct address addresses[ADDRESSES] = {{"a:1", 3}, {"b:2", 3}, {"c:3", 3},     {"k:4", 3},
                                             {"k:5", 3}, {"", 0},    {"far:6789", 8}};

static uint8_t draft[LONGEST];
static size_t written;

static void put(uint8_t byte) {
  if (written < LONGEST) draft[written++] = byte;
}

static void put_number(uint64_t number) {
  for (int i = 0; i < 8; i++) put((uint8_t)(number >> (8 * i)));
}

static void put_bytes(const uint8_t *bytes, size_t count) {
  for (size_t i = 0; i < count; i++) put(bytes[i]);
}

static void put_address(const struct address *address) {
  put_number(address->count);
  put_bytes((const uint8_t *)address->bytes, address->count);
}

static void put_filled(size_t count) {
  uint8_t byte = next_byte();
  put_number(count);
  for (size_t i = 0; i < count; i++) put(byte);
}

static void put_bound(void) {
  bool key = next_byte() & 1;
  put(key);
  if (key) put_number(next_number());
}

static void put_value(void) {
  bool value = next_byte() & 1;
  put(value);
  if (value) put_filled(next_length());
}

static void put_raw(void) {
  for (size_t count = next_byte(); count > 0; count--) put(next_byte());
}

/* Keys at one distance, values of one length: so that few bytes of a script make a long list. */
static void put_list(void) {
  size_t count = next_below(64);
  uint64_t key = next_number(), distance = next_byte();
  size_t length = next_length();
  put_number(count);
  for (size_t i = 0; i < count; i++) {
    put_number(key + i * distance);
    put_filled(length);
  }
}

/* The bytes of the six bodies, in the order of their kinds. */
static void put_body(uint8_t kind) {
  put(kind);
  if (kind < 4) put_number(next_number());
  if (kind == 1 || kind == 2) put_value();
  if (kind == 3) put_address(&addresses[next_below(ADDRESSES)]);
  if (kind < 4) return;
  put_bound();
  put_bound();
  if (kind == 4)
    put_address(&addresses[next_below(ADDRESSES)]);
  else
    put_list();
}

int64_t peer_of(const uint8_t *address, size_t count) {
  if (lent[NUMBERS].count < TAGSHARDS_WORDS) return -1;
  uint64_t peers = words(NUMBERS)[TAGSHARDS_PEERS], width = words(NUMBERS)[TAGSHARDS_WIDTH];
  for (uint64_t i = 0; i < peers && i < lent[NAME_LENS].count && (i + 1) * EACH <= lent[COUNTS].count; i++) {
    if (width > lent[NAMES].count || (i + 1) * width > lent[NAMES].count || count > width) return -1;
    if (words(NAME_LENS)[i] == count && memcmp(lent[NAMES].at + i * width, address, count) == 0) return (int64_t)i;
  }
  return -1;
}

/* The number that was received last from the sender (0), or that it has acknowledged (1). */
static uint64_t last(const struct address *from, size_t which) {
  int64_t peer = peer_of((const uint8_t *)from->bytes, from->count);
  return peer < 0 ? 0 : words(COUNTS)[EACH * (size_t)peer + which];
}

/* Mostly the next number and the host's own address, as the lowest and the next two bits of `how` say. */
static void put_front(const struct address *from, uint8_t how) {
  static const struct address other = {"b:9", 3};
  uint64_t before = last(from, 0);
  put(0);
  put_number((how & 3) == 3 ? next_number() : (how & 3) == 2 ? before : before + 1);
  struct address me = {(const char *)lent[ME].at, lent[ME].count};
  put_address((how >> 2 & 3) == 3 ? &other : &me);
}

static void put_ack(const struct address *from) {
  uint8_t how = next_byte();
  put(1);
  put_number(how & 1 ? next_number() : last(from, 1) + 1 + (how >> 1 & 3));
}

/* What the host sent, with a front that fits: the body of the message in a place, if there is such a place. */
static void put_sent(const struct address *from, uint8_t how) {
  put_front(from, how);
  size_t place = next_byte();
  if (lent[NUMBERS].count < TAGSHARDS_WORDS || (place + 1) * EACH > lent[PLACES].count) return;
  uint64_t size = words(NUMBERS)[TAGSHARDS_SIZE], length = words(PLACES)[EACH * place + 2];
  if (size > LONGEST || length > size || (place + 1) * size > lent[MAIL].count || length < 17) return;
  const uint8_t *sent = lent[MAIL].at + place * size;
  if (sent[9] + 17u < length) put_bytes(sent + 17 + sent[9], length - 17 - sent[9]);
}

/* Bytes cut off the end, one put behind, or one bit changed. */
static void damage(void) {
  uint8_t how = next_byte();
  size_t at = next_byte() | (size_t)next_byte() << 8;
  if (how % 4 == 0 && written > 0)
    written -= 1 + at % written;
  else if (how % 4 == 1)
    put((uint8_t)at);
  else if (written > 0)
    draft[at % written] ^= (uint8_t)(1u << (how >> 2 & 7));
}

#define RAW_BYTES 6
#define RAW_BODY 7
#define AN_ACK 8
#define SENT 9
#define KINDS 10

static void draw(const struct address *from) {
  uint8_t kind = (uint8_t)next_below(KINDS), how = next_byte();
  written = 0;
  if (kind == RAW_BYTES)
    put_raw();
  else if (kind == AN_ACK)
    put_ack(from);
  else if (kind == SENT)
    put_sent(from, how);
  else
    put_front(from, how);
  if (kind < RAW_BYTES) put_body(kind);
  if (kind == RAW_BODY) put_raw();
  if (how >> 4 == 15) damage();
}

void arrival(void) {
  uint8_t who = next_byte();
  const struct address *from = &addresses[who % ADDRESSES];
  draw(from);
  if (written > most_of(DATAGRAM)) written = most_of(DATAGRAM);
  lend(FROM, from->count, who & 0x80);
  memcpy(lent[FROM].at, from->bytes, from->count);
  lend(DATAGRAM, written, !(who & 0x40));
  memcpy(lent[DATAGRAM].at, draft, written);
  remember(FROM);
  remember(DATAGRAM);
}
