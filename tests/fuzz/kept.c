/* The fuzzer's target for hosts: a host starts in memory whose limits the script chooses, and takes the script's
   steps. After each the header's promises are looked at, and the memory must keep a host. Words and bytes of the
   memory are also changed at will: where the audit then says that it still keeps a host, that host goes on, so that
   counts near their limits are reached; where it keeps none, the change is taken back. */
#include <string.h>

#include "arrivals.h"
#include "promises.h"
#include "script.h"

#define MOST_STEPS 48
#define MOST_BOUNDS 8
#define MOST_ENTRIES 64
#define MOST_PEERS 8
#define MOST_PLACES 3
#define MOST_WIDTH 9
#define MOST_SIZE 65545
#define VALUE 1023
#define HOSTS 3

int LLVMFuzzerInitialize(int *, char ***);
int LLVMFuzzerTestOneInput(const uint8_t *, size_t);

int LLVMFuzzerInitialize(int *count, char ***arguments) {
  (void)count, (void)arguments;
  notice_traps();
  map_slices((const size_t[SLICES]){
      [LOWS] = MOST_BOUNDS,
      [OWNERS] = MOST_BOUNDS,
      [KEYS] = MOST_ENTRIES,
      [SLOTS] = MOST_ENTRIES,
      [LENS] = MOST_ENTRIES,
      [VALUES] = MOST_ENTRIES * VALUE,
      [NAME_LENS] = MOST_PEERS,
      [NAMES] = MOST_PEERS * MOST_WIDTH,
      [COUNTS] = MOST_PEERS * EACH,
      [PLACES] = MOST_PLACES * EACH,
      [MAIL] = MOST_PLACES * MOST_SIZE,
      [ROOM] = MOST_SIZE + MOST_WIDTH,
      [NUMBERS] = TAGSHARDS_WORDS,
      [FROM] = MOST_WIDTH,
      [DATAGRAM] = LONGEST,
      [ACK] = 2 * TAGSHARDS_ACK,
      [OUT] = 2 * MOST_PLACES,
      [ATS] = HOSTS,
      [ADDRESS_LENS] = HOSTS,
      [BYTES] = HOSTS * MOST_WIDTH,
      [ME] = MOST_WIDTH,
  });
  return 0;
}

static size_t width, size, hosts;

/* The elements of each slice that go with limits drawn from the script. */
static size_t counts[SLICES];

static void draw_limits(void) {
  static const size_t bounds_of[] = {1, 2, 3, MOST_BOUNDS}, entries_of[] = {3, 0, 1, MOST_ENTRIES};
  size_t bounds = bounds_of[next_below(4)], entries = entries_of[next_below(4)];
  size_t peers = hosts + next_below(MOST_PEERS - HOSTS), waiting = 1 + next_below(MOST_PLACES);
  counts[LOWS] = counts[OWNERS] = bounds;
  counts[KEYS] = counts[SLOTS] = counts[LENS] = entries;
  counts[VALUES] = entries * VALUE;
  counts[NAME_LENS] = peers;
  counts[NAMES] = peers * width;
  counts[COUNTS] = peers * EACH;
  counts[PLACES] = waiting * EACH;
  counts[MAIL] = waiting * size;
  counts[ROOM] = size + next_below(MOST_WIDTH);
  counts[NUMBERS] = TAGSHARDS_WORDS;
  counts[ACK] = TAGSHARDS_ACK + next_below(TAGSHARDS_ACK);
  counts[OUT] = waiting + next_below(MOST_PLACES);
}

/* Lends them all, each at one end of its pages as the bits of `sides` have it. */
static void lend_all(uint8_t sides) {
  for (int i = 0; i < SLICES; i++) {
    lend(i, counts[i], (sides * 0x9e3779b1u) >> (31 - i) & 1);
    fill(i, sides);
  }
}

/* The list of hosts, the first `hosts` addresses, and the own address. */
static void lend_list(size_t own) {
  lend(ATS, hosts, true);
  lend(ADDRESS_LENS, hosts, true);
  lend(BYTES, 3 * hosts, true);
  lend(ME, addresses[own].count, true);
  for (size_t i = 0; i < hosts; i++) {
    words(ATS)[i] = 3 * i;
    words(ADDRESS_LENS)[i] = addresses[i].count;
    memcpy(lent[BYTES].at + 3 * i, addresses[i].bytes, 3);
  }
  memcpy(lent[ME].at, addresses[own].bytes, addresses[own].count);
}

static void remember_all(void) {
  for (int i = 0; i < SLICES; i++) remember(i);
}

/* Starts once with one word of the list changed, with another n, width or size, or with another length of one of the
   host's slices. The answer may be any. */
static void start_otherwise(void) {
  uint8_t what = next_byte(), which = next_byte();
  uint64_t number = next_number();
  enum slice slice = which % HOST_SLICES;
  if (what % 6 < 2) words(what % 6 ? ATS : ADDRESS_LENS)[which % hosts] = number;
  if (what % 6 == 5) lend(slice, number % (most_of(slice) + 1), which & 0x80);
  remember_all();
  uint64_t answer =
      start(what % 6 == 2 ? number : width, what % 6 == 3 ? number : size, what % 6 == 4 ? number : hosts);
  if (answer == TAGSHARDS_STARTED) still_a_host("start", answer);
}

static void begin(void) {
  uint8_t sides = next_byte(), shape = next_byte();
  hosts = 1 + (shape & 3) % HOSTS;
  width = 3 + (shape >> 2 & 3) * 2;
  size = shape >> 4 & 1 ? MOST_SIZE : 65536;
  draw_limits();
  size_t own = (shape >> 5) % hosts;
  lend_all(sides);
  lend_list(own);
  if (sides & 0x80) {
    start_otherwise();
    lend_all(sides);
    lend_list(own);
  }
  remember_all();
  if (start(width, size, hosts) != TAGSHARDS_STARTED) fail("no host starts in memory that serves");
  still_a_host("start", TAGSHARDS_STARTED);
}

/* Exchanges a word or a byte that stands somewhere in a slice for a number, and answers where, or null. */
static uint8_t *exchange(enum slice slice, uint64_t *number) {
  size_t wide = element(slice), bytes = lent[slice].count * wide;
  size_t at = next_byte() | (size_t)next_byte() << 8;
  uint8_t *where = lent[slice].at + (bytes == 0 ? 0 : at * wide % bytes);
  uint64_t old = 0;
  if (bytes == 0) return NULL;
  memcpy(&old, where, wide);
  memcpy(where, number, wide);
  *number = old;
  remember(slice);
  return where;
}

/* Changes some words or bytes of the host's memory, and takes that back if it leaves no host. */
static void change(void) {
  struct {
    enum slice slice;
    uint64_t old;
    uint8_t *where;
  } changes[4];
  size_t many = 1 + (next_byte() >> 6);
  for (size_t i = 0; i < many; i++) {
    changes[i].slice = next_below(HOST_SLICES);
    changes[i].old = next_number();
    changes[i].where = exchange(changes[i].slice, &changes[i].old);
  }
  if (audit() == TAGSHARDS_KEPT) return;
  for (size_t i = many; i-- > 0;) {
    if (changes[i].where == NULL) continue;
    memcpy(changes[i].where, &changes[i].old, element(changes[i].slice));
    remember(changes[i].slice);
  }
}

/* All numbers of a peer as if so many messages had come and gone. */
static void change_counts(void) {
  uint64_t old[EACH];
  size_t peer = next_below(words(NUMBERS)[TAGSHARDS_PEERS]);
  uint64_t *counts = words(COUNTS) + EACH * peer;
  memcpy(old, counts, sizeof old);
  counts[0] = next_number();
  counts[1] = counts[2] = next_number();
  remember(COUNTS);
  if (audit() == TAGSHARDS_KEPT) return;
  memcpy(counts, old, sizeof old);
  remember(COUNTS);
}

/* A step with too few numbers, too little for an Ack or too little for places. steps.h says that it is refused. */
static void too_short(void) {
  static const enum slice slices[] = {NUMBERS, ACK, OUT};
  const size_t enough[] = {TAGSHARDS_WORDS, TAGSHARDS_ACK, lent[PLACES].count / EACH};
  size_t which = next_below(3);
  enum slice slice = slices[which];
  struct lent whole = lent[slice];
  lent[slice].count = enough[which] - 1;
  if (slice != OUT) receive();
  if (slice != ACK) retransmit();
  turn(true);
  if (slice == NUMBERS) process();
  if (slice == NUMBERS) audit();
  if (slice == NUMBERS) start(width, size, hosts);
  lent[slice] = whole;
}

static void step_receive(void) {
  arrival();
  struct before before = before_step();
  after_receive(&before, receive());
}

static void step_process(void) {
  struct before before = before_step();
  after_process(&before, process());
}

static void step_turn(bool arrived) {
  if (arrived) arrival();
  struct before before = before_step();
  after_turn(&before, arrived, turn(arrived));
}

/* Most bytes are a datagram, and most of those are processed at once. */
static void step(uint8_t what) {
  if (what < 8) step_receive();
  if (what < 6 || what == 8) step_process();
  if (what == 9) after_resend("retransmit", retransmit());
  if (what == 10 || what == 11) step_turn(what == 10);
  if (what == 12 || what == 13) change();
  if (what == 14) change_counts();
  if (what == 15) too_short();
}

int LLVMFuzzerTestOneInput(const uint8_t *data, size_t count) {
  script(data, count);
  begin();
  for (int i = 0; i < MOST_STEPS && !script_over(); i++) step(next_byte() % 16);
  return 0;
}
