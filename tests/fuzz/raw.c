/* The fuzzer's target for any memory: slices of any lengths that hold what the script says, mostly not a host. Each
   step must end, keep to its slices, and leave what it says it leaves; steps.h looks at that, and the fuzzer stops a
   step that does not end. The memory is small, so that the script reaches all of it. */
#include <string.h>

#include "arrivals.h"
#include "script.h"

#define MOST_STEPS 48
#define MOST_BOUNDS 6
#define MOST_ENTRIES 4
#define MOST_PEERS 6
#define MOST_PLACES 4
#define WIDTH 8
#define SIZE 256
#define VALUE 1023
#define HOSTS 3

static const size_t most[SLICES] = {
    [LOWS] = MOST_BOUNDS,
    [OWNERS] = MOST_BOUNDS,
    [KEYS] = MOST_ENTRIES,
    [SLOTS] = MOST_ENTRIES,
    [LENS] = MOST_ENTRIES,
    [VALUES] = MOST_ENTRIES * VALUE,
    [NAME_LENS] = MOST_PEERS,
    [NAMES] = MOST_PEERS * WIDTH,
    [COUNTS] = MOST_PEERS * EACH,
    [PLACES] = MOST_PLACES * EACH,
    [MAIL] = MOST_PLACES * SIZE,
    [ROOM] = 2 * SIZE,
    [NUMBERS] = TAGSHARDS_WORDS,
    [FROM] = WIDTH,
    [DATAGRAM] = 4 * SIZE,
    [ACK] = TAGSHARDS_ACK,
    [OUT] = MOST_PLACES,
    [ATS] = HOSTS,
    [ADDRESS_LENS] = HOSTS,
    [BYTES] = HOSTS * WIDTH,
    [ME] = WIDTH,
};

int LLVMFuzzerInitialize(int *, char ***);
int LLVMFuzzerTestOneInput(const uint8_t *, size_t);

int LLVMFuzzerInitialize(int *count, char ***arguments) {
  (void)count, (void)arguments;
  notice_traps();
  map_slices(most);
  return 0;
}

/* Memory that looks like a host's: rising bounds and keys, hosts and clients, and numbers that go with them. */
static void look_like_a_host(void) {
  const uint64_t numbers[TAGSHARDS_WORDS] = {0, HOSTS, 5, WIDTH, SIZE, MOST_BOUNDS / 2, MOST_ENTRIES / 2,
                                             0, 0,     1, 0,     0};
  memcpy(lent[NUMBERS].at, numbers, sizeof numbers);
  for (size_t i = 0; i < MOST_BOUNDS; i++) words(LOWS)[i] = 4 * i, words(OWNERS)[i] = i % HOSTS;
  for (size_t i = 0; i < MOST_ENTRIES; i++) words(KEYS)[i] = 2 * i, words(SLOTS)[i] = i, words(LENS)[i] = 9;
  for (size_t i = 0; i < MOST_PEERS; i++) {
    words(NAME_LENS)[i] = addresses[i].count;
    memcpy(lent[NAMES].at + i * WIDTH, addresses[i].bytes, addresses[i].count);
  }
  memcpy(lent[ME].at, addresses[0].bytes, addresses[0].count);
}

/* Puts a slice at its pages' other end, with another length where the script says so. What stood there stays there.
 */
static void lend_otherwise(void) {
  enum slice slice = next_below(SLICES);
  uint8_t how = next_byte();
  lend(slice, how & 1 ? next_byte() % (most[slice] + 1) : most[slice], how & 2);
  remember(slice);
}

/* A word or a byte becomes any. */
static void change(void) {
  enum slice slice = next_below(SLICES);
  uint64_t number = next_number();
  size_t at = next_byte() | (size_t)next_byte() << 8, wide = element(slice), bytes = lent[slice].count * wide;
  if (bytes == 0) return;
  memcpy(lent[slice].at + at * wide % bytes, &number, wide);
  remember(slice);
}

/* A drawn datagram is in the room, or in a place as if it waited there, whatever that breaks. */
static void put_in(bool room) {
  arrival();
  size_t count = lent[DATAGRAM].count, place = next_below(MOST_PLACES);
  enum slice slice = room ? ROOM : MAIL;
  size_t at = room ? 0 : place * SIZE;
  if (lent[slice].count < at + count || lent[NUMBERS].count < TAGSHARDS_WORDS) return;
  memcpy(lent[slice].at + at, lent[DATAGRAM].at, count);
  if (room) {
    words(NUMBERS)[TAGSHARDS_LENGTH] = count;
    words(NUMBERS)[TAGSHARDS_SENDER] = next_number();
  } else if (lent[PLACES].count >= EACH * (place + 1)) {
    words(PLACES)[EACH * place] = next_number();
    words(PLACES)[EACH * place + 1] = next_number();
    words(PLACES)[EACH * place + 2] = count;
  }
  remember(slice);
  remember(NUMBERS);
  remember(PLACES);
}

static void begin(void) {
  uint8_t filling = next_byte();
  for (int i = 0; i < SLICES; i++) {
    lend(i, most[i], filling & 2);
    fill(i, filling & 1 ? filling : 0);
  }
  if (!(filling & 4)) look_like_a_host();
  lend(ME, addresses[0].count, false);
  for (int i = 0; i < SLICES; i++) remember(i);
  for (size_t many = filling >> 4; many > 0; many--) lend_otherwise();
}

static void step(uint8_t what) {
  if (what < 4 || what == 8) arrival();
  if (what < 4) receive();
  if (what >= 4 && what < 7) process();
  if (what == 7) retransmit();
  if (what == 8 || what == 9) turn(what == 8);
  if (what == 10) audit();
  if (what == 11 || what == 12) change();
  if (what == 13) lend_otherwise();
  if (what == 14) put_in(next_byte() & 1);
  if (what == 15) start(next_number(), next_number(), next_number());
}

int LLVMFuzzerTestOneInput(const uint8_t *data, size_t count) {
  script(data, count);
  begin();
  for (int i = 0; i < MOST_STEPS && !script_over(); i++) step(next_byte() % 16);
  return 0;
}
