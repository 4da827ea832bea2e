/* A host in C: it is lent its memory, takes a Set and a Get, and the datagrams that it hands out are printed.

   It needs the archive that `rt lib` in crates/boundary writes (crates/boundary/out/libboundary.a), and an x86-64
   machine or an emulator of one:

     cc -I include examples/c/host.c crates/boundary/out/libboundary.a && ./a.out
*/
#include "tagshards.h"

/* Declared here, so that no header of a C library is needed to compile this for another machine. */
int printf(const char *, ...);

/* The limits. */
#define ENTRIES 10
#define BOUNDS 10
#define PEERS 4
#define WAITING 4
#define WIDTH 100
#define SIZE 65536

/* The memory of the host. */
static uint64_t lows[BOUNDS], owners[BOUNDS];
static uint64_t keys[ENTRIES], slots[ENTRIES], lens[ENTRIES];
static uint8_t values[ENTRIES * 1023];
static uint64_t name_lens[PEERS], counts[PEERS * 3];
static uint8_t names[PEERS * WIDTH];
static uint64_t places[WAITING * 3];
static uint8_t mail[WAITING * SIZE];
static uint8_t room[SIZE];
static uint64_t numbers[TAGSHARDS_WORDS];

/* What is lent for an answer. */
static uint8_t ack[TAGSHARDS_ACK];

/* A slice of an array: its first element, and how many there are. */
#define ALL(array) (array), sizeof(array) / sizeof *(array)

static uint64_t start(void) {
  static const uint8_t bytes[] = {'a', ':', '1', 'b', ':', '2'};
  static const uint64_t ats[] = {0, 3}, address_lens[] = {3, 3};
  static const uint8_t me[] = {'a', ':', '1'};
  return tagshards_start(ALL(lows), ALL(owners), ALL(keys), ALL(slots), ALL(lens), ALL(values), ALL(name_lens),
                         ALL(names), ALL(counts), ALL(places), ALL(mail), ALL(room), ALL(numbers), WIDTH, SIZE,
                         ALL(ats), ALL(address_lens), ALL(bytes), 2, ALL(me));
}

static uint64_t receive(const uint8_t *from, size_t from_count, const uint8_t *datagram, size_t count) {
  return tagshards_receive(ALL(lows), ALL(owners), ALL(keys), ALL(slots), ALL(name_lens), ALL(names), ALL(counts),
                           ALL(places), ALL(room), ALL(numbers), from, from_count, datagram, count, ALL(ack));
}

static uint64_t process(void) {
  return tagshards_process(ALL(lows), ALL(owners), ALL(keys), ALL(slots), ALL(lens), ALL(values), ALL(name_lens),
                           ALL(names), ALL(counts), ALL(places), ALL(mail), ALL(room), ALL(numbers));
}

/* ---- a datagram, written */

static uint8_t datagram[256];
static size_t written;

static void put(uint8_t byte) { datagram[written++] = byte; }

static void put_number(uint64_t number) {
  for (int i = 0; i < 8; i++) put((uint8_t)(number >> (8 * i)));
}

static void put_string(const char *string, size_t length) {
  put_number(length);
  for (size_t i = 0; i < length; i++) put((uint8_t)string[i]);
}

/* The front of a message to the host: its number, and its destination. */
static void put_front(uint64_t number) {
  written = 0;
  put(0);
  put_number(number);
  put_string("a:1", 3);
}

/* ---- what the host hands out, printed */

static void print(const uint8_t *to, size_t to_count, const uint8_t *bytes, size_t count) {
  printf("  to %.*s:", (int)to_count, (const char *)to);
  for (size_t i = 0; i < count; i++) printf(" %02x", bytes[i]);
  printf("\n");
}

/* The datagram in a place, and whom it is for. */
static void print_place(uint64_t place) {
  uint64_t peer = places[3 * place] - 1;
  print(names + peer * WIDTH, name_lens[peer], mail + place * SIZE, places[3 * place + 2]);
}

/* The client sends what was written; the host takes and processes it. */
static void step(const char *what) {
  static const uint8_t from[] = {'k', ':', '3'};
  uint64_t answer = receive(ALL(from), datagram, written);
  printf("%s is received: %d\n", what, (int)answer);
  if (answer == TAGSHARDS_TAKEN || answer == TAGSHARDS_AGAIN) print(ALL(from), ALL(ack));
  answer = process();
  printf("%s is processed: %d\n", what, (int)answer);
  if (answer == TAGSHARDS_REPLIED || answer == TAGSHARDS_REDIRECTED || answer == TAGSHARDS_HANDED)
    print_place(numbers[TAGSHARDS_PLACE]);
}

int main(void) {
  uint64_t answer = start();
  printf("the host is started: %d\n", (int)answer);
  if (answer != TAGSHARDS_STARTED) return 1;

  put_front(1);
  put(1); /* Set */
  put_number(5);
  put(1); /* to a value */
  put_string("Oslo", 4);
  step("Set 5 to Oslo");

  put_front(2);
  put(0); /* Get */
  put_number(5);
  step("Get 5");
  printf("records: %d\n", (int)numbers[TAGSHARDS_ENTRIES]);
  return 0;
}
