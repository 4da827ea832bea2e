// The x86-64 program whose steps tests/bench counts: one host of crate `boundary`, lent memory, and what arrives there.
//
//   steps fill                 starts the host, fills its table through its own steps, and writes its memory out
//   steps OPERATION COUNT      reads that memory, prints where the program and this file's code stand, and takes the
//                              first COUNT of the steps receive, process, receive the Ack, receive, process, ..
//
// Two runs that differ by one step differ by its instructions. Everything here stands in a section of its own, so that
// its instructions can be told from those of the functions. It includes no header of a C library.
typedef unsigned long word;
typedef unsigned char byte;

long read(int, void *, word);
long write(int, const void *, word);
void _exit(int);

#define HERE __attribute__((section("caller"), noinline))

// A slice is an address and a length.
#define SLICE(type) type *, word
extern word tagshards_start(
    SLICE(word), SLICE(word), SLICE(word), SLICE(word), SLICE(word), SLICE(byte), SLICE(word), SLICE(byte),
    SLICE(word), SLICE(word), SLICE(byte), SLICE(byte), SLICE(word), word width, word size, SLICE(word), SLICE(word),
    SLICE(byte), word n, SLICE(byte));
extern word tagshards_receive(
    SLICE(word), SLICE(word), SLICE(word), SLICE(word), SLICE(word), SLICE(byte), SLICE(word), SLICE(word),
    SLICE(byte), SLICE(word), SLICE(byte), SLICE(byte), SLICE(byte));
extern word tagshards_process(
    SLICE(word), SLICE(word), SLICE(word), SLICE(word), SLICE(word), SLICE(byte), SLICE(word), SLICE(byte),
    SLICE(word), SLICE(word), SLICE(byte), SLICE(byte), SLICE(word));

extern byte __executable_start[], _end[], __start_caller[], __stop_caller[];

#define BOUNDS 64
#define ENTRIES 4096
#define FILLED 3000
#define PEERS 64
#define HOSTS 3
#define PLACES 256
#define TAKEN 60
#define VALUE_MAX 1023
#define VALUE 1000
#define WIDTH 16
#define SIZE 65536
#define ADDRESS 13UL

// What is kept between the two runs: the host's memory, and the numbers of the last client's messages.
static struct {
  word lows[BOUNDS], owners[BOUNDS], keys[ENTRIES], slots[ENTRIES], lens[ENTRIES];
  byte values[ENTRIES * VALUE_MAX];
  word name_lens[PEERS];
  byte names[PEERS * WIDTH];
  word counts[PEERS * 3], places[PLACES * 3];
  byte mail[PLACES * SIZE];
  byte room[SIZE];
  word numbers[12];
  word sent[PEERS], answered[PEERS];
} host;

static byte from[ADDRESS], own[ADDRESS], datagram[SIZE], ack[9];
static byte addresses[HOSTS * ADDRESS];
static word ats[HOSTS], lens[HOSTS];

HERE static void say(const char *text) {
  word length = 0;
  while (text[length] != 0) length++;
  write(1, text, length);
}

HERE static void say_number(word n) {
  char digits[22];
  word at = sizeof digits;
  digits[--at] = 0;
  digits[--at] = '\n';
  do digits[--at] = (char)('0' + n % 10);
  while ((n /= 10) != 0);
  say(digits + at);
}

HERE static void must(word good) {
  if (good) return;
  say("a step answers something else\n");
  _exit(1);
}

// The address of a peer: the hosts are the first.
HERE static void name(byte *to, word peer) {
  static const char form[] = "10.0.0.00:700";
  for (word i = 0; i < ADDRESS; i++) to[i] = (byte)form[i];
  to[7] = (byte)('0' + peer / 10);
  to[8] = (byte)('0' + peer % 10);
}

// Keys in no order.
HERE static word key(word i) { return (i * 0x9e3779b97f4a7c15UL) ^ 0x5851f42d4c957f2dUL; }

HERE static byte *put(byte *at, word n) {
  for (word i = 0; i < 8; i++) *at++ = (byte)(n >> 8 * i);
  return at;
}

// Writes the client's next message, a Get or a Set of that key. Answers its length.
HERE static word message(word peer, word set, word k) {
  byte *at = datagram;
  name(from, peer);
  *at++ = 0;
  at = put(at, ++host.sent[peer]);
  at = put(at, ADDRESS);
  for (word i = 0; i < ADDRESS; i++) *at++ = own[i];
  *at++ = (byte)set;
  at = put(at, k);
  if (set) {
    *at++ = 1;
    at = put(at, VALUE);
    for (word i = 0; i < VALUE; i++) *at++ = (byte)(k + i);
  }
  return (word)(at - datagram);
}

// Writes the client's Ack of the answer that it got last. Answers its length.
HERE static word acknowledgement(word peer) {
  name(from, peer);
  datagram[0] = 1;
  return (word)(put(datagram + 1, ++host.answered[peer]) - datagram);
}

HERE static void receive(word length, word answer) {
  must(tagshards_receive(host.lows, BOUNDS, host.owners, BOUNDS, host.keys, ENTRIES, host.slots, ENTRIES,
                         host.name_lens, PEERS, host.names, sizeof host.names, host.counts, PEERS * 3,
                         host.places, PLACES * 3, host.room, SIZE, host.numbers, 12, from, ADDRESS, datagram, length,
                         ack, sizeof ack) == answer);
}

HERE static void process(void) {
  must(tagshards_process(host.lows, BOUNDS, host.owners, BOUNDS, host.keys, ENTRIES, host.slots, ENTRIES, host.lens,
                         ENTRIES, host.values, sizeof host.values, host.name_lens, PEERS, host.names,
                         sizeof host.names, host.counts, PEERS * 3, host.places, PLACES * 3, host.mail,
                         sizeof host.mail, host.room, SIZE, host.numbers, 12) == 22);
}

HERE static void start(void) {
  for (word i = 0; i < HOSTS; i++) {
    name(addresses + i * ADDRESS, i);
    ats[i] = i * ADDRESS;
    lens[i] = ADDRESS;
  }
  must(tagshards_start(host.lows, BOUNDS, host.owners, BOUNDS, host.keys, ENTRIES, host.slots, ENTRIES, host.lens,
                       ENTRIES, host.values, sizeof host.values, host.name_lens, PEERS, host.names, sizeof host.names,
                       host.counts, PEERS * 3, host.places, PLACES * 3, host.mail, sizeof host.mail, host.room, SIZE,
                       host.numbers, 12, WIDTH, SIZE, ats, HOSTS, lens, HOSTS, addresses, sizeof addresses, HOSTS, own,
                       ADDRESS) == 0);
}

// The clients set the keys in turn, and the first of them leave an answer unacknowledged.
HERE static void fill(void) {
  start();
  for (word i = 0; i < FILLED; i++) {
    word peer = HOSTS + i % (PEERS - HOSTS);
    receive(message(peer, 1, key(i)), 13);
    process();
    receive(acknowledgement(peer), 17);
  }
  for (word i = 0; i < TAKEN; i++) {
    receive(message(HOSTS + i, 0, key(i)), 13);
    process();
  }
  must(host.numbers[2] == PEERS && host.numbers[6] == FILLED);
}

HERE static void all(long (*each)(int, void *, word), int file) {
  byte *at = (byte *)&host;
  for (word left = sizeof host; left != 0;) {
    long n = each(file, at, left);
    must(n > 0);
    at += n;
    left -= (word)n;
  }
}

HERE static long written(int file, void *at, word length) { return write(file, at, length); }

// The steps of the last client's Get or Set of a key that is there, and of its Ack, over and over.
HERE static void steps(word set, word count) {
  word last = PEERS - 1;
  for (word i = 0; i < count; i++) {
    if (i % 3 == 0) receive(message(last, set, key(FILLED / 2)), 13);
    if (i % 3 == 1) process();
    if (i % 3 == 2) receive(acknowledgement(last), 17);
  }
}

HERE int main(int count, char **words) {
  name(own, 0);
  if (count == 2) {
    fill();
    all(written, 1);
    return 0;
  }
  if (count != 3) return 2;
  all(read, 0);
  say_number((word)__executable_start);
  say_number((word)_end);
  say_number((word)__start_caller);
  say_number((word)__stop_caller);
  steps((word)(words[1][0] - '0'), (word)(words[2][0] - '0'));
  return 0;
}
