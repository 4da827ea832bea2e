// The x86-64 program that tests/bench counts: it calls a proved function or the plain Rust beside it, so many times.
//
//   caller check                 compares the answers of the two sides; status 1 and a line for the first difference
//   caller OPERATION SIDE TIMES  prints where the program and this file's code stand, then calls; SIDE is 0 (proved) or 1
//
// Everything here stands in a section of its own, so that its instructions can be told from those of the functions. It
// includes no header, so that no C library for x86-64 has to be installed.
typedef unsigned long word;
typedef unsigned char byte;

long write(int, const void *, word);
void _exit(int);

#define HERE __attribute__((section("caller"), noinline))
#define SIDES(name, ...) \
  extern word tagshards_judged_##name(__VA_ARGS__); \
  extern word plain_##name(__VA_ARGS__); \
  static word (*const name[2])(__VA_ARGS__) = {tagshards_judged_##name, plain_##name};

// A slice is an address and a length. A bool is a word, as the calling convention passes it.
SIDES(parse, const byte *, word, word which)
SIDES(get, word n, const byte *to, word, word key, byte *room, word)
SIDES(set, word n, const byte *to, word, word key, word some, const byte *value, word, byte *room, word)
SIDES(delegate, word n, const byte *to, word, word lo_end, word lo, word hi_end, word hi, const word *keys, word,
      const word *ats, word, const word *lens, word, word m, const byte *bytes, word, byte *room, word)

// 2,002 instructions, to see that the counter counts each.
__asm__(".text\nknown:\nmovl $1000, %ecx\n1: decl %ecx\njnz 1b\nret\n");
extern void known(void);

extern byte __executable_start[], _end[], __start_caller[], __stop_caller[];

#define ENTRIES 61
#define VALUE 1023
#define SET_VALUE 1000
#define FIRST 57UL  // where the Delegate's first entry stands
#define LENGTH (FIRST + ENTRIES * (VALUE + 16UL))
#define LIMIT 0x100000UL
#define ROOM 70000UL
#define WORDS 12

static const byte to[13] = "10.0.0.1:7000";
static byte values[ENTRIES * VALUE];
static word keys[ENTRIES], ats[ENTRIES], lens[ENTRIES];
static byte rooms[2][ROOM];
static byte datagram[ROOM];
static byte big[2 * LIMIT];

HERE static void prepare(void) {
  for (word i = 0; i < sizeof values; i++) values[i] = (byte)(i * 7 + 3);
  for (word i = 0; i < ENTRIES; i++) {
    keys[i] = 1000 + 7 * i;
    ats[i] = VALUE * i;
    lens[i] = VALUE;
  }
}

enum { GET, SET, DELEGATE, KINDS };

// Writes a message of that kind into so much of a side's room.
HERE static word put(word kind, word side, word room) {
  byte *d = rooms[side];
  if (kind == GET) return get[side](42, to, sizeof to, 7, d, room);
  if (kind == SET) return set[side](42, to, sizeof to, 7, 1, values, SET_VALUE, d, room);
  return delegate[side](42, to, sizeof to, 0, 1000, 0, 2000, keys, ENTRIES, ats, ENTRIES, lens, ENTRIES, ENTRIES,
                        values, sizeof values, d, room);
}

HERE static void say(const char *text) {
  word length = 0;
  while (text[length] != 0) length++;
  write(1, text, length);
}

HERE static void say_number(word n) {
  char digits[22];
  word at = sizeof digits;
  digits[--at] = 0;
  digits[--at] = '\n';
  do digits[--at] = (char)('0' + n % 10);
  while ((n /= 10) != 0);
  say(digits + at);
}

HERE static void must(int good, const char *what) {
  if (good) return;
  say(what);
  _exit(1);
}

HERE static void same_parse(const byte *bytes, word length) {
  for (word which = 0; which < WORDS; which++)
    must(parse[0](bytes, length, which) == parse[1](bytes, length, which), "a datagram is read differently\n");
}

HERE static void same_put(word kind, word room) {
  for (word i = 0; i < ROOM; i++) rooms[0][i] = rooms[1][i] = 0xa5;
  must(put(kind, 0, room) == put(kind, 1, room), "a writer answers differently\n");
  for (word i = 0; i < ROOM; i++) must(rooms[0][i] == rooms[1][i], "different bytes are written\n");
}

// The datagram whole, cut short, too long, and with one byte changed: the front, and the heads of some entries.
HERE static void check_parse(word kind, word length) {
  static const byte others[] = {0, 1, 2, 3, 4, 5, 6, 255};
  must(parse[0](datagram, length, 0) == (kind == DELEGATE ? 5 : kind), "a datagram is not read\n");
  same_parse(datagram, length);
  word step = kind == DELEGATE ? 97 : 1;
  for (word cut = 0; cut <= length + 2; cut += cut < 200 ? 1 : step) same_parse(datagram, cut);
  for (word i = 0; i < length; i++) {
    if (FIRST <= i && 24 <= (i - FIRST) % (VALUE + 16)) continue;
    byte kept = datagram[i];
    for (word j = 0; j < sizeof others; j++) {
      datagram[i] = others[j];
      same_parse(datagram, length);
    }
    datagram[i] = kept;
  }
}

HERE static void put_number(byte *at, word n) {
  for (word i = 0; i < 8; i++) at[i] = (byte)(n >> 8 * i);
}

// Keys that do not rise, and addresses and lists around their limits.
HERE static void check_limits(void) {
  byte *key = datagram + FIRST + 30 * (VALUE + 16);
  for (word k = keys[29] - 1; k <= keys[31] + 1; k++) {
    put_number(key, k);
    must((parse[0](datagram, LENGTH, 0) == 5) == (keys[29] < k && k < keys[31]), "keys are read wrongly\n");
    same_parse(datagram, LENGTH);
  }
  for (word length = LIMIT - 2; length <= LIMIT + 2; length++) {
    put_number(big + 9, length);
    must((parse[0](big, 26 + length, 0) == 0) == (length < LIMIT), "a long address is read wrongly\n");
    same_parse(big, 26 + length);
  }
  put_number(big + 9, 0);
  big[17] = 5;
  put_number(big + 20, 1);
  for (word length = LIMIT - 2; length <= LIMIT + 2; length++) {
    put_number(big + 36, length - 24);
    must((parse[0](big, 20 + length, 0) == 5) == (length <= LIMIT), "a long list is read wrongly\n");
    same_parse(big, 20 + length);
  }
}

// Messages that may not be written.
HERE static void check_refusals(void) {
  for (word side = 0; side < 2; side++) {
    word refused = ~1UL;
    must(get[side](42, big, LIMIT, 7, rooms[side], ROOM) == refused, "a long address is written\n");
    keys[30] = keys[29];
    must(put(DELEGATE, side, ROOM) == refused, "keys that do not rise are written\n");
    keys[30] = 1000 + 7 * 30;
    lens[60] = VALUE + 1;
    must(put(DELEGATE, side, ROOM) == refused, "a value outside of the bytes is written\n");
    lens[60] = VALUE;
    for (word i = 0; i < ENTRIES; i++) ats[i] = 0, lens[i] = sizeof values;
    must(put(DELEGATE, side, ROOM) == refused, "a list that is too long is written\n");
    prepare();
  }
}

HERE static void check(void) {
  for (word kind = 0; kind < KINDS; kind++) {
    word length = put(kind, 0, ROOM);
    must(length < ROOM, "a message is not written\n");
    for (word i = 0; i < ROOM; i++) datagram[i] = i < length ? rooms[0][i] : 0;
    check_parse(kind, length);
    word least = kind == DELEGATE ? length - 3 : 0;
    for (word room = least; room <= length + 2; room += room < 60 || length < room + 4 ? 1 : 37) same_put(kind, room);
    for (word room = 0; room < 100; room++) same_put(kind, room);
    same_put(kind, ROOM);
  }
  check_limits();
  check_refusals();
}

HERE static word number(const char *text) {
  word n = 0;
  while (*text != 0) n = 10 * n + (word)(*text++ - '0');
  return n;
}

// The operations: 0 is `known`, then for each kind reading and writing.
HERE static void repeat(word operation, word side, word times) {
  if (operation == 0) {
    while (times-- != 0) known();
    return;
  }
  word kind = (operation - 1) / 2;
  word length = put(kind, side, ROOM);
  if (operation % 2 == 0)
    while (times-- != 0) put(kind, side, ROOM);
  else
    while (times-- != 0) parse[side](rooms[side], length, 0);
}

HERE int main(int count, char **words) {
  prepare();
  if (count == 2) {
    check();
    return 0;
  }
  if (count != 4) return 2;
  say_number((word)__executable_start);
  say_number((word)_end);
  say_number((word)__start_caller);
  say_number((word)__stop_caller);
  repeat(number(words[1]), number(words[2]), number(words[3]));
  return 0;
}
