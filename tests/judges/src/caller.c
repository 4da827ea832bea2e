// The x86-64 program around the archives of `crates/judged`, `crates/judged_messages` and `crates/boundary`.
// They hold x86-64 code only, and a Rust test may be built for another processor, so the test does not link
// them: it starts this program, under an emulator where one is needed, and asks it over its standard input and
// output. Everything that a proved function is lent lies in one arena here. The words are 64 bits, the lowest
// byte first:
//
//   at the start it says               the address of the arena
//   1 COUNT (FUNCTION ARGUMENT*48)*    calls the functions in turn, and answers what each returned
//   2 AT LENGTH                        answers so many bytes of the arena
//   3 AT LENGTH BYTE*                  writes bytes into the arena, and answers nothing
//   4 COUNT (AT LENGTH)*               keeps these parts of the arena in mind, and answers nothing
//   5 BYTE*                            writes bytes into these parts, one after the other, and answers nothing
//   6                                  answers the bytes of these parts
//
// It ends when its input does; with status 2 for a question that has no sense. It includes no header, so
// that no C library for x86-64 has to be installed.
typedef unsigned long word;

long read(int, void *, word);
long write(int, const void *, word);
void _exit(int);

#define ARGUMENTS 48
#define MOST_CALLS 4096
#define ARENA (128UL << 20)

// Every function of the list is declared alike. By the calling convention each argument that is a number, a
// bool or a pointer takes one word, and the caller clears away what the function does not look at.
#define TWELVE word, word, word, word, word, word, word, word, word, word, word, word
typedef word function(TWELVE, TWELVE, TWELVE, TWELVE);
#define FUNCTION(name) extern function name;
#include "functions.inc"
#undef FUNCTION
#define FUNCTION(name) name,
static function *const functions[] = {
#include "functions.inc"
};
#define FUNCTIONS (sizeof functions / sizeof *functions)

static unsigned char arena[ARENA] __attribute__((aligned(64)));
static unsigned char buffer[65536], answered[65536];
static word filled, taken, kept;

// Answers are kept and go out together, before the program waits for more input or when there is no room for more.
static void give_kept(void) {
  const unsigned char *next = answered;
  while (kept != 0) {
    long gone = write(1, next, kept);
    if (gone <= 0) _exit(1);
    next += gone;
    kept -= (word)gone;
  }
}

// The next bytes of the input. Where it ends, so does the program.
static void take(unsigned char *to, word length) {
  while (length != 0) {
    if (taken == filled) {
      give_kept();
      long got = read(0, buffer, sizeof buffer);
      if (got <= 0) _exit(0);
      filled = (word)got;
      taken = 0;
    }
    word part = filled - taken < length ? filled - taken : length;
    __builtin_memcpy(to, buffer + taken, part);
    taken += part;
    to += part;
    length -= part;
  }
}

static word take_word(void) {
  word w;
  take((unsigned char *)&w, sizeof w);
  return w;
}

static void give(const void *from, word length) {
  const unsigned char *next = from;
  while (length != 0) {
    if (kept == sizeof answered) give_kept();
    word part = sizeof answered - kept < length ? sizeof answered - kept : length;
    __builtin_memcpy(answered + kept, next, part);
    kept += part;
    next += part;
    length -= part;
  }
}

static word called(const word *a) {
  return functions[a[0]](a[1], a[2], a[3], a[4], a[5], a[6], a[7], a[8], a[9], a[10], a[11], a[12],
                         a[13], a[14], a[15], a[16], a[17], a[18], a[19], a[20], a[21], a[22], a[23], a[24],
                         a[25], a[26], a[27], a[28], a[29], a[30], a[31], a[32], a[33], a[34], a[35], a[36],
                         a[37], a[38], a[39], a[40], a[41], a[42], a[43], a[44], a[45], a[46], a[47], a[48]);
}

static void calls(void) {
  static word answers[MOST_CALLS];
  word count = take_word();
  if (MOST_CALLS < count) _exit(2);
  for (word i = 0; i < count; i++) {
    word asked[1 + ARGUMENTS];
    take((unsigned char *)asked, sizeof asked);
    if (FUNCTIONS <= asked[0]) _exit(2);
    answers[i] = called(asked);
  }
  give(answers, count * sizeof *answers);
}

#define MOST_PARTS 64
#define MOST_IN_PARTS 8192
static word parts, ats[MOST_PARTS], lengths[MOST_PARTS], in_parts;
static unsigned char bytes[MOST_IN_PARTS];

static void keep_parts(void) {
  parts = take_word();
  if (MOST_PARTS < parts) _exit(2);
  in_parts = 0;
  for (word i = 0; i < parts; i++) {
    ats[i] = take_word();
    lengths[i] = take_word();
    if (ARENA < ats[i] || ARENA - ats[i] < lengths[i] || MOST_IN_PARTS - in_parts < lengths[i]) _exit(2);
    in_parts += lengths[i];
  }
}

// A loop in its place and no call: under an emulator a return takes longer than a short copy.
static inline __attribute__((always_inline)) void copy(unsigned char *to, const unsigned char *from, word length) {
  word i = 0;
  for (; i + 8 <= length; i += 8) {
    word w;
    __builtin_memcpy(&w, from + i, 8);
    __builtin_memcpy(to + i, &w, 8);
    __asm__ volatile("" ::: "memory");
  }
  for (; i < length; i++) {
    to[i] = from[i];
    __asm__ volatile("" ::: "memory");
  }
}

static void write_parts(void) {
  take(bytes, in_parts);
  unsigned char *next = bytes;
  for (word i = 0; i < parts; i++) {
    copy(arena + ats[i], next, lengths[i]);
    next += lengths[i];
  }
}

static void read_parts(void) {
  unsigned char *next = bytes;
  for (word i = 0; i < parts; i++) {
    copy(next, arena + ats[i], lengths[i]);
    next += lengths[i];
  }
  give(bytes, in_parts);
}

int main(void) {
  word start = (word)arena;
  give(&start, sizeof start);
  for (;;) {
    word kind = take_word();
    if (kind == 1 || kind == 4 || kind == 5 || kind == 6) {
      if (kind == 1) calls();
      if (kind == 4) keep_parts();
      if (kind == 5) write_parts();
      if (kind == 6) read_parts();
      continue;
    }
    word at = take_word(), length = take_word();
    if (ARENA < at || ARENA - at < length) _exit(2);
    if (kind == 2)
      give(arena + at, length);
    else if (kind == 3)
      take(arena + at, length);
    else
      _exit(2);
  }
}
