/* A script's bytes, one after the other. */
#include "script.h"

static const uint8_t *left;
static size_t many;

void script(const uint8_t *bytes, size_t count) {
  left = bytes;
  many = count;
}

bool script_over(void) { return many == 0; }

uint8_t next_byte(void) {
  if (many == 0) return 0;
  many--;
  return *left++;
}

size_t next_below(size_t limit) { return next_byte() % limit; }

/* The last keys and numbers, the limit of transfers, the turns around one for sending again, the least size. */
static const uint64_t ends[] = {UINT64_MAX,
                                UINT64_MAX - 1,
                                0x8000000000000000,
                                0x7fffffffffffffff,
                                0x7ffffffffffffffe,
                                0x7ffffffffffffffd,
                                299999999,
                                299999998,
                                299999997,
                                300000000,
                                65536,
                                0x100000,
                                0x5555555555555556,
                                0xaaaaaaaaaaaaaaab,
                                1023,
                                1024};

#define PLAIN 200
#define RAW 248

uint64_t next_number(void) {
  uint8_t byte = next_byte();
  if (byte < PLAIN) return byte;
  if (byte < RAW) return ends[byte % (sizeof ends / sizeof *ends)];
  uint64_t number = 0;
  for (int i = 0; i < 8; i++) number |= (uint64_t)next_byte() << (8 * i);
  return number;
}

size_t next_length(void) {
  static const size_t longest[] = {1023, 1024, 1022, 4097};
  uint8_t byte = next_byte();
  return byte < PLAIN ? byte : longest[byte % (sizeof longest / sizeof *longest)];
}
