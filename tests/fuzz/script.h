/* The fuzzer's bytes, read from the front as a script. Behind their end there are zeros. */
#ifndef FUZZ_SCRIPT_H
#define FUZZ_SCRIPT_H

#include <stdbool.h>
#include <stddef.h>
#include <stdint.h>

void script(const uint8_t *bytes, size_t count);
bool script_over(void);

uint8_t next_byte(void);
size_t next_below(size_t limit);

/* A number: most bytes stand for themselves, some for a number at which something ends, some for the next eight. */
uint64_t next_number(void);

/* A length: most bytes stand for themselves, some for one around the longest value. */
size_t next_length(void);

#endif
