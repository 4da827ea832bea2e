/* What the header promises of a step on memory that keeps a host, beside what steps.h checks on any memory. Each
   function is called right after its step and fails if a promise is not kept. */
#ifndef FUZZ_PROMISES_H
#define FUZZ_PROMISES_H

#include "steps.h"

/* The numbers of a host before a step, and what receiving the datagram that is lent must answer. */
struct before {
  uint64_t numbers[TAGSHARDS_WORDS];
  uint64_t expected;
};
struct before before_step(void);

/* The memory keeps a host. */
void still_a_host(const char *step, uint64_t answer);

void after_receive(const struct before *before, uint64_t answer);
void after_process(const struct before *before, uint64_t answer);
void after_resend(const char *step, uint64_t many);
void after_turn(const struct before *before, bool arrived, uint64_t answer);

#endif
