/* The functions of include/tagshards.h on the memory that is lent, each with the checks that hold on any memory: the
   answer is one of those that the header names, a refusal and every answer after which the host is as it was leave
   the memory as it was, and nothing is written but what is lent for writing. */
#ifndef FUZZ_STEPS_H
#define FUZZ_STEPS_H

#include "../../include/tagshards.h"
#include "memory.h"

/* The words of a peer and of a place. */
#define EACH 3

/* Makes a trap in the host's code a failure like the others; libFuzzer itself does not stop at one. To be called
 * once. */
void notice_traps(void);

uint64_t start(size_t width, size_t size, size_t n);
uint64_t receive(void);
uint64_t process(void);
uint64_t retransmit(void);
uint64_t turn(bool arrived);
uint64_t audit(void);

#endif
