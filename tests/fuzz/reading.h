/* What receiving a datagram must answer on memory that keeps a host, by the header's words: a plain reader of the
   datagram, and a comparison of its number with what the memory says. Only whether there is room is not told. */
#ifndef FUZZ_READING_H
#define FUZZ_READING_H

#include "steps.h"

/* The answer for the datagram and the sender that are lent. TAGSHARDS_TAKEN stands for TAGSHARDS_UNRECEIVED too. To
   be called before the step. */
uint64_t expected_answer(void);

#endif
