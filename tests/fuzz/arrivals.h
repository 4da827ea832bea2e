/* Datagrams that arrive, drawn from the script: any bytes, good messages, nearly good ones, and what the host sent
   itself, sent back to it. */
#ifndef FUZZ_ARRIVALS_H
#define FUZZ_ARRIVALS_H

#include "steps.h"

/* The addresses of hosts and clients; the last ones are the empty one and one that is too long for a small width. */
#define ADDRESSES 7
extern const struct address {
  const char *bytes;
  size_t count;
} addresses[ADDRESSES];

/* The longest datagram that is written here. */
#define LONGEST 66000

/* Lends a sender and a datagram that the script draws. */
void arrival(void);

/* The peer with that address among those that memory says there are, or -1. Looks at nothing outside of what is lent.
 */
int64_t peer_of(const uint8_t *address, size_t count);

#endif
