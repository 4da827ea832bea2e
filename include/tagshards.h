/* A host of tagshards over memory that the caller lends.

   Every slice is two arguments, a pointer to its first element and the number of its elements (not bytes).
   Within a call no two slices may overlap, except that slices a function only reads may. The memory must
   stay where it is during a call only; nothing is kept between calls but what stands in the slices. A
   pointer must not be null and must be aligned for its elements, also where the length is 0. No function
   allocates, blocks, or calls back. A host is used by one thread at a time.

   The caller reads and sends the datagrams. An address is any string of bytes; hosts on UDP use one of a
   fixed form, for all of them the same, since addresses are compared byte by byte.

   MEMORY OF ONE HOST. Whoever lends it chooses its limits by the lengths:

     lows, owners         B words each: the map, which has at most B bounds at once
     keys, slots, lens    E words each, and
     values               E * 1023 bytes: the table of at most E entries
     name_lens            Q words,
     names                Q * width bytes, and
     counts               Q * 3 words: at most Q peers (hosts and clients)
     places               W * 3 words, and
     mail                 W * size bytes: at most W messages that wait for an Ack
     room                 at least size bytes: the message that was received and is not yet processed
     numbers              at least 12 words, below

   width is the largest number of bytes of an address, at least 1 and below 0x100000. size is the bytes kept
   for a datagram: at least 65536, at least 63423 + width, and at least 34 + 2 * width. A datagram that
   arrives may have as many bytes as the room.

   All of it belongs to the host from tagshards_start on. The caller reads numbers, places, mail, name_lens
   and names as said below, and writes none of the memory. What the memory holds before tagshards_start does
   not matter.

   NUMBERS, by word:

      0  the own number among the peers
      1  how many hosts: the peers with the numbers from 0 on, in the order of the list
      2  how many peers
      3  width
      4  size
      5  bounds in use
      6  entries in use
      7  length of the datagram in the room, 0 if it is free
      8  number of the peer that sent it
      9  count of transfers
     10  turns, see tagshards_turn
     11  after 22, 23 and 27: the place of the datagram to send. After 30: how many places stand in out.
         After 2 what it was before. Otherwise any number, which is the host's

   PLACES. A message that waits for its Ack stands in a place p < W:

     places[3 * p]        0 if the place is free, otherwise the number i of the peer it is for, plus 1
     places[3 * p + 1]    its number
     places[3 * p + 2]    its length in bytes
     mail + p * size      the datagram, of that length

   Its receiver is the address of name_lens[i] bytes at names + i * width.

   WHAT CANNOT BE SENT. A caller that fails to send a datagram forgets it. Every message that is handed out
   keeps its place until its Ack has arrived, and tagshards_retransmit (or a turn) hands it out again. An Ack
   that is lost is given again when the message it is for arrives again. So nothing needs to be kept, and a
   datagram may be lost, doubled, delayed or overtaken on the way.

   examples/c/host.c is a whole program.

   WHAT IS PROVED of each function is its contract, in crates/boundary/src; the compiler, this header and the
   caller are believed. A step on memory that keeps no host is safe and ends, and nothing is said of its answer;
   tagshards_audit tells. */

#ifndef TAGSHARDS_H
#define TAGSHARDS_H

#include <stdbool.h>
#include <stddef.h>
#include <stdint.h>

#ifdef __cplusplus
extern "C" {
#endif

/* The words of numbers. */
#define TAGSHARDS_WORDS 12
#define TAGSHARDS_ME 0
#define TAGSHARDS_HOSTS 1
#define TAGSHARDS_PEERS 2
#define TAGSHARDS_WIDTH 3
#define TAGSHARDS_SIZE 4
#define TAGSHARDS_BOUNDS 5
#define TAGSHARDS_ENTRIES 6
#define TAGSHARDS_LENGTH 7
#define TAGSHARDS_SENDER 8
#define TAGSHARDS_TRANSFERS 9
#define TAGSHARDS_TURNS 10
#define TAGSHARDS_PLACE 11

/* The bytes of an Ack. */
#define TAGSHARDS_ACK 9

/* ---- answers */

/* tagshards_start */
#define TAGSHARDS_STARTED 0u    /* the memory keeps a new host */
#define TAGSHARDS_NO_HOST 1u    /* no host starts with such a list; nothing has changed */

/* tagshards_audit */
#define TAGSHARDS_NOT_KEPT 0u   /* the memory keeps no host */
#define TAGSHARDS_KEPT 1u       /* the memory keeps a host */

/* Any function but tagshards_retransmit: what is lent does not serve; nothing has changed. */
#define TAGSHARDS_UNFIT 2u

/* tagshards_receive. After 10, 11, 12, 14, 15, 16 and 18 the host is as it was. */
#define TAGSHARDS_FULL 10u       /* the room is taken; the datagram is dropped, an Ack too */
#define TAGSHARDS_INVALID 11u    /* not a datagram of the protocol; dropped */
#define TAGSHARDS_ELSEWHERE 12u  /* a message for another destination; dropped */
#define TAGSHARDS_TAKEN 13u      /* a new message, now in the room. Send the 9 bytes of ack to from */
#define TAGSHARDS_UNRECEIVED 14u /* a new message for which there might be no room: not acknowledged */
#define TAGSHARDS_AGAIN 15u      /* a message that was taken before. Send the 9 bytes of ack to from */
#define TAGSHARDS_FUTURE 16u     /* a message from the future: neither taken nor acknowledged */
#define TAGSHARDS_ARRIVED 17u    /* an Ack: what it acknowledges waits no longer */
#define TAGSHARDS_STALE 18u      /* an Ack that acknowledges nothing new, or from no peer */

/* tagshards_process. After 20 and 21 the host is as it was; after the others the room is free. */
#define TAGSHARDS_IDLE 20u       /* the room is free */
#define TAGSHARDS_STUCK 21u      /* the count of transfers is at its limit: the Delegate or Shard stays */
#define TAGSHARDS_REPLIED 22u    /* a Get or a Set was carried out. Send the datagram in place numbers[11] */
#define TAGSHARDS_REDIRECTED 23u /* another host owns the key. Send the datagram in place numbers[11] */
#define TAGSHARDS_DROPPED 24u    /* the message is dropped */
#define TAGSHARDS_UNNUMBERED 25u /* there is no number left for an answer; a Get or Set is not carried out */
#define TAGSHARDS_ACCEPTED 26u   /* a Delegate: the range is this host's now */
#define TAGSHARDS_HANDED 27u     /* a Shard: the range is the recipient's. Send the datagram in place numbers[11] */

/* tagshards_turn, beside those of tagshards_receive and tagshards_process */
#define TAGSHARDS_RESENT 30u     /* send the datagrams in the places out[0] .. out[numbers[11] - 1] */
#define TAGSHARDS_WAITS 31u      /* there was nothing to do on this turn */

/* tagshards_retransmit: out has fewer places than there are for waiting messages, or numbers fewer words
   than 12. out is as it was. */
#define TAGSHARDS_NO_PLACES UINT64_MAX

/* ---- functions */

/* Starts the host with the own address me, on a list of n addresses: address i are the address_lens[i] bytes
   from bytes[ats[i]] on. All hosts of a set are started with the same list; the first on it owns every key
   at first. No host starts unless the addresses lie within bytes, no two are equal, each is shorter than
   0x100000 bytes and me is one of them. What is lent does not serve if a slice is shorter than said above for
   n peers, one bound, no entry and one waiting message, if width or size is too small, if an address has more
   bytes than width, or if numbers has fewer than 12 words.
   Answers 0, 1 or 2. */
uint64_t tagshards_start(
    uint64_t *lows, size_t lows_count,
    uint64_t *owners, size_t owners_count,
    const uint64_t *keys, size_t keys_count,
    uint64_t *slots, size_t slots_count,
    const uint64_t *lens, size_t lens_count,
    const uint8_t *values, size_t values_count,
    uint64_t *name_lens, size_t name_lens_count,
    uint8_t *names, size_t names_count,
    uint64_t *counts, size_t counts_count,
    uint64_t *places, size_t places_count,
    const uint8_t *mail, size_t mail_count,
    const uint8_t *room, size_t room_count,
    uint64_t *numbers, size_t numbers_count,
    size_t width,
    size_t size,
    const uint64_t *ats, size_t ats_count,
    const uint64_t *address_lens, size_t address_lens_count,
    const uint8_t *bytes, size_t bytes_count,
    size_t n,
    const uint8_t *me, size_t me_count);

/* The datagram has arrived from the address from. ack is for the Ack, if there is one: at least 9 bytes.
   Answers 10 to 18, or 2 if ack has fewer than 9 bytes or numbers fewer than 12 words. After 13 and 15 send
   the first 9 bytes of ack to from. */
uint64_t tagshards_receive(
    const uint64_t *lows, size_t lows_count,
    const uint64_t *owners, size_t owners_count,
    const uint64_t *keys, size_t keys_count,
    const uint64_t *slots, size_t slots_count,
    uint64_t *name_lens, size_t name_lens_count,
    uint8_t *names, size_t names_count,
    uint64_t *counts, size_t counts_count,
    uint64_t *places, size_t places_count,
    uint8_t *room, size_t room_count,
    uint64_t *numbers, size_t numbers_count,
    const uint8_t *from, size_t from_count,
    const uint8_t *datagram, size_t datagram_count,
    uint8_t *ack, size_t ack_count);

/* Processes the message in the room, if there is one.
   Answers 20 to 27, or 2 if numbers has fewer than 12 words. After 22, 23 and 27 send the datagram in place
   numbers[11]. */
uint64_t tagshards_process(
    uint64_t *lows, size_t lows_count,
    uint64_t *owners, size_t owners_count,
    uint64_t *keys, size_t keys_count,
    uint64_t *slots, size_t slots_count,
    uint64_t *lens, size_t lens_count,
    uint8_t *values, size_t values_count,
    const uint64_t *name_lens, size_t name_lens_count,
    const uint8_t *names, size_t names_count,
    uint64_t *counts, size_t counts_count,
    uint64_t *places, size_t places_count,
    uint8_t *mail, size_t mail_count,
    const uint8_t *room, size_t room_count,
    uint64_t *numbers, size_t numbers_count);

/* Writes the places of all waiting messages into out, which has at least as many words as there are places
   (W): for each peer in turn, in rising order of the messages' numbers. The host does not change.
   Answers how many there are: send the datagrams in the places out[0], out[1] and so on; or 2^64 - 1. */
uint64_t tagshards_retransmit(
    const uint64_t *counts, size_t counts_count,
    const uint64_t *places, size_t places_count,
    const uint64_t *numbers, size_t numbers_count,
    uint64_t *out, size_t out_count);

/* One turn, instead of the three functions above: the turns are for receiving, processing and sending again,
   in rotation, and sending again acts on every 100,000,000th of its turns. numbers[10] % 3 is 0 where the
   turn to come is one for receiving; then arrived says whether a datagram has arrived, and from and datagram
   are looked at if so. On the other turns they are not looked at, and a datagram that has arrived is to be
   handed in again. ack has at least 9 bytes and out at least W words.
   Answers as tagshards_receive and tagshards_process do, or 30 or 31; or 2 if ack or out is too short or
   numbers has fewer than 12 words. */
uint64_t tagshards_turn(
    uint64_t *lows, size_t lows_count,
    uint64_t *owners, size_t owners_count,
    uint64_t *keys, size_t keys_count,
    uint64_t *slots, size_t slots_count,
    uint64_t *lens, size_t lens_count,
    uint8_t *values, size_t values_count,
    uint64_t *name_lens, size_t name_lens_count,
    uint8_t *names, size_t names_count,
    uint64_t *counts, size_t counts_count,
    uint64_t *places, size_t places_count,
    uint8_t *mail, size_t mail_count,
    uint8_t *room, size_t room_count,
    uint64_t *numbers, size_t numbers_count,
    bool arrived,
    const uint8_t *from, size_t from_count,
    const uint8_t *datagram, size_t datagram_count,
    uint8_t *ack, size_t ack_count,
    uint64_t *out, size_t out_count);

/* Decides whether the memory keeps a host: whether there is a host, with some map, table, peers, waiting
   messages and message in the room, that has just this memory. So the numbers agree with each other and with the
   lengths of the slices, bounds and keys rise, every owner is a host, no address and no slot stands twice, every
   datagram that waits and the one in the room is a message as the words say, and there is room for what that one
   needs. Damage that leaves another host, such as another byte in a value, is not found.
   It changes nothing. It is for memory that came from elsewhere, such as a file, and not for steps: places are
   compared with each other, and so are peers and slots, which takes the square of their numbers, and every
   datagram that waits is read.
   Answers 0 or 1, or 2 if numbers has fewer than 12 words. */
uint64_t tagshards_audit(
    const uint64_t *lows, size_t lows_count,
    const uint64_t *owners, size_t owners_count,
    const uint64_t *keys, size_t keys_count,
    const uint64_t *slots, size_t slots_count,
    const uint64_t *lens, size_t lens_count,
    const uint8_t *values, size_t values_count,
    const uint64_t *name_lens, size_t name_lens_count,
    const uint8_t *names, size_t names_count,
    const uint64_t *counts, size_t counts_count,
    const uint64_t *places, size_t places_count,
    const uint8_t *mail, size_t mail_count,
    const uint8_t *room, size_t room_count,
    const uint64_t *numbers, size_t numbers_count);

#ifdef __cplusplus
}
#endif

#endif
