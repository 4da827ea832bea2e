/* What is handed out, and which numbers change. */
#include "promises.h"

#include <inttypes.h>
#include <string.h>

#include "reading.h"

/* Where a message's number and its destination stand. */
#define NUMBER_AT 1
#define DESTINATION_AT 17

/* The turns after which all begins anew. */
#define ROUND 300000000

static uint64_t number(size_t word) { return words(NUMBERS)[word]; }

static uint64_t number_at(const uint8_t *bytes) {
  uint64_t number = 0;
  for (int i = 7; i >= 0; i--) number = number << 8 | bytes[i];
  return number;
}

struct before before_step(void) {
  struct before before;
  memcpy(before.numbers, words(NUMBERS), sizeof before.numbers);
  before.expected = expected_answer();
  return before;
}

void still_a_host(const char *step, uint64_t answer) {
  if (audit() != TAGSHARDS_KEPT) fail("%s answered %" PRIu64 ", and the memory keeps no host", step, answer);
}

/* Peer i has the address. */
static bool is_peer(uint64_t i, const uint8_t *address, size_t count) {
  return i < number(TAGSHARDS_PEERS) && words(NAME_LENS)[i] == count &&
         memcmp(lent[NAMES].at + i * number(TAGSHARDS_WIDTH), address, count) == 0;
}

/* The place has a message to a peer, inside of the mail, with the number and the destination that stand beside it. */
static void handed_out(const char *step, uint64_t place) {
  if (place >= lent[PLACES].count / EACH) fail("%s hands out a place that there is not", step);
  const uint64_t *words_of = words(PLACES) + EACH * place;
  if (words_of[0] == 0 || words_of[0] > number(TAGSHARDS_PEERS)) fail("%s hands out a place that is free", step);
  uint64_t peer = words_of[0] - 1, length = words_of[2], name = words(NAME_LENS)[peer];
  const uint8_t *message = lent[MAIL].at + place * number(TAGSHARDS_SIZE);
  if (length > number(TAGSHARDS_SIZE) || length <= DESTINATION_AT + name) fail("%s hands out a wrong length", step);
  if (message[0] != 0 || number_at(message + NUMBER_AT) != words_of[1]) fail("%s hands out another number", step);
  if (number_at(message + NUMBER_AT + 8) != name || !is_peer(peer, message + DESTINATION_AT, name))
    fail("%s hands out a message to another address", step);
}

/* The nine bytes of the Ack are those for the datagram. */
static void acknowledged(void) {
  if (lent[ACK].at[0] != 1 || memcmp(lent[ACK].at + 1, lent[DATAGRAM].at + NUMBER_AT, 8) != 0)
    fail("the Ack is not that of the datagram");
}

static void in_the_room(void) {
  if (number(TAGSHARDS_LENGTH) != lent[DATAGRAM].count) fail("another length is in the room");
  if (memcmp(lent[ROOM].at, lent[DATAGRAM].at, lent[DATAGRAM].count) != 0) fail("other bytes are in the room");
  uint64_t sender = number(TAGSHARDS_SENDER);
  if (!is_peer(sender, lent[FROM].at, lent[FROM].count)) fail("another sender stands beside the room");
  if (words(COUNTS)[EACH * sender] != number_at(lent[DATAGRAM].at + NUMBER_AT))
    fail("the number that was taken is not the last");
}

void after_receive(const struct before *before, uint64_t answer) {
  if ((answer == TAGSHARDS_UNRECEIVED ? TAGSHARDS_TAKEN : answer) != before->expected)
    fail("receive answered %" PRIu64 " instead of %" PRIu64, answer, before->expected);
  if (answer == TAGSHARDS_TAKEN || answer == TAGSHARDS_AGAIN) acknowledged();
  if (answer == TAGSHARDS_TAKEN) in_the_room();
  still_a_host("receive", answer);
}

/* All numbers are as they were but for those words. */
static void numbers_kept(const struct before *before, uint64_t answer, uint32_t but) {
  for (size_t i = 0; i < TAGSHARDS_WORDS; i++)
    if (!(but & (1u << i)) && number(i) != before->numbers[i])
      fail("after %" PRIu64 " number %zu is another", answer, i);
}

void after_process(const struct before *before, uint64_t answer) {
  uint64_t place = number(TAGSHARDS_PLACE);
  if ((before->numbers[TAGSHARDS_LENGTH] == 0) != (answer == TAGSHARDS_IDLE))
    fail("process answered %" PRIu64 " on a room of %" PRIu64 " bytes", answer, before->numbers[TAGSHARDS_LENGTH]);
  if (answer == TAGSHARDS_IDLE || answer == TAGSHARDS_STUCK)
    numbers_kept(before, answer, 1u << TAGSHARDS_PLACE | 1u << TAGSHARDS_TURNS);
  else if (number(TAGSHARDS_LENGTH) != 0)
    fail("process answered %" PRIu64 " and the room is not free", answer);
  bool replied = answer == TAGSHARDS_REPLIED || answer == TAGSHARDS_REDIRECTED, handed = answer == TAGSHARDS_HANDED;
  if (replied || handed) handed_out("process", place);
  if (replied && words(PLACES)[EACH * place] != before->numbers[TAGSHARDS_SENDER] + 1)
    fail("the answer is not for who asked");
  if (handed && words(PLACES)[EACH * place] > number(TAGSHARDS_HOSTS)) fail("a range is handed to no host");
  still_a_host("process", answer);
}

/* As many as wait, and none twice. */
void after_resend(const char *step, uint64_t many) {
  uint64_t waiting = 0;
  for (size_t p = 0; p < lent[PLACES].count / EACH; p++) waiting += words(PLACES)[EACH * p] != 0;
  if (many != waiting) fail("%s hands out %" PRIu64 " of %" PRIu64 " messages", step, many, waiting);
  for (size_t i = 0; i < many; i++) {
    handed_out(step, words(OUT)[i]);
    for (size_t j = 0; j < i; j++)
      if (words(OUT)[i] == words(OUT)[j]) fail("%s hands out a place twice", step);
  }
  still_a_host(step, many);
}

void after_turn(const struct before *before, bool arrived, uint64_t answer) {
  uint64_t turns = before->numbers[TAGSHARDS_TURNS];
  if (number(TAGSHARDS_TURNS) != (turns % ROUND + 1) % ROUND)
    fail("turn %" PRIu64 " is followed by %" PRIu64, turns, number(TAGSHARDS_TURNS));
  bool receiving = turns % 3 == 0 && arrived, again = turns % 3 == 2 && turns + 1 == ROUND;
  if (receiving != (answer >= TAGSHARDS_FULL && answer <= TAGSHARDS_STALE) ||
      (turns % 3 == 1) != (answer >= TAGSHARDS_IDLE && answer <= TAGSHARDS_HANDED) ||
      again != (answer == TAGSHARDS_RESENT))
    fail("turn %" PRIu64 " answered %" PRIu64, turns, answer);
  if (receiving && answer != TAGSHARDS_TAKEN)
    numbers_kept(before, answer, 1u << TAGSHARDS_PLACE | 1u << TAGSHARDS_TURNS);
  if (receiving) after_receive(before, answer);
  if (turns % 3 == 1) after_process(before, answer);
  if (again) after_resend("turn", number(TAGSHARDS_PLACE));
  still_a_host("turn", answer);
}
