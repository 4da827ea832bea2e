/* The functions of the header, called and checked. */
#include "steps.h"

#include <inttypes.h>
#include <signal.h>

/* A slice as two arguments. */
#define WORDS(slice) words(slice), lent[slice].count
#define BYTES_OF(slice) lent[slice].at, lent[slice].count

#define TABLE WORDS(KEYS), WORDS(SLOTS), WORDS(LENS), BYTES_OF(VALUES)
#define POST WORDS(NAME_LENS), BYTES_OF(NAMES), WORDS(COUNTS), WORDS(PLACES)
#define HOST WORDS(LOWS), WORDS(OWNERS), TABLE, POST, BYTES_OF(MAIL), BYTES_OF(ROOM), WORDS(NUMBERS)

/* What each function may write, if it does not refuse. */
#define BY_START \
  (BIT(LOWS) | BIT(OWNERS) | BIT(SLOTS) | BIT(NAME_LENS) | BIT(NAMES) | BIT(COUNTS) | BIT(PLACES) | BIT(NUMBERS))
#define BY_RECEIVE (BIT(NAME_LENS) | BIT(NAMES) | BIT(COUNTS) | BIT(PLACES) | BIT(ROOM) | BIT(NUMBERS) | BIT(ACK))
#define BY_PROCESS                                                                                          \
  (BIT(LOWS) | BIT(OWNERS) | BIT(KEYS) | BIT(SLOTS) | BIT(LENS) | BIT(VALUES) | BIT(COUNTS) | BIT(PLACES) | \
   BIT(MAIL) | BIT(NUMBERS))

#define ALL_WORDS ((1u << TAGSHARDS_WORDS) - 1)
#define HINT (1u << TAGSHARDS_PLACE)

static bool few_words(void) { return lent[NUMBERS].count < TAGSHARDS_WORDS; }
static bool short_ack(void) { return lent[ACK].count < TAGSHARDS_ACK; }
static bool few_places(void) { return lent[OUT].count < lent[PLACES].count / EACH; }

/* A refusal comes exactly if it must. */
static void refused(const char *step, uint64_t answer, bool refusal, bool must) {
  if (refusal != must) fail("%s answered %" PRIu64 ", %s", step, answer, must ? "no refusal" : "a refusal");
}

static void named(const char *step, uint64_t answer, bool is) {
  if (!is) fail("%s answered %" PRIu64 ", which the header does not name", step, answer);
}

static bool received(uint64_t answer) { return answer >= TAGSHARDS_FULL && answer <= TAGSHARDS_STALE; }
static bool processed(uint64_t answer) { return answer >= TAGSHARDS_IDLE && answer <= TAGSHARDS_HANDED; }

static void trapped(int signal) { fail("the host's code ended in a trap (signal %d)", signal); }

void notice_traps(void) { signal(SIGTRAP, trapped); }

uint64_t start(size_t width, size_t size, size_t n) {
  uint64_t answer =
      tagshards_start(HOST, width, size, WORDS(ATS), WORDS(ADDRESS_LENS), BYTES_OF(BYTES), n, BYTES_OF(ME));
  named("start", answer, answer <= TAGSHARDS_UNFIT);
  if (few_words()) refused("start", answer, answer == TAGSHARDS_UNFIT, true);
  settle("start", answer, answer == TAGSHARDS_STARTED ? BY_START : 0, ALL_WORDS);
  return answer;
}

uint64_t receive(void) {
  uint64_t answer = tagshards_receive(WORDS(LOWS), WORDS(OWNERS), WORDS(KEYS), WORDS(SLOTS), POST, BYTES_OF(ROOM),
                                      WORDS(NUMBERS), BYTES_OF(FROM), BYTES_OF(DATAGRAM), BYTES_OF(ACK));
  refused("receive", answer, answer == TAGSHARDS_UNFIT, few_words() || short_ack());
  named("receive", answer, answer == TAGSHARDS_UNFIT || received(answer));
  if (answer == TAGSHARDS_UNFIT)
    settle("receive", answer, 0, 0);
  else if (answer == TAGSHARDS_TAKEN || answer == TAGSHARDS_ARRIVED)
    settle("receive", answer, BY_RECEIVE, ALL_WORDS);
  else
    settle("receive", answer, BIT(NUMBERS) | BIT(ACK), HINT);
  return answer;
}

uint64_t process(void) {
  uint64_t answer = tagshards_process(HOST);
  refused("process", answer, answer == TAGSHARDS_UNFIT, few_words());
  named("process", answer, answer == TAGSHARDS_UNFIT || processed(answer));
  settle("process", answer, answer == TAGSHARDS_UNFIT ? 0 : BY_PROCESS, ALL_WORDS);
  return answer;
}

uint64_t retransmit(void) {
  uint64_t answer = tagshards_retransmit(WORDS(COUNTS), WORDS(PLACES), WORDS(NUMBERS), WORDS(OUT));
  refused("retransmit", answer, answer == TAGSHARDS_NO_PLACES, few_words() || few_places());
  named("retransmit", answer, answer == TAGSHARDS_NO_PLACES || answer <= lent[OUT].count);
  settle("retransmit", answer, answer == TAGSHARDS_NO_PLACES ? 0 : BIT(OUT), 0);
  return answer;
}

uint64_t turn(bool arrived) {
  uint64_t answer = tagshards_turn(HOST, arrived, BYTES_OF(FROM), BYTES_OF(DATAGRAM), BYTES_OF(ACK), WORDS(OUT));
  refused("turn", answer, answer == TAGSHARDS_UNFIT, few_words() || short_ack() || few_places());
  named("turn", answer,
        answer == TAGSHARDS_UNFIT || received(answer) || processed(answer) || answer == TAGSHARDS_RESENT ||
            answer == TAGSHARDS_WAITS);
  settle("turn", answer, answer == TAGSHARDS_UNFIT ? 0 : BY_RECEIVE | BY_PROCESS | BIT(OUT), ALL_WORDS);
  return answer;
}

uint64_t audit(void) {
  uint64_t answer = tagshards_audit(HOST);
  refused("audit", answer, answer == TAGSHARDS_UNFIT, few_words());
  named("audit", answer, answer <= TAGSHARDS_UNFIT);
  settle("audit", answer, 0, 0);
  return answer;
}
