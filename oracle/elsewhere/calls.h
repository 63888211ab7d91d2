/* One call of the library and its reply, as they go through a pipe between the two programs of this folder. */
#ifndef CALLS_H
#define CALLS_H

#include <stdint.h>
#include "woolturret.h"

enum { SEARCH = 1, CHECK, SET, OUTPUT, CONFIGURE, DERIVE, PLAN, LINE, START };
enum { MOST_BYTES = 256, BEYOND = 71, MOST_PLACES = 64, MOST_ANSWERS = WOOLTURRET_WAITS * 65535 };
_Static_assert(WOOLTURRET_RECORD <= MOST_BYTES && WOOLTURRET_PLACES <= MOST_PLACES, "a record and a file go through whole");
_Static_assert(WOOLTURRET_SEARCH <= WOOLTURRET_CONFIG, "a search's answer goes where a configuration does");

/* What a caller lends: it goes there and comes back, so that what the library leaves alone is left alone here. */
struct lent {
    uint64_t hertz;
    uint32_t out[WOOLTURRET_CONFIG];
    uint32_t clocks[WOOLTURRET_CLOCKS];
    uint32_t passes;
    uint8_t text[WOOLTURRET_LINE];
    uint8_t beyond[BEYOND]; /* lent by no call */
};

struct call {
    uint32_t function;
    uint32_t numbers[7];
    uint64_t length;
    uint8_t bytes[MOST_BYTES];
    struct lent lent;
};

struct reply {
    uint32_t answer;
    struct lent lent;
};

/* What a start has besides, there and back: no other call is made longer by it. */
struct start {
    struct woolturret_started started;
    uint32_t limit;
    uint32_t cut;
    uint64_t places;
    uint64_t answered;
    uint32_t file[MOST_PLACES];
};

/* A start's call; of the answers only so many are sent as there are. */
struct start_call {
    struct call call;
    struct start start;
    uint8_t answers[MOST_ANSWERS];
};

struct start_reply {
    struct reply reply;
    struct start start;
};

/* How many of count elements go through the pipe. */
static inline uint64_t sent(uint64_t count, uint64_t most)
{
    return count < most ? count : most;
}

#endif
