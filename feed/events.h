/* What members tell whoever watches the run, through a pipe: no part of the protocol. */
#ifndef FEED_EVENTS_H
#define FEED_EVENTS_H

#include <stdbool.h>
#include <stdint.h>

enum happened {
    STARTED,  /* with the record's epoch and highest sent */
    MOVED,    /* to an epoch */
    QUOTED,   /* a value, in an OBSERVE that is about to leave */
    TAKEN,    /* as a leader, the value of member `whose` */
    REFUSED,  /* something, with a code */
};

/* What can be refused, besides a frame by its kind. */
enum refused { NO_FRAME = 0, A_TIMER = 8, A_TRANSMISSION, A_SUBMISSION, A_DATAGRAM, REFUSABLE };

struct event {
    int64_t value;
    uint32_t epoch;
    uint32_t highest;
    uint8_t happened;
    uint8_t member;
    uint8_t whose;
    uint8_t round;
    uint8_t what; /* a kind, or enum refused */
    uint8_t code;
};

/* False where nobody watches any longer. An event is written whole. */
bool event_tell(int pipe, const struct event *event);

/* False where there is none at the moment. */
bool event_next(int pipe, struct event *event);

#endif
