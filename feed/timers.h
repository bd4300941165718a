/* The clock and the timers of a member. The node says which to start and to stop; how long each runs is the host's choice. */
#ifndef FEED_TIMERS_H
#define FEED_TIMERS_H

#include <stdint.h>

/* After the node's four, numbered as in wederburh.h. */
#define TRANSMIT 4
#define TIMERS 5

#define NEVER UINT64_MAX

struct timers {
    uint64_t due[TIMERS];   /* NEVER where it is not running */
    unsigned slower;        /* every interval is so many times as long: a large feed has more signatures to check */
};

/* Milliseconds of a clock that never goes back. All processes here are on one machine and share it. */
uint64_t clock_now(void);

struct timers timers_none(uint8_t n);

/* How much slower a feed of n members is run than a small one. */
unsigned timers_slower(uint8_t n);

/* What a call says about one of the node's timers (enum wederburh_then). */
void timers_then(struct timers *timers, int timer, uint8_t then, uint64_t now);

/* A timer that is due, which no longer runs then; -1 if there is none. */
int timers_fired(struct timers *timers, uint64_t now);

uint64_t timers_next(const struct timers *timers);

#endif
