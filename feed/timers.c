#include "timers.h"

#include <time.h>

#include "wederburh.h"

/* Short, so that a demonstration is over soon. A round has time for a grace period and four messages one after the other. */
static const uint64_t DELTA[] = {
    [WEDERBURH_RESEND] = 600,
    [WEDERBURH_PROGRESS] = 1300,
    [WEDERBURH_ROUND] = 500,
    [WEDERBURH_GRACE] = 60,
};

uint64_t clock_now(void) {
    struct timespec t;
    clock_gettime(CLOCK_MONOTONIC, &t);
    return (uint64_t)t.tv_sec * 1000 + (uint64_t)t.tv_nsec / 1000000;
}

unsigned timers_slower(uint8_t n) { return 1u + n / 8u; }

struct timers timers_none(uint8_t n) {
    struct timers timers = {.slower = timers_slower(n)};
    for (int i = 0; i < TIMERS; i++) timers.due[i] = NEVER;
    return timers;
}

void timers_then(struct timers *timers, int timer, uint8_t then, uint64_t now) {
    if (then == WEDERBURH_START) timers->due[timer] = now + DELTA[timer] * timers->slower;
    if (then == WEDERBURH_STOP) timers->due[timer] = NEVER;
}

int timers_fired(struct timers *timers, uint64_t now) {
    for (int i = 0; i < TIMERS; i++) {
        if (timers->due[i] <= now) {
            timers->due[i] = NEVER;
            return i;
        }
    }
    return -1;
}

uint64_t timers_next(const struct timers *timers) {
    uint64_t next = NEVER;
    for (int i = 0; i < TIMERS; i++)
        if (timers->due[i] < next) next = timers->due[i];
    return next;
}
