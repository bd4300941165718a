/* What a run is asked to do. */
#ifndef FEED_OPTIONS_H
#define FEED_OPTIONS_H

#include <stdbool.h>
#include <stddef.h>
#include <stdint.h>

#include "wederburh.h"

#define STOPS 8

/* What a faulty member does; a member with none of these is sound. */
enum conduct {
    WILD = 1,    /* quotes a price far above the market, over links that are quicker than the others' */
    SILENT = 2,  /* is not running */
    TWICE = 4,   /* sends each frame twice, and a second OBSERVE with another value */
    GARBAGE = 8, /* damages each frame */
};

/* A member is stopped at one time and restored from its record at another; milliseconds after the start. */
struct stop {
    uint8_t member;
    uint64_t from;
    uint64_t until;
};

struct options {
    uint8_t n;
    uint8_t f;
    unsigned medians; /* so many are to be published .. */
    unsigned seconds; /* .. in so many seconds, at the most */
    uint64_t seed;
    uint8_t conduct[WEDERBURH_MEMBERS + 1]; /* by member number */
    unsigned lose, repeat, reorder;         /* percent of the frames between members */
    struct stop stops[STOPS];
    size_t stop_count;
    bool quiet;
};

/* The network of four members, all sound. */
struct options options_usual(void);

/* Reads the command line; false, with a line on standard error, where it makes no sense. */
bool options_read(struct options *options, int count, char **words);

bool options_sound(const struct options *options, uint8_t member);
bool options_any(const struct options *options, uint8_t conduct);

#endif
