/* Numbers that a seed determines (splitmix64), for prices and for what happens on links. Keys are not made of these. */
#ifndef FEED_RANDOM_H
#define FEED_RANDOM_H

#include <stdbool.h>
#include <stdint.h>

struct random {
    uint64_t state;
};

struct random random_from(uint64_t seed, uint64_t stream);
uint64_t random_next(struct random *random);
uint64_t random_below(struct random *random, uint64_t bound);
bool random_percent(struct random *random, unsigned percent);

#endif
