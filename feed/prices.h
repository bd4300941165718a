/* Where members have their quotes from: a market of cents per tonne that wanders by the seed. */
#ifndef FEED_PRICES_H
#define FEED_PRICES_H

#include "options.h"

/* A member's quote in a round. It goes by epoch and round and not by the clock, so that a seed gives the same quotes in every run. */
int64_t prices_quote(const struct options *options, uint8_t member, uint32_t epoch, uint8_t round);

#endif
