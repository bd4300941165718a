#include "prices.h"

#include "random.h"

#define BASE 20000
#define WILD_QUOTE 900000
/* More than the rounds that an epoch has here, so that every round has a step of its own. */
#define STEPS_IN_EPOCH 8

int64_t prices_quote(const struct options *options, uint8_t member, uint32_t epoch, uint8_t round) {
    struct random walk = random_from(options->seed, 0), own = random_from(options->seed, member);
    uint64_t steps = (uint64_t)epoch * STEPS_IN_EPOCH + round;
    int64_t market = BASE, differs = 0;
    for (uint64_t i = 0; i < steps; i++) {
        market += (int64_t)random_below(&walk, 121) - 60;
        differs = (int64_t)random_below(&own, 31) - 15;
    }
    return (options->conduct[member] & WILD ? WILD_QUOTE : market) + differs;
}
