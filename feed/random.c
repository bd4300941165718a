#include "random.h"

struct random random_from(uint64_t seed, uint64_t stream) {
    struct random random = {seed};
    random.state = random_next(&random) + stream * UINT64_C(0xd1342543de82ef95);
    random_next(&random);
    return random;
}

uint64_t random_next(struct random *random) {
    uint64_t z = random->state += UINT64_C(0x9e3779b97f4a7c15);
    z = (z ^ (z >> 30)) * UINT64_C(0xbf58476d1ce4e5b9);
    z = (z ^ (z >> 27)) * UINT64_C(0x94d049bb133111eb);
    return z ^ (z >> 31);
}

uint64_t random_below(struct random *random, uint64_t bound) { return random_next(random) % bound; }

bool random_percent(struct random *random, unsigned percent) { return random_below(random, 100) < percent; }
