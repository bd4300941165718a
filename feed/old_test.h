/* The old test, kept as a calculation: "at least 2f" observations where document 01 asks for more than 2f. */
#ifndef FEED_OLD_TEST_H
#define FEED_OLD_TEST_H

#include <stdbool.h>
#include <stddef.h>
#include <stdint.h>

#include "wederburh.h"

struct observation {
    int64_t value;
    uint8_t member;
};

/* What the old test could have published of these observations, in the order in which the leader took them: the median of the
 * first 2f, since they were enough for it. False where fewer came, or where f is 0. */
bool old_test(const struct observation *taken, size_t count, uint8_t f, struct observation *median);

#endif
