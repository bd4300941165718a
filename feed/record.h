/* A member's saved record: epoch and highest sent. It is on the disk before any frame of the call that changed it leaves. */
#ifndef FEED_RECORD_H
#define FEED_RECORD_H

#include <stdbool.h>
#include <stdint.h>

struct record {
    uint32_t epoch;
    uint32_t highest;
};

/* False where there is none: the member has never sent anything. */
bool record_load(const char *path, struct record *record);

/* Replaces the record as a whole, so that a stop in between leaves the old one. */
bool record_save(const char *path, struct record record);

#endif
