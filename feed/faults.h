/* What faulty members do to their frames. Their links are their own, so no tag is wrong but where they forge one. */
#ifndef FEED_FAULTS_H
#define FEED_FAULTS_H

#include "links.h"

struct faults {
    uint8_t conduct; /* enum conduct; 0: sound, and every frame is sent as it is */
    struct links *links;
    const struct keys *keys;
    uint64_t configuration;
    uint8_t f;
};

void faults_send(struct faults *faults, uint8_t to, const uint8_t *frame, size_t len);

/* What a faulty member does at once with a report that is handed out, before its sender has it. */
void faults_handed(struct faults *faults, const uint8_t *report, size_t len);

#endif
