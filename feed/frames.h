/* Frames as a host must know them: where each one ends, where its signatures lie and what they cover (document 01, "Frames"). */
#ifndef FEED_FRAMES_H
#define FEED_FRAMES_H

#include <stdbool.h>
#include <stddef.h>
#include <stdint.h>

#include "wederburh.h"

/* The longest content that a signature covers: configuration number, epoch, round, m and a list of all members. */
#define CONTENT (8 + 6 + 9 * WEDERBURH_MEMBERS)

struct frame {
    uint8_t kind;
    uint8_t sender;
    const uint8_t *body;
    size_t len; /* of the body */
};

/* One signature of a frame. */
struct covered {
    uint8_t member; /* whose it is */
    size_t at;      /* where it lies in the body */
    uint8_t content[CONTENT];
    size_t len;     /* of the content */
};

uint64_t read_number(const uint8_t *bytes, size_t count);
void write_number(uint8_t *bytes, size_t count, uint64_t number);

/* Every body starts with its epoch; all but NEWEPOCH's go on with a round. */
uint32_t body_epoch(const uint8_t *body);
uint8_t body_round(const uint8_t *body);

/* The frame whose trailer ends these bytes; false where the bytes are too short for what it says. */
bool frame_last(const uint8_t *bytes, size_t len, struct frame *frame);

/* How many signatures a frame has; 0 where its body is not as long as its kind asks, or lists too many members. */
size_t frame_signatures(const struct frame *frame);

/* The i-th of them, in frame order. */
void frame_covered(const struct frame *frame, uint64_t configuration, size_t i, struct covered *covered);

const char *kind_name(uint8_t kind);

#endif
