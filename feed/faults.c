#include "faults.h"

#include <string.h>

/* A second, rightly signed OBSERVE for another value: two answers to one request. */
static void send_other_value(struct faults *faults, uint8_t to, const uint8_t *bytes, size_t len) {
    uint8_t other[PAYLOAD];
    struct frame frame;
    memcpy(other, bytes, len);
    write_number(other + 5, 8, read_number(other + 5, 8) + 500);
    if (!frame_last(other, len, &frame)) return;
    keys_sign(faults->keys, faults->links->own, faults->configuration, &frame, other);
    links_send(faults->links, faults->links->own, to, other, len);
}

static void send_twice(struct faults *faults, uint8_t to, const uint8_t *bytes, size_t len) {
    uint8_t own = faults->links->own, kind = bytes[len - WEDERBURH_TRAILER];
    links_send(faults->links, own, to, bytes, len);
    links_send(faults->links, own, to, bytes, len);
    if (kind == WEDERBURH_OBSERVE) send_other_value(faults, to, bytes, len);
}

/* Every check of a delivery finds something to refuse here, and so does the link. */
static void send_damaged(struct faults *faults, uint8_t to, const uint8_t *bytes, size_t len) {
    uint8_t damaged[PAYLOAD], as = faults->links->own, other = (uint8_t)(as % faults->links->n + 1);
    uint8_t *trailer = damaged + len - WEDERBURH_TRAILER;
    memcpy(damaged, bytes, len);
    switch (random_below(&faults->links->random, 9)) {
    case 0: trailer[-1] ^= 1; break;            /* the last signature, in a body that has one */
    case 1: trailer[3] ^= 2; break;             /* version */
    case 2: trailer[0] = 9; break;              /* kind */
    case 3: trailer[1] = other; break;          /* sender */
    case 4: trailer[7] -= 1; break;             /* body length: a byte before the body */
    case 5: memset(trailer + 4, 255, 4); break; /* body length above the slice */
    case 6: memset(damaged, 0, 4); break;       /* epoch 0 */
    case 7: len = 10; break;                    /* too short for a trailer */
    default: as = other;                        /* a datagram under another member's number */
    }
    links_send(faults->links, as, to, damaged, len);
}

void faults_send(struct faults *faults, uint8_t to, const uint8_t *frame, size_t len) {
    if (to == faults->links->own || !(faults->conduct & (TWICE | GARBAGE)))
        links_send(faults->links, faults->links->own, to, frame, len);
    else if (faults->conduct & GARBAGE)
        send_damaged(faults, to, frame, len);
    else
        send_twice(faults, to, frame, len);
}

/* The report with no more than its first 2f observations; its new length. */
static size_t cut_list(uint8_t *report, size_t len, uint8_t f) {
    size_t list = 6 + 9 * (size_t)report[5], shorter = 6 + 9 * 2 * (size_t)f;
    if (f == 0 || shorter >= list) return len;
    memmove(report + shorter, report + list, len - list);
    report[5] = (uint8_t)(2 * f);
    return len - (list - shorter);
}

static void submit_damaged(struct faults *faults, const uint8_t *report, size_t len) {
    uint8_t damaged[PAYLOAD];
    memcpy(damaged, report, len);
    switch (random_below(&faults->links->random, 6)) {
    case 0: damaged[len - 1] ^= 1; break;                      /* the last signature */
    case 1: len = cut_list(damaged, len, faults->f); break;    /* too few observations */
    case 2: write_number(damaged + 7, 8, INT64_MAX); break;    /* a value below the one before it */
    case 3: memcpy(damaged + 15, damaged + 6, 9); break;       /* a member observed twice */
    case 4: damaged[4] = 0; break;                             /* round 0 */
    default: len -= 1;                                         /* not a FINAL body's length */
    }
    links_send(faults->links, faults->links->own, CONTRACT, damaged, len);
}

void faults_handed(struct faults *faults, const uint8_t *report, size_t len) {
    uint8_t own = faults->links->own;
    if (faults->conduct & GARBAGE) submit_damaged(faults, report, len);
    if (!(faults->conduct & TWICE)) return;
    links_send(faults->links, own, CONTRACT, report, len);
    links_send(faults->links, own, CONTRACT, report, len);
}
