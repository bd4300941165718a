/* What a run prints: each published median with what is behind it, and at the end what was refused. */
#ifndef FEED_SHOW_H
#define FEED_SHOW_H

#include "events.h"
#include "keys.h"
#include "old_test.h"
#include "options.h"

#define ROUNDS 64
#define CODES (WEDERBURH_QUEUE + 1)

/* What the hosts have told about one round. */
struct round {
    uint32_t epoch; /* 0: a free place */
    uint8_t round;
    bool published;
    bool quoted[PARTIES]; /* by member number: what each signed, .. */
    int64_t quotes[PARTIES];
    struct observation taken[WEDERBURH_MEMBERS]; /* .. and what the leader took, in this order */
    size_t count;
};

struct show {
    const struct options *options;
    uint64_t since; /* the start of the run */
    uint32_t epoch; /* the highest that a member has moved to */
    unsigned published;
    unsigned outside;  /* published medians that were not between sound quotes */
    unsigned captured; /* rounds in which the old test could have published a faulty member's wild quote */
    struct round rounds[ROUNDS]; /* the last ones */
    size_t next;
    unsigned refused[REFUSABLE][CODES][PARTIES];
};

void show_start(struct show *show, const struct options *options);
void show_line(const struct show *show, const char *form, ...) __attribute__((format(printf, 2, 3)));
void show_event(struct show *show, const struct event *event);
void show_refused(struct show *show, uint8_t what, uint8_t code, uint8_t party);

/* The contract has accepted this FINAL body. */
void show_published(struct show *show, const uint8_t *body, uint8_t transmitter, int64_t median);

void show_end(const struct show *show);

#endif
