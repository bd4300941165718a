/* Runs the benchmark's events through the boundary, on the proved archive and on the plain one.
 *
 * harness EVENTS list    prints a line for each event: its number, n, its name
 * harness EVENTS check   compares each answer, struct and buffer with what reference/rules gave
 * harness EVENTS count   runs each call once, between call_begins() and call_ends(): for a counter of instructions
 * harness EVENTS stack   prints the bytes of stack that each call took, in lines: event, side, bytes
 * harness EVENTS time    prints the nanoseconds of each call, the median of many, in lines: event, side, nanoseconds */
#include "../include/wederburh.h"

#include <stdio.h>
#include <stdlib.h>
#include <string.h>
#include <time.h>

/* ---- the two sides */

#define CALLS(P)                                                                                                       \
    uint8_t P##_node_fresh(struct wederburh_lent_node *);                                                              \
    uint8_t P##_node_restore(struct wederburh_lent_node *, uint32_t, uint32_t);                                        \
    uint8_t P##_node_start(struct wederburh_lent_node *, uint64_t, uint8_t *, size_t, size_t, const uint8_t *, size_t, \
                           const uint8_t *, size_t);                                                                   \
    uint8_t P##_node_deliver(struct wederburh_lent_node *, uint8_t, uint64_t, uint64_t, const uint8_t *, size_t,       \
                             uint8_t *, size_t, size_t, uint8_t *, size_t, uint8_t *, size_t);                         \
    uint8_t P##_node_timer(struct wederburh_lent_node *, uint8_t, uint64_t, uint8_t *, size_t, size_t,                 \
                           const uint8_t *, size_t, uint8_t *, size_t);                                                \
    uint8_t P##_sender_fresh(struct wederburh_lent_sender *);                                                          \
    uint8_t P##_sender_transmit(struct wederburh_lent_sender *, const uint8_t *, size_t, uint64_t, const uint8_t *,    \
                                size_t, uint8_t *, size_t);                                                            \
    uint8_t P##_sender_timeout(struct wederburh_lent_sender *, uint64_t, const uint8_t *, size_t);                     \
    uint8_t P##_contract_fresh(struct wederburh_lent_contract *);                                                      \
    uint8_t P##_contract_submit(struct wederburh_lent_contract *, const uint8_t *, size_t, uint8_t, uint64_t,          \
                                uint64_t);                                                                             \
    uint8_t P##_contract_deposit(struct wederburh_lent_contract *, uint64_t);                                          \
    uint8_t P##_contract_withdraw(struct wederburh_lent_contract *, uint8_t);

CALLS(wederburh)
CALLS(plain)

struct side {
    const char *name;
    __typeof__(wederburh_node_fresh) *node_fresh;
    __typeof__(wederburh_node_restore) *node_restore;
    __typeof__(wederburh_node_start) *node_start;
    __typeof__(wederburh_node_deliver) *node_deliver;
    __typeof__(wederburh_node_timer) *node_timer;
    __typeof__(wederburh_sender_fresh) *sender_fresh;
    __typeof__(wederburh_sender_transmit) *sender_transmit;
    __typeof__(wederburh_sender_timeout) *sender_timeout;
    __typeof__(wederburh_contract_fresh) *contract_fresh;
    __typeof__(wederburh_contract_submit) *contract_submit;
    __typeof__(wederburh_contract_deposit) *contract_deposit;
    __typeof__(wederburh_contract_withdraw) *contract_withdraw;
};

#define SIDE(P)                                                                                                    \
    {                                                                                                              \
        #P, P##_node_fresh, P##_node_restore, P##_node_start, P##_node_deliver, P##_node_timer, P##_sender_fresh,  \
            P##_sender_transmit, P##_sender_timeout, P##_contract_fresh, P##_contract_submit, P##_contract_deposit, \
            P##_contract_withdraw                                                                                  \
    }

static const struct side sides[2] = {SIDE(wederburh), SIDE(plain)};

/* ---- events, as bench/events writes them */

enum { NAME = 48, NUMBERS = 4, READ = 2, LENT = 4, MOST = 20000, LONGEST = 65536 };

struct part {
    uint64_t len;
    const uint8_t *bytes;
};

struct event {
    const char *name;
    uint64_t n, call, numbers[NUMBERS];
    struct part read[READ], before[LENT], after[LENT];
};

static struct event events[MOST];
static size_t event_count;

static uint64_t take_number(const uint8_t **at) {
    uint64_t x;
    memcpy(&x, *at, 8);
    *at += 8;
    return x;
}

static struct part take_part(const uint8_t **at) {
    struct part p;
    p.len = take_number(at);
    p.bytes = *at;
    *at += p.len;
    return p;
}

static void take_event(const uint8_t **at, struct event *e) {
    e->name = (const char *)*at;
    *at += NAME;
    e->n = take_number(at);
    e->call = take_number(at);
    for (int i = 0; i < NUMBERS; i++) e->numbers[i] = take_number(at);
    for (int i = 0; i < READ; i++) e->read[i] = take_part(at);
    for (int i = 0; i < LENT; i++) {
        e->before[i] = take_part(at);
        e->after[i] = take_part(at);
    }
}

static void load(const char *path) {
    FILE *file = fopen(path, "rb");
    if (!file || fseek(file, 0, SEEK_END)) exit(2);
    long size = ftell(file);
    uint8_t *bytes = malloc(size);
    rewind(file);
    if (!bytes || fread(bytes, 1, size, file) != (size_t)size) exit(2);
    fclose(file);
    const uint8_t *at = bytes;
    while (at < bytes + size) {
        if (event_count == MOST) exit(2);
        take_event(&at, &events[event_count++]);
    }
}

/* ---- a call */

/* what the host lends: the struct, then the buffers in the order of the header */
static _Alignas(64) uint8_t lent[LENT][LONGEST];

static void restore(const struct event *e) {
    for (int i = 0; i < LENT; i++) memcpy(lent[i], e->before[i].bytes, e->before[i].len);
}

static __attribute__((noinline)) uint8_t run_call(const struct side *s, const struct event *e) {
    const uint64_t *x = e->numbers;
    const struct part *r = e->read, *b = e->before;
    void *l = lent[0];
    switch (e->call) {
    case 0: return s->node_fresh(l);
    case 1: return s->node_restore(l, x[0], x[1]);
    case 2: return s->node_start(l, x[0], lent[1], b[1].len, x[1], lent[2], b[2].len, lent[3], b[3].len);
    case 3:
        return s->node_deliver(l, x[0], x[1], x[2], r[0].bytes, r[0].len, lent[1], b[1].len, x[3], lent[2], b[2].len,
                               lent[3], b[3].len);
    case 4: return s->node_timer(l, x[0], x[1], lent[1], b[1].len, x[2], lent[2], b[2].len, lent[3], b[3].len);
    case 5: return s->sender_fresh(l);
    case 6: return s->sender_transmit(l, r[0].bytes, r[0].len, x[0], r[1].bytes, r[1].len, lent[1], b[1].len);
    case 7: return s->sender_timeout(l, x[0], lent[1], b[1].len);
    case 8: return s->contract_fresh(l);
    case 9: return s->contract_submit(l, r[0].bytes, r[0].len, x[0], x[1], x[2]);
    case 10: return s->contract_deposit(l, x[0]);
    default: return s->contract_withdraw(l, x[0]);
    }
}

/* ---- check */

/* where a struct has padding: behind a field, up to the next */
#define GAP(T, FIELD, END) \
    memset((uint8_t *)l + offsetof(T, FIELD) + sizeof(((T *)0)->FIELD), 0, \
           (END) - offsetof(T, FIELD) - sizeof(((T *)0)->FIELD))

static void clear_node(struct wederburh_lent_node *l) {
    typedef struct wederburh_lent_node T;
    GAP(T, node.config.schedule, offsetof(T, node.pace));
    GAP(T, node.pace.resend, offsetof(T, node.follower));
    GAP(T, node.follower.marks, offsetof(T, node.leader));
    GAP(T, node.leader.t_grace, offsetof(T, commit));
    GAP(T, commit.round, offsetof(T, observation));
    GAP(T, outcome.answer, sizeof(T));
}

static void clear_sender(struct wederburh_lent_sender *l) {
    typedef struct wederburh_lent_sender T;
    GAP(T, sender.config.schedule, offsetof(T, sender.accepted));
    GAP(T, sender.accepted.round, offsetof(T, sender.times));
    GAP(T, commit.round, offsetof(T, outcome));
    GAP(T, outcome.answer, sizeof(T));
}

static void clear_contract(struct wederburh_lent_contract *l) {
    typedef struct wederburh_lent_contract T;
    GAP(T, contract.commit.round, offsetof(T, contract.terms));
    GAP(T, contract.terms.f, offsetof(T, outcome));
    GAP(T, outcome.answer, sizeof(T));
}

static uint8_t answer_of(uint64_t call) {
    if (call < 5) return ((struct wederburh_lent_node *)lent[0])->outcome.answer;
    if (call < 8) return ((struct wederburh_lent_sender *)lent[0])->outcome.answer;
    return ((struct wederburh_lent_contract *)lent[0])->outcome.answer;
}

static void clear_padding(uint64_t call) {
    if (call < 5)
        clear_node((void *)lent[0]);
    else if (call < 8)
        clear_sender((void *)lent[0]);
    else
        clear_contract((void *)lent[0]);
}

static int as_expected(const struct side *s, const struct event *e) {
    restore(e);
    uint8_t code = run_call(s, e);
    clear_padding(e->call);
    int same = code == answer_of(e->call);
    for (int k = 0; k < LENT; k++) same &= !memcmp(lent[k], e->after[k].bytes, e->after[k].len);
    if (!same) fprintf(stderr, "%s: %s, n = %d: not what reference/rules gives\n", s->name, e->name, (int)e->n);
    return same;
}

static int check(void) {
    int same = 1;
    for (size_t i = 0; i < event_count; i++)
        for (int s = 0; s < 2; s++) same &= as_expected(&sides[s], &events[i]);
    return !same;
}

/* ---- count */

/* an emulator's log shows them by their places; callgrind collects between them, and writes a file for each call */
#if __has_include(<valgrind/callgrind.h>)
#include <valgrind/callgrind.h>
__attribute__((noinline)) void call_begins(void) { CALLGRIND_TOGGLE_COLLECT; }

__attribute__((noinline)) void call_ends(void) {
    CALLGRIND_TOGGLE_COLLECT;
    CALLGRIND_DUMP_STATS;
}
#else
__attribute__((noinline)) void call_begins(void) { __asm__ volatile(""); }

__attribute__((noinline)) void call_ends(void) { __asm__ volatile("nop"); }
#endif

static void count(void) {
    for (size_t i = 0; i < event_count; i++)
        for (int s = 0; s < 2; s++) {
            restore(&events[i]);
            call_begins();
            run_call(&sides[s], &events[i]);
            call_ends();
        }
}

/* ---- stack */

enum { DEEP = 60000, COLOUR = 0xC7, MARGIN = 256 };

/* stands for every call where the stack of the caller itself is measured */
static uint8_t nothing(void) { return 0; }

static __attribute__((noinline)) uint8_t *paint(void) {
    uint8_t *low = (uint8_t *)__builtin_frame_address(0) - DEEP;
    for (volatile uint8_t *p = low; p < low + DEEP - MARGIN; p++) *p = COLOUR;
    return low;
}

/* its room lies over what paint() could not colour */
static __attribute__((noinline)) void run_below(const struct side *s, const struct event *e) {
    volatile uint8_t room[2 * MARGIN];
    room[0] = 0;
    run_call(s, e);
    room[1] = room[0];
}

static __attribute__((noinline)) size_t depth(const struct side *s, const struct event *e) {
    restore(e);
    volatile uint8_t *low = paint();
    run_below(s, e);
    size_t free = 0;
    while (low[free] == COLOUR) free++;
    return DEEP - free;
}

static void stack(void) {
    struct side empty;
    uint8_t (*calls[sizeof(struct side) / sizeof(void *)])(void);
    for (size_t k = 0; k < sizeof(calls) / sizeof(calls[0]); k++) calls[k] = nothing;
    memcpy(&empty, calls, sizeof(empty));
    for (size_t i = 0; i < event_count; i++)
        for (int s = 0; s < 2; s++)
            printf("%zu %s %zu\n", i, sides[s].name, depth(&sides[s], &events[i]) - depth(&empty, &events[i]));
}

/* ---- time */

enum { TIMES = 2001 };

static int by_size(const void *a, const void *b) {
    long x = *(const long *)a, y = *(const long *)b;
    return (x > y) - (x < y);
}

static long median_time(const struct side *s, const struct event *e) {
    static long took[TIMES];
    for (int k = 0; k < TIMES; k++) {
        struct timespec from, to;
        restore(e);
        clock_gettime(CLOCK_MONOTONIC, &from);
        if (s) run_call(s, e);
        clock_gettime(CLOCK_MONOTONIC, &to);
        took[k] = (to.tv_sec - from.tv_sec) * 1000000000 + to.tv_nsec - from.tv_nsec;
    }
    qsort(took, TIMES, sizeof(took[0]), by_size);
    return took[TIMES / 2];
}

static void times(void) {
    long clock = median_time(NULL, &events[0]);
    for (size_t i = 0; i < event_count; i++)
        for (int s = 0; s < 2; s++) printf("%zu %s %ld\n", i, sides[s].name, median_time(&sides[s], &events[i]) - clock);
}

int main(int argc, char **argv) {
    if (argc != 3) return 2;
    /* calls find the stack at the same place of a page in every run: the steps of memcpy depend on it */
    volatile uint8_t *page = __builtin_alloca((uintptr_t)__builtin_frame_address(0) % 4096 + 16);
    page[0] = 0;
    load(argv[1]);
    if (!strcmp(argv[2], "check")) return check();
    if (!strcmp(argv[2], "count")) count();
    if (!strcmp(argv[2], "stack")) stack();
    if (!strcmp(argv[2], "time")) times();
    if (!strcmp(argv[2], "list"))
        for (size_t i = 0; i < event_count; i++) printf("%zu %d %s\n", i, (int)events[i].n, events[i].name);
    return 0;
}
