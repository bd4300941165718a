#include "show.h"

#include <inttypes.h>
#include <stdarg.h>
#include <stdio.h>
#include <string.h>

#include "timers.h"

/* ---- lines */

void show_line(const struct show *show, const char *form, ...) {
    if (show->options->quiet) return;
    uint64_t passed = clock_now() - show->since;
    va_list values;
    va_start(values, form);
    printf("%3" PRIu64 ".%" PRIu64 " s  ", passed / 1000, passed / 100 % 10);
    vprintf(form, values);
    va_end(values);
    putchar('\n');
}

static const char *conduct_name(const struct options *options, uint8_t member) {
    uint8_t conduct = options->conduct[member];
    if (conduct & SILENT) return "silent";
    if (conduct & WILD) return "wild";
    if (conduct & GARBAGE) return "garbage";
    if (conduct & TWICE) return "twice";
    return "sound";
}

void show_start(struct show *show, const struct options *options) {
    unsigned faulty = 0;
    *show = (struct show){.options = options, .since = clock_now()};
    printf("n = %u, f = %u; faulty members:", options->n, options->f);
    for (uint8_t member = 1; member <= options->n; member++) {
        if (options_sound(options, member)) continue;
        printf("%s %u (%s)", faulty++ ? "," : "", member, conduct_name(options, member));
    }
    puts(faulty ? "" : " none");
    if (options->lose || options->repeat || options->reorder)
        printf("of the frames between members %u%% are lost, %u%% repeated, %u%% held back\n", options->lose,
               options->repeat, options->reorder);
    if (faulty > options->f) printf("more than f members are faulty: a published median may be anybody's\n");
    if (options_any(options, WILD) && options->f > 0)
        printf("Lines marked (old) are a calculation, no node with the old test is run: of the same observations, in the order in which\n"
               "the leader took them, the first %u pass \"at least 2f\", and are published if no more come before T_grace fires.\n",
               2u * options->f);
}

/* ---- what the hosts tell */

static struct round *round_of(struct show *show, uint32_t epoch, uint8_t round) {
    for (size_t i = 0; i < ROUNDS; i++)
        if (show->rounds[i].epoch == epoch && show->rounds[i].round == round) return &show->rounds[i];
    struct round *fresh = &show->rounds[show->next];
    show->next = (show->next + 1) % ROUNDS;
    *fresh = (struct round){.epoch = epoch, .round = round};
    return fresh;
}

/* The old test is asked as soon as it would have been content. */
static void take(struct show *show, const struct event *event) {
    struct round *round = round_of(show, event->epoch, event->round);
    struct observation median;
    if (round->count == WEDERBURH_MEMBERS) return;
    round->taken[round->count++] = (struct observation){event->value, event->whose};
    if (round->count == 2 * (size_t)show->options->f &&
        old_test(round->taken, round->count, show->options->f, &median) &&
        show->options->conduct[median.member] & WILD)
        show->captured++;
}

void show_refused(struct show *show, uint8_t what, uint8_t code, uint8_t party) {
    show->refused[what][code][party]++;
}

void show_event(struct show *show, const struct event *event) {
    struct round *round;
    switch (event->happened) {
    case STARTED:
        if (event->highest > 0)
            show_line(show, "member %u is restored from its record: epoch %" PRIu32 ", highest sent %" PRIu32, event->member,
                      event->epoch, event->highest);
        break;
    case MOVED:
        if (event->epoch <= show->epoch) break;
        show->epoch = event->epoch;
        show_line(show, "epoch %" PRIu32 " begins, led by member %" PRIu32, event->epoch, event->epoch % show->options->n + 1);
        break;
    case QUOTED:
        round = round_of(show, event->epoch, event->round);
        round->quoted[event->member] = true;
        round->quotes[event->member] = event->value;
        break;
    case TAKEN: take(show, event); break;
    default: show_refused(show, event->what, event->code, event->member);
    }
}

/* ---- a published median */

/* Whether the median lies between two quotes that sound members signed in this round. */
static bool between(const struct show *show, const struct round *round, int64_t median, int64_t *lowest, int64_t *highest) {
    *lowest = INT64_MAX;
    *highest = INT64_MIN;
    for (uint8_t member = 1; member <= show->options->n; member++) {
        if (!round->quoted[member] || !options_sound(show->options, member)) continue;
        if (round->quotes[member] < *lowest) *lowest = round->quotes[member];
        if (round->quotes[member] > *highest) *highest = round->quotes[member];
    }
    return *lowest <= median && median <= *highest;
}

static void print_observation(const struct show *show, uint8_t member, int64_t value) {
    printf("  %u: %" PRId64, member, value);
    if (!options_sound(show->options, member)) printf(" (%s)", conduct_name(show->options, member));
}

static void print_report(const struct show *show, const uint8_t *body) {
    size_t m = body[5], list = 6 + 9 * m;
    printf("         observations");
    for (size_t i = 0; i < m; i++)
        print_observation(show, body[6 + 9 * i], (int64_t)read_number(body + 7 + 9 * i, 8));
    printf("; signed by");
    for (size_t i = 0; i < body[list]; i++) printf(" %u", body[list + 1 + 65 * i]);
    putchar('\n');
}

/* What the old test could have published in the same round. */
static void print_old(const struct show *show, const struct round *round) {
    struct observation median;
    size_t enough = 2 * (size_t)show->options->f;
    if (!options_any(show->options, WILD) || !old_test(round->taken, round->count, show->options->f, &median)) return;
    printf("   (old) at least 2f: %" PRId64 ", the %s quote of member %u, from", median.value,
           show->options->conduct[median.member] & WILD ? "WILD" : "sound", median.member);
    for (size_t i = 0; i < enough; i++) print_observation(show, round->taken[i].member, round->taken[i].value);
    putchar('\n');
}

void show_published(struct show *show, const uint8_t *body, uint8_t transmitter, int64_t median) {
    struct round *round = round_of(show, body_epoch(body), body_round(body));
    int64_t lowest, highest;
    bool good = between(show, round, median, &lowest, &highest);
    round->published = true;
    show->published++;
    if (!good) show->outside++;
    if (show->options->quiet && good) return;
    show_line(show, "epoch %" PRIu32 " round %u: median %" PRId64 ", %s sound members' quotes, %" PRId64 " to %" PRId64 "; sent by %u",
              round->epoch, round->round, median, good ? "between" : "OUTSIDE", lowest, highest, transmitter);
    print_report(show, body);
    print_old(show, round);
}

/* ---- the end */

static const char *what_name(uint8_t what) {
    switch (what) {
    case NO_FRAME: return "no known kind";
    case A_TIMER: return "timer";
    case A_TRANSMISSION: return "transmission";
    case A_SUBMISSION: return "submission";
    case A_DATAGRAM: return "datagram";
    default: return kind_name(what);
    }
}

static const char *code_name(uint8_t what, uint8_t code) {
    static const char *const NAMES[CODES] = {"",        "IGNORED", "STATE", "ROOM",   "SHORT", "VERSION", "KIND",
                                             "SENDER",  "LENGTH",  "RANGE", "PROOF",  "END",   "CONFIG",  "OLD",
                                             "FEW",     "ORDER",   "TWICE", "SIGNERS", "FUNDS", "SIMILAR", "QUEUE"};
    return what == A_DATAGRAM ? "forged" : NAMES[code];
}

static void print_count(unsigned count, int width) {
    if (count == 0)
        printf("%*s", width, ".");
    else
        printf("%*u", width, count);
}

static void print_refused(const struct show *show, uint8_t what, uint8_t code) {
    const unsigned *counts = show->refused[what][code];
    unsigned sum = 0;
    for (uint8_t party = 0; party <= show->options->n; party++) sum += counts[party];
    if (sum == 0) return;
    printf("  %-13s  %-10s", what_name(what), code_name(what, code));
    for (uint8_t party = 1; party <= show->options->n; party++) print_count(counts[party], 5);
    print_count(counts[CONTRACT], 9);
    putchar('\n');
}

/* Rounds in which just 2f observations came: the old test would have published, and the node did not. */
static void print_short_rounds(const struct show *show) {
    for (size_t i = 0; i < ROUNDS; i++) {
        const struct round *round = &show->rounds[i];
        if (round->epoch == 0 || round->published || round->count != 2 * (size_t)show->options->f) continue;
        printf("epoch %" PRIu32 " round %u published nothing: no more than 2f = %zu observations came\n", round->epoch, round->round,
               round->count);
        print_old(show, round);
    }
}

void show_end(const struct show *show) {
    if (!show->options->quiet) print_short_rounds(show);
    printf("  refused                by");
    for (uint8_t party = 1; party <= show->options->n; party++) printf("%5u", party);
    printf(" contract\n");
    for (uint8_t what = 0; what < REFUSABLE; what++)
        for (uint8_t code = 0; code < CODES; code++) print_refused(show, what, code);
    printf("%u medians published, %u of them outside the quotes of sound members\n", show->published, show->outside);
    if (options_any(show->options, WILD) && show->options->f > 0)
        printf("(old) \"at least 2f\" could have published a wild quote in %u rounds\n", show->captured);
}
