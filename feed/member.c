#include "member.h"

#include <poll.h>
#include <stdio.h>
#include <stdlib.h>
#include <string.h>
#include <unistd.h>

#include "events.h"
#include "faults.h"
#include "prices.h"
#include "record.h"
#include "timers.h"

/* Milliseconds that a frame between two members may take. */
#define DELAY 15

struct member {
    struct network *network;
    uint8_t own;
    struct wederburh_lent_node node;
    struct wederburh_lent_sender sender;
    struct record saved; /* as it stands on the disk */
    char path[128];
    struct timers timers;
    struct links links;
    struct faults faults;
    uint8_t outbox[WEDERBURH_OUTBOX];
    uint8_t kept[WEDERBURH_KEPT];
    uint8_t signatures[WEDERBURH_SIGNATURES];
    uint8_t waiting[WEDERBURH_WAITING];
    /* the FINAL body that was checked last, and its verdicts */
    uint8_t checked[WEDERBURH_KEPT];
    size_t checked_len;
    uint64_t checked_bits;
};

static void tell(struct member *member, struct event event) {
    event.member = member->own;
    if (!event_tell(member->network->watched, &event)) exit(GOOD);
}

static void tell_refused(struct member *member, uint8_t what, uint8_t code) {
    tell(member, (struct event){.happened = REFUSED, .what = what, .code = code});
}

/* ---- frames that leave */

static void send_frame(struct member *member, struct frame *frame, uint8_t *bytes, size_t len) {
    const struct wederburh_config *config = &member->node.node.config;
    uint8_t leader = WEDERBURH_LEADER(config->n, member->node.node.pace.epoch);
    bool own_signature = frame->kind == WEDERBURH_OBSERVE || frame->kind == WEDERBURH_REPORT;
    if (own_signature) keys_sign(&member->network->keys, member->own, config->number, frame, bytes);
    if (frame->kind == WEDERBURH_OBSERVE)
        tell(member, (struct event){.happened = QUOTED,
                                    .epoch = body_epoch(bytes),
                                    .round = body_round(bytes),
                                    .value = (int64_t)read_number(bytes + 5, 8)});
    for (uint8_t to = 1; to <= config->n; to++) {
        /* the two kinds that carry an own signature are the two that go to the leader alone */
        if (!own_signature || to == leader) faults_send(&member->faults, to, bytes, len);
    }
}

/* The frames that a call wrote, oldest first; they are found from the last one back, by their trailers. */
static void send_frames(struct member *member, size_t written) {
    struct frame frame;
    if (!frame_last(member->outbox, written, &frame)) return;
    size_t start = written - WEDERBURH_TRAILER - frame.len;
    send_frames(member, start);
    send_frame(member, &frame, member->outbox + start, written - start);
}

/* ---- reports on their way to the contract */

static void set_transmit(struct member *member, uint64_t now) {
    const struct wederburh_sender_outcome *outcome = &member->sender.outcome;
    if (outcome->transmit == WEDERBURH_START) member->timers.due[TRANSMIT] = now + outcome->milliseconds;
    if (outcome->transmit == WEDERBURH_STOP) member->timers.due[TRANSMIT] = NEVER;
}

static void transmit(struct member *member, const uint8_t *body, size_t len, uint64_t now) {
    uint8_t places[WEDERBURH_MEMBERS], n = member->sender.sender.config.n;
    keys_order(&member->network->keys, n, body_epoch(body), body_round(body), places);
    member->sender.commit = member->node.commit;
    uint8_t code = wederburh_sender_transmit(&member->sender, body, len, now, places, n,
                                             member->waiting, sizeof member->waiting);
    if (code != WEDERBURH_DONE) tell_refused(member, A_TRANSMISSION, code);
    set_transmit(member, now);
}

static void transmit_now(struct member *member, uint64_t now) {
    member->sender.commit = member->node.commit;
    uint8_t code = wederburh_sender_timeout(&member->sender, now, member->waiting, sizeof member->waiting);
    if (code != WEDERBURH_DONE) tell_refused(member, A_TIMER, code);
    set_transmit(member, now);
    const struct wederburh_sender_outcome *outcome = &member->sender.outcome;
    if (outcome->len > 0)
        links_send(&member->links, member->own, CONTRACT, member->waiting + outcome->start, outcome->len);
}

/* ---- calls of the node */

/* The record comes first: a frame that left before it could be contradicted by a restored node. */
static void save(struct member *member) {
    const struct wederburh_pace *pace = &member->node.node.pace;
    if (pace->epoch == member->saved.epoch && pace->highest == member->saved.highest) return;
    if (pace->epoch != member->saved.epoch) tell(member, (struct event){.happened = MOVED, .epoch = pace->epoch});
    member->saved = (struct record){pace->epoch, pace->highest};
    if (record_save(member->path, member->saved)) return;
    perror(member->path);
    exit(BROKEN);
}

/* What a call asks of the host. `arrived` is the frame that was delivered, if one was. */
static void settle(struct member *member, uint8_t what, const uint8_t *arrived, uint64_t now) {
    const struct wederburh_node_outcome *outcome = &member->node.outcome;
    if (outcome->answer != WEDERBURH_DONE) {
        tell_refused(member, what, outcome->answer);
        return;
    }
    save(member);
    timers_then(&member->timers, WEDERBURH_RESEND, outcome->resend, now);
    timers_then(&member->timers, WEDERBURH_PROGRESS, outcome->progress, now);
    timers_then(&member->timers, WEDERBURH_ROUND, outcome->round, now);
    timers_then(&member->timers, WEDERBURH_GRACE, outcome->grace, now);
    send_frames(member, outcome->written);
    if (outcome->len == 0) return;
    const uint8_t *report = (outcome->held ? member->kept : arrived) + outcome->start;
    faults_handed(&member->faults, report, outcome->len);
    transmit(member, report, outcome->len, now);
}

/* The own observation is read when the leader asks for it. A request of another epoch will be refused and needs none. */
static void observe(struct member *member, const struct frame *frame) {
    if (frame->kind != WEDERBURH_OBSERVE_REQ || frame->len != 5) return;
    uint32_t epoch = body_epoch(frame->body);
    if (epoch != member->node.node.pace.epoch) return;
    member->node.observation = prices_quote(&member->network->options, member->own, epoch, body_round(frame->body));
}

/* Each member echoes the same body as a rule, so one that was just checked is not checked again: nothing but its body decides. */
static uint64_t verdicts(struct member *member, const struct frame *frame) {
    const struct wederburh_config *config = &member->node.node.config;
    bool report = frame->kind == WEDERBURH_FINAL || frame->kind == WEDERBURH_FINAL_ECHO;
    if (report && frame->len == member->checked_len && memcmp(frame->body, member->checked, frame->len) == 0)
        return member->checked_bits;
    uint64_t bits = keys_verdicts(&member->network->keys, config->n, config->number, frame);
    if (report && frame->len <= sizeof member->checked) {
        memcpy(member->checked, frame->body, frame->len);
        member->checked_len = frame->len;
        member->checked_bits = bits;
    }
    return bits;
}

static void deliver(struct member *member, uint8_t from, const uint8_t *bytes, size_t len) {
    struct frame frame = {.kind = NO_FRAME};
    uint64_t bits = 0, now = clock_now();
    if (frame_last(bytes, len, &frame)) {
        bits = verdicts(member, &frame);
        observe(member, &frame);
    }
    uint8_t code = wederburh_node_deliver(&member->node, from, now, bits, bytes, len, member->outbox,
                                          sizeof member->outbox, 0, member->kept, sizeof member->kept,
                                          member->signatures, sizeof member->signatures);
    if (code == WEDERBURH_DONE && frame.kind == WEDERBURH_OBSERVE)
        tell(member, (struct event){.happened = TAKEN,
                                    .whose = frame.sender,
                                    .epoch = body_epoch(frame.body),
                                    .round = body_round(frame.body),
                                    .value = (int64_t)read_number(frame.body + 5, 8)});
    settle(member, frame.kind <= WEDERBURH_FINAL_ECHO ? frame.kind : NO_FRAME, bytes, now);
}

static void fire(struct member *member, int timer, uint64_t now) {
    if (timer == TRANSMIT) {
        transmit_now(member, now);
        return;
    }
    wederburh_node_timer(&member->node, (uint8_t)timer, now, member->outbox, sizeof member->outbox, 0, member->kept,
                         sizeof member->kept, member->signatures, sizeof member->signatures);
    settle(member, A_TIMER, NULL, now);
}

/* ---- the contract's word */

static void read_commit(struct member *member, const uint8_t *bytes, size_t len) {
    if (len != 21) return;
    struct wederburh_commit *commit = &member->node.commit;
    uint64_t read = read_number(bytes, 5), known = (uint64_t)commit->epoch << 8 | commit->round;
    if (read <= known) return;
    *commit = (struct wederburh_commit){.epoch = body_epoch(bytes),
                                        .round = body_round(bytes),
                                        .median = (int64_t)read_number(bytes + 5, 8),
                                        .time = read_number(bytes + 13, 8)};
}

static void receive(struct member *member) {
    uint8_t from, payload[PAYLOAD];
    size_t len;
    enum received received = links_receive(&member->links, &from, payload, &len);
    if (received == FORGED) tell_refused(member, A_DATAGRAM, 0);
    if (received != RECEIVED) return;
    if (from == CONTRACT)
        read_commit(member, payload, len);
    else
        deliver(member, from, payload, len);
}

/* ---- the start, and the loop */

static void open_links(struct member *member) {
    const struct network *network = member->network;
    const struct options *options = &network->options;
    struct links *links = &member->links;
    links->socket = network->sockets[member->own];
    links->own = member->own;
    links->n = options->n;
    for (uint8_t party = 0; party <= options->n; party++) {
        links->addresses[party] = network->addresses[party];
        /* who wants to be among the first 2f sees to it that its links are quick */
        links->delay[party] = (options->conduct[member->own] | options->conduct[party]) & WILD ? 0 : DELAY;
    }
    links->lose = options->lose;
    links->repeat = options->repeat;
    links->reorder = options->reorder;
    links->random = random_from(options->seed, UINT64_C(1000) + member->own);
    links_agree(links, &network->keys);
}

/* What was sent to a member while it was stopped is lost, as on a network. */
static void forget_arrived(struct member *member) {
    uint8_t from, payload[PAYLOAD];
    size_t len;
    while (links_receive(&member->links, &from, payload, &len) != NOTHING) {
    }
}

/* A node and a sender, the node from the record if there is one. */
static void make(struct member *member) {
    struct wederburh_config config = member->network->config;
    config.own = member->own;
    member->node.node.config = config;
    member->sender.sender.config = config;
    bool restored = record_load(member->path, &member->saved);
    uint8_t code = restored ? wederburh_node_restore(&member->node, member->saved.epoch, member->saved.highest)
                            : wederburh_node_fresh(&member->node);
    if (code == WEDERBURH_DONE) code = wederburh_sender_fresh(&member->sender);
    if (restored) forget_arrived(member);
    if (code != WEDERBURH_DONE) {
        fprintf(stderr, "feed: member %u cannot be made: code %u\n", member->own, code);
        exit(BROKEN);
    }
    tell(member, (struct event){.happened = STARTED, .epoch = member->saved.epoch, .highest = member->saved.highest});
}

static void begin(struct member *member) {
    uint64_t now = clock_now();
    /* an empty word to the contract asks for its last commit */
    links_send(&member->links, member->own, CONTRACT, member->outbox, 0);
    wederburh_node_start(&member->node, now, member->outbox, sizeof member->outbox, 0, member->kept,
                         sizeof member->kept, member->signatures, sizeof member->signatures);
    settle(member, A_TIMER, NULL, now);
}

/* Sends what is due, fires what is due, and says how long nothing else will be. */
static int work(struct member *member) {
    uint64_t now = clock_now(), next;
    int timer;
    while ((timer = timers_fired(&member->timers, now)) >= 0) fire(member, timer, now);
    next = links_release(&member->links, now);
    if (timers_next(&member->timers) < next) next = timers_next(&member->timers);
    now = clock_now();
    if (next <= now) return 0;
    return next - now < 200 ? (int)(next - now) : 200;
}

_Noreturn void member_run(struct network *network, uint8_t own) {
    static struct member member;
    pid_t parent = getppid();
    member.network = network;
    member.own = own;
    member.timers = timers_none(network->options.n);
    member.faults = (struct faults){.conduct = network->options.conduct[own],
                                    .links = &member.links,
                                    .keys = &network->keys,
                                    .configuration = network->config.number,
                                    .f = network->config.f};
    snprintf(member.path, sizeof member.path, "%s/member-%u", network->folder, own);
    keys_keep(&network->keys, own, network->options.n);
    open_links(&member);
    make(&member);
    begin(&member);
    while (getppid() == parent) {
        struct pollfd ready = {.fd = member.links.socket, .events = POLLIN};
        if (poll(&ready, 1, work(&member)) > 0) receive(&member);
    }
    exit(GOOD);
}
