#include "network.h"

#include <fcntl.h>
#include <poll.h>
#include <signal.h>
#include <stdio.h>
#include <stdlib.h>
#include <string.h>
#include <sys/wait.h>
#include <unistd.h>

#include "contract.h"
#include "member.h"
#include "timers.h"

/* ---- what all agree on */

/* All members send in the end, the first after one stage, f more after two, the rest after three. */
static void set_schedule(struct wederburh_config *config) {
    uint8_t rest = (uint8_t)(config->n - 1 - config->f);
    config->schedule[config->stages++] = 1;
    if (config->f > 0) config->schedule[config->stages++] = config->f;
    if (rest > 0) config->schedule[config->stages++] = rest;
}

static struct wederburh_config agreed(const struct options *options) {
    struct wederburh_config config = {
        .number = 20260,
        .delta_c = 3000u * timers_slower(options->n),
        .delta_stage = 60u * timers_slower(options->n),
        .alpha = 500000, /* 0.05 percent: 10 cents of 20,000 */
        .n = options->n,
        .f = options->f,
        .own = 1,
        .r_max = 4,
    };
    if (options->n > options->f) set_schedule(&config);
    return config;
}

/* The configuration's bounds are the node's to judge. */
static bool good_config(const struct wederburh_config *config) {
    struct wederburh_lent_node lent;
    memset(&lent, 0, sizeof lent);
    lent.node.config = *config;
    if (wederburh_node_fresh(&lent) == WEDERBURH_DONE) return true;
    fprintf(stderr, "feed: %u members of whom %u may be faulty: no configuration (1 to %d members, 3f < n)\n", config->n,
            config->f, WEDERBURH_MEMBERS);
    return false;
}

/* ---- members as processes */

static bool start_member(struct network *network, uint8_t member) {
    if (network->members[member] != 0) return true;
    fflush(stdout);
    pid_t pid = fork();
    if (pid == 0) {
        for (uint8_t party = 0; party <= network->options.n; party++)
            if (party != member) close(network->sockets[party]);
        close(network->watching);
        member_run(network, member);
    }
    network->members[member] = pid > 0 ? pid : 0;
    return pid > 0;
}

/* As a power cut would: nothing is saved that was not. */
static void stop_member(struct network *network, uint8_t member) {
    if (network->members[member] == 0) return;
    kill(network->members[member], SIGKILL);
    waitpid(network->members[member], NULL, 0);
    network->members[member] = 0;
}

/* Stops and restores whom the options name, when it is time. */
static bool stops_due(struct network *network, const struct show *show, uint64_t before, uint64_t now) {
    for (size_t i = 0; i < network->options.stop_count; i++) {
        const struct stop *stop = &network->options.stops[i];
        if (network->options.conduct[stop->member] & SILENT) continue;
        if (before <= stop->from && stop->from < now) {
            stop_member(network, stop->member);
            show_line(show, "member %u is stopped", stop->member);
        }
        if (before <= stop->until && stop->until < now && !start_member(network, stop->member)) return false;
    }
    return true;
}

/* A member that ended by itself: its host could not go on. */
static bool all_alive(struct network *network) {
    for (uint8_t member = 1; member <= network->options.n; member++) {
        if (network->members[member] == 0 || waitpid(network->members[member], NULL, WNOHANG) == 0) continue;
        network->members[member] = 0;
        return false;
    }
    return true;
}

/* ---- the run */

static bool open_network(struct network *network, const struct options *options) {
    int ends[2];
    *network = (struct network){.options = *options, .config = agreed(options), .folder = "records-XXXXXX"};
    if (!good_config(&network->config)) return false;
    keys_make(&network->keys, options->n);
    for (uint8_t party = 0; party <= options->n; party++)
        if ((network->sockets[party] = links_socket(&network->addresses[party])) < 0) return false;
    if (pipe(ends) != 0 || !mkdtemp(network->folder)) return false;
    network->watching = ends[0];
    network->watched = ends[1];
    return fcntl(network->watching, F_SETFL, O_NONBLOCK) == 0;
}

static void close_network(struct network *network) {
    char path[128];
    for (uint8_t party = 0; party <= network->options.n; party++) {
        snprintf(path, sizeof path, "%s/member-%u", network->folder, party);
        unlink(path);
        close(network->sockets[party]);
    }
    rmdir(network->folder);
    close(network->watching);
    close(network->watched);
    sodium_memzero(&network->keys, sizeof network->keys);
}

static void watch(const struct network *network, struct show *show) {
    struct event event;
    while (event_next(network->watching, &event)) show_event(show, &event);
}

/* Until enough is published or time is over. What led to a submission was told before it, so events are read first. */
static bool serve(struct network *network, struct contract *contract, struct show *show) {
    uint64_t before = 0, now = 0;
    while (show->published < network->options.medians && now < network->options.seconds * UINT64_C(1000)) {
        struct pollfd ready[] = {{.fd = network->watching, .events = POLLIN},
                                 {.fd = network->sockets[CONTRACT], .events = POLLIN}};
        poll(ready, 2, 50);
        watch(network, show);
        if (ready[1].revents & POLLIN) contract_hear(contract, network, show);
        now = clock_now() - show->since;
        if (!stops_due(network, show, before, now) || !all_alive(network)) return false;
        before = now;
    }
    return true;
}

static enum status end(struct network *network, struct contract *contract, struct show *show, bool served) {
    for (uint8_t member = 1; member <= network->options.n; member++) stop_member(network, member);
    watch(network, show);
    if (!served) {
        fprintf(stderr, "feed: a member could not be started, or ended by itself\n");
        return BROKEN;
    }
    show_end(show);
    contract_close(contract, network);
    if (show->outside > 0) return OUTSIDE;
    return show->published < network->options.medians ? FEWER : GOOD;
}

enum status network_run(const struct options *options) {
    static struct network network;
    static struct contract contract;
    static struct show show;
    bool served = true;
    if (!open_network(&network, options) || !contract_open(&contract, &network)) return BROKEN;
    show_start(&show, &network.options);
    for (uint8_t member = 1; member <= options->n && served; member++)
        if (!(options->conduct[member] & SILENT)) served = start_member(&network, member);
    served = served && serve(&network, &contract, &show);
    enum status status = end(&network, &contract, &show, served);
    close_network(&network);
    return status;
}
