/* A network on this machine: a process for each member, and the contract in the process that starts them. */
#ifndef FEED_NETWORK_H
#define FEED_NETWORK_H

#include <sys/types.h>

#include "links.h"

struct network {
    struct options options;
    struct wederburh_config config; /* what all members agree on; each puts its own number in */
    struct keys keys;
    int sockets[PARTIES];
    struct sockaddr_in addresses[PARTIES];
    int watched; /* the end of the pipe that members tell events to, .. */
    int watching; /* .. and the end where they are read */
    char folder[64]; /* of the records */
    pid_t members[PARTIES]; /* 0: not running */
};

/* Exit status of a run. */
enum status {
    GOOD = 0,
    OUTSIDE = 1, /* a published median was not between sound members' quotes */
    BROKEN = 2,  /* bad options, or the machine failed */
    FEWER = 3,   /* fewer medians than asked for were published in time */
};

enum status network_run(const struct options *options);

#endif
