/* A member: one process, with its own keys, links, timers and record, around one node and one sender. */
#ifndef FEED_MEMBER_H
#define FEED_MEMBER_H

#include "network.h"

/* Runs until it is killed, or until nobody watches. It goes on from its record if there is one. */
_Noreturn void member_run(struct network *network, uint8_t own);

#endif
