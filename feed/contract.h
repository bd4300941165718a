/* The contract, with its links to members. It checks signatures itself and tells every member what is published. */
#ifndef FEED_CONTRACT_H
#define FEED_CONTRACT_H

#include "network.h"
#include "show.h"

struct contract {
    struct wederburh_lent_contract lent;
    struct links links;
};

/* A contract with a deposit for the fees; false where it cannot be made. */
bool contract_open(struct contract *contract, const struct network *network);

/* Takes one datagram, if there is one. */
bool contract_hear(struct contract *contract, const struct network *network, struct show *show);

/* Pays every member its balance, and says what that came to. */
void contract_close(struct contract *contract, const struct network *network);

#endif
