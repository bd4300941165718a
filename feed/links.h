/* Links: UDP datagrams over 127.0.0.1, each with a tag that only the two ends of its link can make.
 *
 * A datagram is sender (1 byte), receiver (1), payload, tag (32). The tag is HMAC-SHA-512-256 over all before it, with the key
 * that the two ends agree on by X25519. So the member number that a delivery names is that of who holds the other end's key.
 * A datagram may be lost, repeated or come late: the node's rules bear that, and nothing here prevents it. */
#ifndef FEED_LINKS_H
#define FEED_LINKS_H

#include <netinet/in.h>

#include "keys.h"
#include "options.h"
#include "random.h"

#define PAYLOAD WEDERBURH_OUTBOX
#define DATAGRAM (2 + PAYLOAD + crypto_auth_BYTES)
#define HELD 256

/* A datagram on its way. */
struct held {
    uint64_t due; /* NEVER: a free place */
    uint8_t to;
    size_t len;
    uint8_t bytes[DATAGRAM];
};

struct links {
    int socket;
    uint8_t own;
    uint8_t n;
    struct sockaddr_in addresses[PARTIES];
    uint8_t pair[PARTIES][crypto_auth_KEYBYTES]; /* the key of the link to each party */
    /* what happens to frames between members */
    unsigned lose, repeat, reorder;
    unsigned delay[PARTIES]; /* to each of them a frame takes up to so many milliseconds */
    struct random random;
    struct held held[HELD];
};

enum received { NOTHING, RECEIVED, FORGED };

/* A socket bound to a free port of 127.0.0.1, and its address; -1 where there is none. */
int links_socket(struct sockaddr_in *address);

/* The keys of a party's links, from its own secret and the public keys of the others. */
void links_agree(struct links *links, const struct keys *keys);

/* Sends under the number `as`; a sound party gives its own. */
void links_send(struct links *links, uint8_t as, uint8_t to, const uint8_t *payload, size_t len);

/* Sends what is on its way and due by now; says when the next is. */
uint64_t links_release(struct links *links, uint64_t now);

/* The next datagram, if its tag is that of the link which it names. The payload has room for PAYLOAD bytes. */
enum received links_receive(struct links *links, uint8_t *from, uint8_t *payload, size_t *len);

#endif
