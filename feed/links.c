#include "links.h"

#include <string.h>
#include <sys/socket.h>
#include <unistd.h>

#include "timers.h"

int links_socket(struct sockaddr_in *address) {
    socklen_t len = sizeof *address;
    int fd = socket(AF_INET, SOCK_DGRAM, 0);
    *address = (struct sockaddr_in){.sin_family = AF_INET, .sin_addr.s_addr = htonl(INADDR_LOOPBACK)};
    if (fd < 0) return -1;
    if (bind(fd, (struct sockaddr *)address, len) == 0 && getsockname(fd, (struct sockaddr *)address, &len) == 0)
        return fd;
    close(fd);
    return -1;
}

void links_agree(struct links *links, const struct keys *keys) {
    for (uint8_t party = 0; party <= links->n; party++) {
        /* a public key made here is never one that beforenm refuses */
        (void)!crypto_box_beforenm(links->pair[party], keys->link_public[party], keys->link_secret[links->own]);
    }
    for (size_t i = 0; i < HELD; i++) links->held[i].due = NEVER;
}

static void leave(const struct links *links, const struct held *held) {
    /* a datagram that the kernel does not take is a lost one */
    (void)!sendto(links->socket, held->bytes, held->len, MSG_DONTWAIT,
                  (const struct sockaddr *)&links->addresses[held->to], sizeof links->addresses[held->to]);
}

static void hold(struct links *links, const struct held *datagram, uint64_t due) {
    for (size_t i = 0; i < HELD; i++) {
        if (links->held[i].due != NEVER) continue;
        links->held[i] = *datagram;
        links->held[i].due = due;
        return;
    }
    /* no place is free: one more lost datagram */
}

/* A frame between two members takes a while, and may be lost, held back or repeated. */
static void on_its_way(struct links *links, const struct held *datagram) {
    uint64_t due = clock_now() + random_below(&links->random, links->delay[datagram->to] + 1);
    if (random_percent(&links->random, links->lose)) return;
    if (random_percent(&links->random, links->repeat))
        hold(links, datagram, due + random_below(&links->random, 200));
    if (random_percent(&links->random, links->reorder)) due += 20 + random_below(&links->random, 100);
    hold(links, datagram, due);
}

void links_send(struct links *links, uint8_t as, uint8_t to, const uint8_t *payload, size_t len) {
    struct held datagram = {.to = to, .len = 2 + len + crypto_auth_BYTES};
    if (len > PAYLOAD) return;
    datagram.bytes[0] = as;
    datagram.bytes[1] = to;
    memcpy(datagram.bytes + 2, payload, len);
    crypto_auth(datagram.bytes + 2 + len, datagram.bytes, 2 + len, links->pair[to]);
    /* the way to oneself and to the contract is no network here */
    if (to == links->own || to == CONTRACT || links->own == CONTRACT)
        leave(links, &datagram);
    else
        on_its_way(links, &datagram);
}

uint64_t links_release(struct links *links, uint64_t now) {
    uint64_t next = NEVER;
    for (size_t i = 0; i < HELD; i++) {
        struct held *held = &links->held[i];
        if (held->due <= now) {
            leave(links, held);
            held->due = NEVER;
        }
        if (held->due < next) next = held->due;
    }
    return next;
}

enum received links_receive(struct links *links, uint8_t *from, uint8_t *payload, size_t *len) {
    uint8_t bytes[DATAGRAM + 1];
    ssize_t got = recv(links->socket, bytes, sizeof bytes, MSG_DONTWAIT);
    if (got < 0) return NOTHING;
    if (got < 2 + crypto_auth_BYTES || got > DATAGRAM) return FORGED;
    *len = (size_t)got - 2 - crypto_auth_BYTES;
    *from = bytes[0];
    if (bytes[0] > links->n || bytes[1] != links->own) return FORGED;
    if (crypto_auth_verify(bytes + 2 + *len, bytes, 2 + *len, links->pair[*from]) != 0) return FORGED;
    memcpy(payload, bytes + 2, *len);
    return RECEIVED;
}
