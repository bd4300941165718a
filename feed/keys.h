/* Keys and signatures: libsodium's Ed25519 for what members sign, X25519 for the keys of links. */
#ifndef FEED_KEYS_H
#define FEED_KEYS_H

#include <sodium.h>

#include "frames.h"

/* The contract's place among the parties; members follow by their numbers. */
#define CONTRACT 0
#define PARTIES (WEDERBURH_MEMBERS + 1)

struct keys {
    uint8_t sign_public[PARTIES][crypto_sign_PUBLICKEYBYTES];
    uint8_t sign_secret[PARTIES][crypto_sign_SECRETKEYBYTES];
    uint8_t link_public[PARTIES][crypto_box_PUBLICKEYBYTES];
    uint8_t link_secret[PARTIES][crypto_box_SECRETKEYBYTES];
    uint8_t order[crypto_generichash_KEYBYTES]; /* the secret that all members share for the order of sending */
};

/* New keys for the contract and n members. */
void keys_make(struct keys *keys, uint8_t n);

/* Forgets every secret but one party's: each process keeps its own alone. */
void keys_keep(struct keys *keys, uint8_t own, uint8_t n);

/* Fills in the one signature of an OBSERVE or a REPORT, whose body stands at `body` and is `own`'s. */
void keys_sign(const struct keys *keys, uint8_t own, uint64_t configuration, const struct frame *frame, uint8_t *body);

/* Verdict bits: bit i is set where the i-th signature verifies under the key of the member whose it is. */
uint64_t keys_verdicts(const struct keys *keys, uint8_t n, uint64_t configuration, const struct frame *frame);

/* places[j - 1] is the place of member j in the order of sending, from 1, for one report. All members agree on it. */
void keys_order(const struct keys *keys, uint8_t n, uint32_t epoch, uint8_t round, uint8_t *places);

#endif
