#include "keys.h"

#include <string.h>

void keys_make(struct keys *keys, uint8_t n) {
    for (uint8_t party = 0; party <= n; party++) {
        crypto_sign_keypair(keys->sign_public[party], keys->sign_secret[party]);
        crypto_box_keypair(keys->link_public[party], keys->link_secret[party]);
    }
    crypto_generichash_keygen(keys->order);
}

void keys_keep(struct keys *keys, uint8_t own, uint8_t n) {
    for (uint8_t party = 0; party <= n; party++) {
        if (party == own) continue;
        sodium_memzero(keys->sign_secret[party], sizeof keys->sign_secret[party]);
        sodium_memzero(keys->link_secret[party], sizeof keys->link_secret[party]);
    }
}

void keys_sign(const struct keys *keys, uint8_t own, uint64_t configuration, const struct frame *frame, uint8_t *body) {
    struct covered covered;
    frame_covered(frame, configuration, 0, &covered);
    crypto_sign_detached(body + covered.at, NULL, covered.content, covered.len, keys->sign_secret[own]);
}

static bool verifies(const struct keys *keys, uint8_t n, const struct covered *covered, const uint8_t *body) {
    if (covered->member < 1 || covered->member > n) return false;
    return crypto_sign_verify_detached(body + covered->at, covered->content, covered->len,
                                       keys->sign_public[covered->member]) == 0;
}

uint64_t keys_verdicts(const struct keys *keys, uint8_t n, uint64_t configuration, const struct frame *frame) {
    uint64_t bits = 0;
    size_t count = frame_signatures(frame);
    for (size_t i = 0; i < count; i++) {
        struct covered covered;
        frame_covered(frame, configuration, i, &covered);
        if (verifies(keys, n, &covered, frame->body)) bits |= UINT64_C(1) << i;
    }
    return bits;
}

/* A shuffle by a keyed hash: for i from n down to 2, place i is swapped with one of the first i. */
void keys_order(const struct keys *keys, uint8_t n, uint32_t epoch, uint8_t round, uint8_t *places) {
    for (uint8_t i = 0; i < n; i++) places[i] = i + 1;
    for (uint8_t i = n; i >= 2; i--) {
        uint8_t input[6], digest[crypto_generichash_BYTES];
        write_number(input, 4, epoch);
        input[4] = round;
        input[5] = n - i;
        crypto_generichash(digest, sizeof digest, input, sizeof input, keys->order, sizeof keys->order);
        size_t other = (size_t)(read_number(digest, 8) % i);
        uint8_t place = places[i - 1];
        places[i - 1] = places[other];
        places[other] = place;
    }
}
