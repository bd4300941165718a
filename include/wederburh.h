/* Wederburh at the boundary to C: link with libhost.a, which `rt lib` writes in crates/host (x86-64 Linux).
 *
 * Every struct holds numbers only, so any bytes in it are a value: a state that is out of range is answered with
 * WEDERBURH_STATE. The host lends each struct and buffer for the time of a call; they must be aligned, initialised, and no
 * two of them may overlap. A call keeps nothing and allocates nothing. Only code 0 changes a state, a timer or a byte
 * of a buffer; the outcome in the lent struct is written by every call.
 *
 * docs/HOST.md shows a host's loop. */
#ifndef WEDERBURH_H
#define WEDERBURH_H

#include <stddef.h>
#include <stdint.h>

#ifdef __cplusplus
extern "C" {
#endif

/* ---- limits */

#define WEDERBURH_MEMBERS 31
#define WEDERBURH_STAGES 8
#define WEDERBURH_SIGNATURE 64
#define WEDERBURH_OUTBOX 2400     /* bytes that a call needs in the outbox, from the position on */
#define WEDERBURH_KEPT 2304       /* bytes of the buffer that keeps a report */
#define WEDERBURH_SIGNATURES 3968 /* bytes of the buffer that keeps a leader's signatures */
#define WEDERBURH_SLOTS 16
#define WEDERBURH_WAITING 36864   /* bytes of the slots of waiting reports */

/* ---- frames: a body, then a trailer that points back */

#define WEDERBURH_TRAILER 16

enum wederburh_kind {
    WEDERBURH_NEWEPOCH = 1,
    WEDERBURH_OBSERVE_REQ = 2,
    WEDERBURH_OBSERVE = 3,    /* goes to the leader; the others but REPORT to all */
    WEDERBURH_REPORT_REQ = 4,
    WEDERBURH_REPORT = 5,     /* goes to the leader */
    WEDERBURH_FINAL = 6,
    WEDERBURH_FINAL_ECHO = 7
};

/* The leader of an epoch from 1 on, in a feed of n members. */
#define WEDERBURH_LEADER(n, epoch) ((uint8_t)((uint32_t)(epoch) % (uint32_t)(n) + 1))

/* ---- codes: what a call answers, first match wins */

enum wederburh_code {
    WEDERBURH_DONE = 0,
    WEDERBURH_IGNORED = 1,
    WEDERBURH_STATE = 2,
    WEDERBURH_ROOM = 3,
    WEDERBURH_SHORT = 4,
    WEDERBURH_VERSION = 5,
    WEDERBURH_KIND = 6,
    WEDERBURH_SENDER = 7,
    WEDERBURH_LENGTH = 8,
    WEDERBURH_RANGE = 9,
    WEDERBURH_PROOF = 10,
    WEDERBURH_END = 11,
    WEDERBURH_CONFIG = 12,
    WEDERBURH_OLD = 13,
    WEDERBURH_FEW = 14,
    WEDERBURH_ORDER = 15,
    WEDERBURH_TWICE = 16,
    WEDERBURH_SIGNERS = 17,
    WEDERBURH_FUNDS = 18,
    WEDERBURH_SIMILAR = 19,
    WEDERBURH_QUEUE = 20
};

/* ---- timers: which one fired, and what becomes of one */

enum wederburh_timer { WEDERBURH_RESEND = 0, WEDERBURH_PROGRESS = 1, WEDERBURH_ROUND = 2, WEDERBURH_GRACE = 3 };

enum wederburh_then { WEDERBURH_LEAVE = 0, WEDERBURH_START = 1, WEDERBURH_STOP = 2 };

/* ---- what is wrong with a report that is refused with FEW, ORDER, TWICE or SIGNERS */

enum wederburh_fault {
    WEDERBURH_NO_FAULT = 0,
    WEDERBURH_TOO_FEW_OBSERVATIONS = 1,
    WEDERBURH_FALLING_VALUE = 2,
    WEDERBURH_MEMBER_TWICE = 3,
    WEDERBURH_TOO_FEW_SIGNERS = 4,
    WEDERBURH_SIGNER_TWICE = 5,
    WEDERBURH_CLEAR_BIT = 6
};

/* ---- shared parts; the number behind each field is its offset */

/* 48 bytes */
struct wederburh_config {
    uint64_t number;      /*  0: which configuration this is */
    uint64_t delta_c;     /*  8: milliseconds after which a report is due whatever its median */
    uint64_t delta_stage; /* 16: milliseconds of one stage */
    uint32_t alpha;       /* 24: parts per billion that a median may move before a report is due */
    uint8_t n;            /* 28: how many members */
    uint8_t f;            /* 29: how many of them may be faulty */
    uint8_t own;          /* 30: which member this is, from 1 */
    uint8_t r_max;        /* 31: rounds in an epoch, at the most */
    uint8_t stages;       /* 32: how many stages the schedule has */
    uint8_t schedule[WEDERBURH_STAGES]; /* 33: how many members send in each stage */
};

/* 24 bytes: the contract's last commit; epoch and round are 0 before the first one */
struct wederburh_commit {
    int64_t median; /*  0 */
    uint64_t time;  /*  8: milliseconds */
    uint32_t epoch; /* 16 */
    uint8_t round;  /* 20 */
};

/* ---- the node */

/* 136 bytes */
struct wederburh_pace {
    uint32_t epoch;                    /*   0: the epoch it works in */
    uint32_t highest;                  /*   4: the highest number sent in a NEWEPOCH */
    uint32_t heard[WEDERBURH_MEMBERS]; /*   8: the highest number heard from each member */
    uint8_t started;                   /* 132 */
    uint8_t progress;                  /* 133: T_progress is armed */
    uint8_t resend;                    /* 134: T_resend is armed */
};

/* 36 bytes */
struct wederburh_follower {
    uint8_t live;                     /* 0: in a report instance */
    uint8_t round;                    /* 1: the round that the leader last asked for */
    uint8_t signed_report;            /* 2: a REPORT of this round was sent */
    uint8_t completed;                /* 3 */
    uint8_t kept;                     /* 4: the kept buffer holds a report of this round */
    uint8_t marks[WEDERBURH_MEMBERS]; /* 5: whose FINAL-ECHO was counted */
};

/* 320 bytes */
struct wederburh_leader {
    int64_t values[WEDERBURH_MEMBERS];   /*   0: what each member observed */
    uint8_t observed[WEDERBURH_MEMBERS]; /* 248: whose OBSERVE was taken */
    uint8_t reported[WEDERBURH_MEMBERS]; /* 279: whose REPORT was taken */
    uint8_t phase;                       /* 310: 0 no round yet, 1 observations, 2 grace, 3 reports, 4 finished */
    uint8_t round;                       /* 311 */
    uint8_t t_round;                     /* 312: T_round is armed */
    uint8_t t_grace;                     /* 313: T_grace is armed */
};

/* 544 bytes */
struct wederburh_node {
    struct wederburh_config config;     /*   0 */
    struct wederburh_pace pace;         /*  48 */
    struct wederburh_follower follower; /* 184 */
    struct wederburh_leader leader;     /* 224 */
};

/* 32 bytes: what a call of a node came to */
struct wederburh_node_outcome {
    size_t written;   /*  0: bytes of frames in the outbox, from the position on */
    size_t start;     /*  8: the report handed out begins here .. */
    size_t len;       /* 16: .. and is so long; 0 where none is handed out */
    uint8_t held;     /* 24: 1 it lies in the kept buffer, 0 in the frame that was delivered */
    uint8_t resend;   /* 25: what becomes of T_resend, .. (enum wederburh_then) */
    uint8_t progress; /* 26 */
    uint8_t round;    /* 27 */
    uint8_t grace;    /* 28 */
    uint8_t answer;   /* 29: the code */
};

/* 608 bytes: what a host lends for one node */
struct wederburh_lent_node {
    struct wederburh_node node;            /*   0 */
    struct wederburh_commit commit;        /* 544: as the host has read it; a delivery reads it */
    int64_t observation;                   /* 568: the host's own; a delivery reads it */
    struct wederburh_node_outcome outcome; /* 576 */
};

/* A fresh node of lent->node.config; a node restored from the saved epoch and highest number. */
uint8_t wederburh_node_fresh(struct wederburh_lent_node *lent);
uint8_t wederburh_node_restore(struct wederburh_lent_node *lent, uint32_t epoch, uint32_t highest);

/* The host starts the node. */
uint8_t wederburh_node_start(struct wederburh_lent_node *lent, uint64_t time,
                             uint8_t *outbox, size_t outbox_len, size_t at,
                             const uint8_t *kept, size_t kept_len,
                             const uint8_t *signatures, size_t signatures_len);

/* A frame has come over the link of member `link`; bit i of `bits` says whether its i-th signature verified. */
uint8_t wederburh_node_deliver(struct wederburh_lent_node *lent, uint8_t link, uint64_t time, uint64_t bits,
                               const uint8_t *frame, size_t frame_len,
                               uint8_t *outbox, size_t outbox_len, size_t at,
                               uint8_t *kept, size_t kept_len,
                               uint8_t *signatures, size_t signatures_len);

/* A timer has fired (enum wederburh_timer); any other number is a timer that is never armed. */
uint8_t wederburh_node_timer(struct wederburh_lent_node *lent, uint8_t timer, uint64_t time,
                             uint8_t *outbox, size_t outbox_len, size_t at,
                             const uint8_t *kept, size_t kept_len,
                             uint8_t *signatures, size_t signatures_len);

/* ---- the sender */

/* 16 bytes: the report that was accepted last; epoch and round are 0 before the first one */
struct wederburh_accepted {
    int64_t median; /*  0 */
    uint32_t epoch; /*  8 */
    uint8_t round;  /* 12 */
};

/* 208 bytes */
struct wederburh_sender {
    struct wederburh_config config;     /*   0 */
    struct wederburh_accepted accepted; /*  48 */
    uint64_t times[WEDERBURH_SLOTS];    /*  64: when the report in each slot is due */
    uint8_t taken[WEDERBURH_SLOTS];     /* 192: whether a report waits in it */
};

/* 32 bytes: what a call of a sender came to */
struct wederburh_sender_outcome {
    uint64_t milliseconds; /*  0: after which T_transmit is to fire, where it is set */
    size_t start;          /*  8: the report handed out begins here in the slots .. */
    size_t len;            /* 16: .. and is so long; 0 where none is handed out */
    uint8_t transmit;      /* 24: what becomes of T_transmit (enum wederburh_then) */
    uint8_t answer;        /* 25: the code */
};

/* 264 bytes: what a host lends for one sender */
struct wederburh_lent_sender {
    struct wederburh_sender sender;          /*   0 */
    struct wederburh_commit commit;          /* 208: as the host has read it */
    struct wederburh_sender_outcome outcome; /* 232 */
};

/* A fresh sender of lent->sender.config. */
uint8_t wederburh_sender_fresh(struct wederburh_lent_sender *lent);

/* A FINAL body is to be transmitted; permutation[j - 1] is the place of member j, from 1. */
uint8_t wederburh_sender_transmit(struct wederburh_lent_sender *lent,
                                  const uint8_t *body, size_t body_len, uint64_t time,
                                  const uint8_t *permutation, size_t permutation_len,
                                  uint8_t *waiting, size_t waiting_len);

/* T_transmit has fired. */
uint8_t wederburh_sender_timeout(struct wederburh_lent_sender *lent, uint64_t time,
                                 const uint8_t *waiting, size_t waiting_len);

/* ---- the contract */

/* 16 bytes */
struct wederburh_account {
    uint64_t balance; /* 0: earned and not withdrawn */
    uint64_t paid;    /* 8: all that was ever paid */
};

/* 512 bytes */
struct wederburh_ledger {
    uint64_t fund;                                        /*  0: what fees are paid out of */
    uint64_t deposits;                                    /*  8: all deposits ever made */
    struct wederburh_account accounts[WEDERBURH_MEMBERS]; /* 16 */
};

/* 24 bytes */
struct wederburh_terms {
    uint64_t observation_fee; /*  0: what a listed member earns with a report */
    uint64_t sending_fee;     /*  8: what its transmitter earns besides */
    uint8_t n;                /* 16 */
    uint8_t f;                /* 17 */
};

/* 560 bytes */
struct wederburh_contract {
    struct wederburh_ledger ledger; /*   0 */
    struct wederburh_commit commit; /* 512: what is published */
    struct wederburh_terms terms;   /* 536 */
};

/* 24 bytes: what a call of a contract came to */
struct wederburh_contract_outcome {
    uint64_t amount; /*  0: what is to be paid to the member who withdraws */
    size_t place;    /*  8: the signer, from 0, that the fault is about */
    uint8_t fault;   /* 16: enum wederburh_fault */
    uint8_t answer;  /* 17: the code */
};

/* 584 bytes: what is lent for one contract */
struct wederburh_lent_contract {
    struct wederburh_contract contract;        /*   0 */
    struct wederburh_contract_outcome outcome; /* 560 */
};

/* A fresh contract of lent->contract.terms. */
uint8_t wederburh_contract_fresh(struct wederburh_lent_contract *lent);

/* A member submits a FINAL body; bit i of `bits` says whether its i-th signature verified. */
uint8_t wederburh_contract_submit(struct wederburh_lent_contract *lent,
                                  const uint8_t *body, size_t body_len,
                                  uint8_t transmitter, uint64_t time, uint64_t bits);

uint8_t wederburh_contract_deposit(struct wederburh_lent_contract *lent, uint64_t amount);

/* The member's whole balance is to be paid: outcome.amount. */
uint8_t wederburh_contract_withdraw(struct wederburh_lent_contract *lent, uint8_t member);

#ifdef __cplusplus
}
#endif

#endif
