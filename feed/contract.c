#include "contract.h"

#include <inttypes.h>
#include <stdio.h>

#include "events.h"
#include "timers.h"

#define DEPOSIT 1000000
#define OBSERVATION_FEE 10
#define SENDING_FEE 50

static void open_links(struct links *links, const struct network *network) {
    *links = (struct links){.socket = network->sockets[CONTRACT], .own = CONTRACT, .n = network->options.n};
    for (uint8_t party = 0; party <= links->n; party++) links->addresses[party] = network->addresses[party];
    links_agree(links, &network->keys);
}

bool contract_open(struct contract *contract, const struct network *network) {
    open_links(&contract->links, network);
    contract->lent.contract.terms = (struct wederburh_terms){
        .observation_fee = OBSERVATION_FEE, .sending_fee = SENDING_FEE, .n = network->options.n, .f = network->options.f};
    return wederburh_contract_fresh(&contract->lent) == WEDERBURH_DONE &&
           wederburh_contract_deposit(&contract->lent, DEPOSIT) == WEDERBURH_DONE;
}

static void tell_commit(struct contract *contract, uint8_t to) {
    const struct wederburh_commit *commit = &contract->lent.contract.commit;
    uint8_t bytes[21];
    write_number(bytes, 4, commit->epoch);
    bytes[4] = commit->round;
    write_number(bytes + 5, 8, (uint64_t)commit->median);
    write_number(bytes + 13, 8, commit->time);
    links_send(&contract->links, CONTRACT, to, bytes, sizeof bytes);
}

static void submit(struct contract *contract, const struct network *network, struct show *show, uint8_t from,
                   const uint8_t *body, size_t len) {
    struct frame final = {WEDERBURH_FINAL, from, body, len};
    uint64_t bits = keys_verdicts(&network->keys, network->options.n, network->config.number, &final);
    uint8_t code = wederburh_contract_submit(&contract->lent, body, len, from, clock_now(), bits);
    if (code != WEDERBURH_DONE) {
        show_refused(show, A_SUBMISSION, code, CONTRACT);
        return;
    }
    show_published(show, body, from, contract->lent.contract.commit.median);
    for (uint8_t to = 1; to <= contract->links.n; to++) tell_commit(contract, to);
}

bool contract_hear(struct contract *contract, const struct network *network, struct show *show) {
    uint8_t from, payload[PAYLOAD];
    size_t len;
    enum received received = links_receive(&contract->links, &from, payload, &len);
    if (received == FORGED) show_refused(show, A_DATAGRAM, 0, CONTRACT);
    if (received == RECEIVED && len == 0) tell_commit(contract, from);
    if (received == RECEIVED && len > 0) submit(contract, network, show, from, payload, len);
    return received != NOTHING;
}

void contract_close(struct contract *contract, const struct network *network) {
    uint64_t paid = 0;
    for (uint8_t member = 1; member <= network->options.n; member++)
        if (wederburh_contract_withdraw(&contract->lent, member) == WEDERBURH_DONE)
            paid += contract->lent.outcome.amount;
    printf("money: %d deposited = %" PRIu64 " paid to members for observing and sending + %" PRIu64 " left in the fund\n", DEPOSIT, paid,
           contract->lent.contract.ledger.fund);
}
