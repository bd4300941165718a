/* The header's sizes and offsets, as it states them: a compiler that lays a struct out otherwise stops here. */
#include "wederburh.h"

#define SIZE(T, N) _Static_assert(sizeof(struct wederburh_##T) == (N), #T)
#define AT(T, FIELD, N) _Static_assert(offsetof(struct wederburh_##T, FIELD) == (N), #T "." #FIELD)

SIZE(config, 48);
AT(config, number, 0);
AT(config, delta_c, 8);
AT(config, delta_stage, 16);
AT(config, alpha, 24);
AT(config, n, 28);
AT(config, f, 29);
AT(config, own, 30);
AT(config, r_max, 31);
AT(config, stages, 32);
AT(config, schedule, 33);

SIZE(commit, 24);
AT(commit, median, 0);
AT(commit, time, 8);
AT(commit, epoch, 16);
AT(commit, round, 20);

SIZE(pace, 136);
AT(pace, epoch, 0);
AT(pace, highest, 4);
AT(pace, heard, 8);
AT(pace, started, 132);
AT(pace, progress, 133);
AT(pace, resend, 134);

SIZE(follower, 36);
AT(follower, live, 0);
AT(follower, round, 1);
AT(follower, signed_report, 2);
AT(follower, completed, 3);
AT(follower, kept, 4);
AT(follower, marks, 5);

SIZE(leader, 320);
AT(leader, values, 0);
AT(leader, observed, 248);
AT(leader, reported, 279);
AT(leader, phase, 310);
AT(leader, round, 311);
AT(leader, t_round, 312);
AT(leader, t_grace, 313);

SIZE(node, 544);
AT(node, config, 0);
AT(node, pace, 48);
AT(node, follower, 184);
AT(node, leader, 224);

SIZE(node_outcome, 32);
AT(node_outcome, written, 0);
AT(node_outcome, start, 8);
AT(node_outcome, len, 16);
AT(node_outcome, held, 24);
AT(node_outcome, resend, 25);
AT(node_outcome, progress, 26);
AT(node_outcome, round, 27);
AT(node_outcome, grace, 28);
AT(node_outcome, answer, 29);

SIZE(lent_node, 608);
AT(lent_node, node, 0);
AT(lent_node, commit, 544);
AT(lent_node, observation, 568);
AT(lent_node, outcome, 576);

SIZE(accepted, 16);
AT(accepted, median, 0);
AT(accepted, epoch, 8);
AT(accepted, round, 12);

SIZE(sender, 208);
AT(sender, config, 0);
AT(sender, accepted, 48);
AT(sender, times, 64);
AT(sender, taken, 192);

SIZE(sender_outcome, 32);
AT(sender_outcome, milliseconds, 0);
AT(sender_outcome, start, 8);
AT(sender_outcome, len, 16);
AT(sender_outcome, transmit, 24);
AT(sender_outcome, answer, 25);

SIZE(lent_sender, 264);
AT(lent_sender, sender, 0);
AT(lent_sender, commit, 208);
AT(lent_sender, outcome, 232);

SIZE(account, 16);
AT(account, balance, 0);
AT(account, paid, 8);

SIZE(ledger, 512);
AT(ledger, fund, 0);
AT(ledger, deposits, 8);
AT(ledger, accounts, 16);

SIZE(terms, 24);
AT(terms, observation_fee, 0);
AT(terms, sending_fee, 8);
AT(terms, n, 16);
AT(terms, f, 17);

SIZE(contract, 560);
AT(contract, ledger, 0);
AT(contract, commit, 512);
AT(contract, terms, 536);

SIZE(contract_outcome, 24);
AT(contract_outcome, amount, 0);
AT(contract_outcome, place, 8);
AT(contract_outcome, fault, 16);
AT(contract_outcome, answer, 17);

SIZE(lent_contract, 584);
AT(lent_contract, contract, 0);
AT(lent_contract, outcome, 560);
