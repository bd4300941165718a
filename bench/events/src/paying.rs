//! The contract's events.

use crate::event::Named;
use crate::feed::{self, NOW};
use crate::payer::{deposit, fresh, submit, withdraw};
use rules::config::Terms;
use rules::contract::Contract;
use rules::Code;

const TRANSMITTER: u8 = 1;

pub fn events(n: u8) -> Vec<Named> {
    let f = feed::faulty(n);
    let terms = Terms { observation_fee: 10, sending_fee: 100, n, f };
    let body = feed::report(n, 5, 1).write();
    let mut contract = Contract::default();
    fresh(&mut contract, terms.clone()).gives(Code::Done);
    let paid_in = deposit(&mut contract, 1_000_000).gives(Code::Done);
    let refused = submit(&mut contract, TRANSMITTER, NOW, !(1 << f), &body).gives(Code::Signers);
    let accepted = submit(&mut contract, TRANSMITTER, NOW, u64::MAX, &body).gives(Code::Done);
    vec![
        fresh(&mut contract.clone(), terms).named("contract fresh"),
        paid_in.named("deposit"),
        refused.named("submit, refused SIGNERS"),
        accepted.named("submit, accepted"),
        withdraw(&mut contract, TRANSMITTER).gives(Code::Done).named("withdraw"),
    ]
}
