//! The contract: submission, deposit, withdrawal.

use super::builder::{must, Builder};
use super::make::{commit, final_body, terms, ALL, LAST_EPOCH, TWO_53};
use super::rng::Rng;
use super::timers::HUGE;
use crate::config::Terms;
use crate::contract::{Account, Contract};
use crate::frame::FinalBody;
use crate::Code;

/// A submission with all its parts open to faults.
#[derive(Clone)]
struct Submission {
    contract: Contract,
    transmitter: u8,
    time: u64,
    bits: u64,
    report: FinalBody,
    extra: Vec<u8>,
}

impl Submission {
    fn with(&self, edit: impl FnOnce(&mut Submission)) -> Submission {
        let mut other = self.clone();
        edit(&mut other);
        other
    }

    fn body(&self) -> Vec<u8> {
        let mut body = self.report.write();
        body.extend_from_slice(&self.extra);
        body
    }

    fn must(&self, builder: &mut Builder, code: Code, what: &str) {
        builder.contract(&self.contract);
        must(builder.submit(self.transmitter, self.time, self.bits, &self.body()), code, what);
    }
}

type Fault = (Code, fn(&mut Submission));

/// One fault for each code of a submission's list, in that order.
const FAULTS: [Fault; 10] = [
    (Code::State, |x| x.contract.deposits = TWO_53 + 1),
    (Code::Length, |x| x.extra = vec![0]),
    (Code::Range, |x| x.time = TWO_53 + 1),
    (Code::Old, |x| x.contract.commit = commit(5, 2, 0, 0)),
    (Code::Few, |x| x.report.list.truncate(2)),
    (Code::Order, |x| x.report.list[1].value = -1_000_000),
    (Code::Twice, |x| x.report.list[1].member = x.report.list[0].member),
    (Code::Signers, |x| x.bits = !2),
    (Code::Sender, |x| x.transmitter = 5),
    (Code::Funds, |x| x.contract.fund = 1_199),
];

fn account(balance: u64, paid: u64) -> Account {
    Account { balance, paid }
}

pub fn cases(builder: &mut Builder, rng: &mut Rng) {
    let mut contract = Contract { terms: terms(4, 1), fund: 10_000, deposits: 20_000, ..Contract::default() };
    contract.accounts[0] = account(500, 100);
    contract.accounts[3] = account(0, 900);
    let base = Submission {
        contract,
        transmitter: 1,
        time: 1_000,
        bits: ALL,
        report: final_body(rng, 5, 2, &[(2, 100), (1, 105), (3, 107)], &[4, 1]),
        extra: Vec::new(),
    };
    base.must(builder, Code::Done, "the base");
    must(builder.submit(1, 1_000, ALL, &base.body()), Code::Old, "again");

    // Every pair of faults, and all from one on.
    let mut made: Vec<(Submission, Code)> = Vec::new();
    for (j, (later, second)) in FAULTS.iter().enumerate() {
        made.push((base.with(second), *later));
        for (earlier, first) in &FAULTS[..j] {
            made.push((
                base.with(|x| {
                    first(x);
                    second(x);
                }),
                *earlier,
            ));
        }
        made.push((base.with(|x| FAULTS[j..].iter().for_each(|(_, fault)| fault(x))), *later));
    }
    made.sort_by_key(|(submission, _)| submission.contract.image());
    for (submission, code) in made {
        submission.must(builder, code, "faults");
    }

    // STATE: each field, and the sum over all 31 accounts.
    let mut states: Vec<(bool, Contract)> = Vec::new();
    let mut add = |good: bool, edit: &dyn Fn(&mut Contract)| {
        let mut contract = base.contract.clone();
        edit(&mut contract);
        states.push((good, contract));
    };
    add(true, &|c| c.deposits = 11_500);
    add(false, &|c| c.deposits = 11_499);
    add(false, &|c| c.deposits = 10_500);
    add(false, &|c| c.deposits = 0);
    add(true, &|c| c.deposits = TWO_53);
    add(false, &|c| c.deposits = u64::MAX);
    add(true, &|c| c.fund = 18_500);
    add(false, &|c| c.fund = 18_501);
    add(false, &|c| c.fund = u64::MAX);
    add(true, &|c| c.accounts[30] = account(8_500, 0));
    add(false, &|c| c.accounts[30] = account(8_501, 0));
    add(false, &|c| c.accounts[30] = account(0, 8_501));
    add(false, &|c| c.accounts[1] = account(0, u64::MAX));
    add(false, &|c| c.accounts[4] = account(u64::MAX, 0));
    add(false, &|c| c.accounts[1] = account(1 << 63, 1 << 63));
    add(false, &|c| {
        c.fund = 0;
        c.accounts = [account(1 << 63, 1 << 63); 31];
    });
    add(false, &|c| {
        // A sum that is 0 past 2^64.
        c.fund = 1;
        c.accounts = [account(0, 0); 31];
        c.accounts[0].balance = u64::MAX;
    });
    add(false, &|c| c.commit = commit(0, 1, 0, 0));
    add(false, &|c| c.commit = commit(1, 0, 0, 0));
    add(false, &|c| c.commit = commit(0, 0, 0, TWO_53 + 1));
    add(false, &|c| c.commit = commit(1, 1, 0, u64::MAX));
    add(true, &|c| c.commit = commit(1, 1, i64::MIN, TWO_53));
    add(true, &|c| c.commit = commit(0, 0, 9, TWO_53));
    add(false, &|c| c.terms.n = 32);
    add(false, &|c| c.terms.n = 3);
    add(false, &|c| c.terms.f = 2);
    add(false, &|c| c.terms.observation_fee = 1_000_000_001);
    add(false, &|c| c.terms.sending_fee = 1_000_000_001);
    for (good, contract) in states {
        let code = |done: Code| if good { done } else { Code::State };
        base.with(|x| x.contract = contract.clone()).must(builder, code(Code::Done), "a state");
        let amount = if contract.deposits == TWO_53 { 0 } else { 1 };
        must(builder.deposit(amount), code(Code::Done), "a state");
        must(builder.withdraw(1), code(Code::Done), "a state");
        must(builder.withdraw(0), code(Code::Sender), "2 before 7");
        must(builder.deposit(u64::MAX), code(Code::Range), "2 before 9");
    }

    // LENGTH and RANGE.
    builder.contract(&base.contract);
    let body = base.body();
    for length in [0, 1, 4, 5, 6, 7, 33, 34, body.len() - 1] {
        must(builder.submit(1, 5, ALL, &body[..length]), Code::Length, "cut");
    }
    for (place, bytes) in [(5, [0, 2, 4, 255]), (33, [0, 1, 3, 255])] {
        for byte in bytes {
            let mut other = body.clone();
            other[place] = byte;
            must(builder.submit(1, 5, ALL, &other), Code::Length, "counts and the length");
        }
    }
    for (place, byte) in
        [(4, 0), (6, 0), (6, 5), (24, 0), (24, 5), (24, 255), (34, 0), (34, 5), (99, 0), (99, 5), (99, 31)]
    {
        let mut other = body.clone();
        other[place] = byte;
        must(builder.submit(1, 5, ALL, &other), Code::Range, "body");
        must(builder.submit(0, 5, 0, &other), Code::Range, "9 before 17, 7");
    }
    let mut zero = body.clone();
    zero[..4].fill(0);
    must(builder.submit(1, 5, ALL, &zero), Code::Range, "epoch 0");
    for (m, s) in [(0, 2), (5, 2), (3, 0), (3, 5)] {
        let entries: Vec<(u8, i64)> = (0..m).map(|k| (k % 4 + 1, 5)).collect();
        let signers: Vec<u8> = (0..s).map(|k| k % 4 + 1).collect();
        let other = final_body(rng, 5, 2, &entries, &signers).write();
        must(builder.submit(1, 5, ALL, &other), Code::Range, "counts");
    }
    for time in HUGE {
        must(builder.submit(1, time, ALL, &body), Code::Range, "time");
    }
    for time in [0, 1, TWO_53] {
        base.with(|x| x.time = time).must(builder, Code::Done, "time");
    }
    // OLD. Time may go backwards.
    for (epoch, round, code) in [
        (5, 2, Code::Old),
        (5, 3, Code::Old),
        (6, 1, Code::Old),
        (LAST_EPOCH, 255, Code::Old),
        (5, 1, Code::Done),
        (4, 255, Code::Done),
        (1, 1, Code::Done),
    ] {
        base.with(|x| x.contract.commit = commit(epoch, round, -1, TWO_53)).must(builder, code, "OLD");
    }
    // FEW, ORDER, TWICE, SIGNERS.
    let mut reports = |entries: &[(u8, i64)], signers: &[u8]| {
        let report = final_body(rng, 5, 2, entries, signers);
        base.with(|x| x.report = report)
    };
    reports(&[(1, 100), (2, 105), (3, 9_000)], &[1, 2]).must(builder, Code::Done, "median 105");
    reports(&[(1, 100), (2, 105), (3, 107), (4, 9_000)], &[1, 2]).must(builder, Code::Done, "median 107");
    reports(&[(1, 100), (2, 9_000)], &[1, 2]).must(builder, Code::Few, "100, 9000");
    reports(&[(1, 100)], &[1, 2]).must(builder, Code::Few, "one");
    reports(&[(2, 9), (2, 8)], &[1]).must(builder, Code::Few, "14 before 15, 16, 17");
    reports(&[(2, 9), (2, 8), (2, 7)], &[1]).must(builder, Code::Order, "15 before 16, 17");
    reports(&[(2, 9), (2, 9), (3, 9)], &[1]).must(builder, Code::Twice, "16 before 17");
    reports(&[(1, 9), (2, 9), (1, 9)], &[1, 2]).must(builder, Code::Twice, "first and last");
    reports(&[(1, 0), (2, -1), (3, 1)], &[1, 2]).must(builder, Code::Order, "below 0");
    reports(&[(1, i64::MIN), (2, i64::MAX), (3, i64::MIN)], &[1, 2]).must(builder, Code::Order, "ends");
    reports(&[(4, i64::MIN), (3, i64::MIN), (2, i64::MAX), (1, i64::MAX)], &[4, 3, 2, 1]).must(
        builder,
        Code::Done,
        "ends",
    );
    reports(&[(4, -5), (3, -5), (2, -5)], &[1]).must(builder, Code::Signers, "s is f");
    reports(&[(4, -5), (3, -5), (2, -5)], &[1, 1]).must(builder, Code::Signers, "a signer twice");
    reports(&[(4, -5), (3, -5), (2, -5)], &[1, 2, 3, 1]).must(builder, Code::Signers, "a signer twice");
    for bits in [0, 1, 2, ALL - 1, ALL - 2] {
        base.with(|x| x.bits = bits).must(builder, Code::Signers, "a clear bit");
    }
    base.with(|x| x.bits = 3).must(builder, Code::Done, "just two bits");
    // SENDER and FUNDS.
    for transmitter in [0, 5, 31, 32, 255] {
        base.with(|x| x.transmitter = transmitter).must(builder, Code::Sender, "transmitter");
    }
    for transmitter in [2, 3, 4] {
        base.with(|x| x.transmitter = transmitter).must(builder, Code::Done, "transmitter");
    }
    for (fund, code) in [(0, Code::Funds), (1_299, Code::Funds), (1_300, Code::Done), (1_301, Code::Done)] {
        base.with(|x| x.contract.fund = fund).must(builder, code, "cost 3 x 100 + 1000");
    }
    for (observation_fee, sending_fee, fund, code) in [
        (0, 0, 0, Code::Done),
        (0, 1, 0, Code::Funds),
        (1, 0, 2, Code::Funds),
        (1, 0, 3, Code::Done),
        (1_000_000_000, 1_000_000_000, 3_999_999_999, Code::Funds),
        (1_000_000_000, 1_000_000_000, 4_000_000_000, Code::Done),
    ] {
        base.with(|x| {
            x.contract.terms = Terms { observation_fee, sending_fee, ..terms(4, 1) };
            x.contract.fund = fund;
            x.contract.deposits = 5_000_000_000;
        })
        .must(builder, code, "fees");
    }
    // n = 31, the longest body and the dearest; 32 x 10^9.
    let entries: Vec<(u8, i64)> = (1..=31).rev().map(|j| (j, 7)).collect();
    let longest = final_body(rng, 1, 1, &entries, &(1..=31).collect::<Vec<u8>>());
    for (fund, bits, code) in [
        (31_999_999_999, ALL, Code::Funds),
        (32_000_000_000, (1 << 31) - 1, Code::Done),
        (32_000_000_000, (1 << 30) - 1, Code::Signers),
    ] {
        base.with(|x| {
            x.contract = Contract { fund, deposits: TWO_53, ..Contract::default() };
            x.contract.terms = Terms { observation_fee: 1_000_000_000, sending_fee: 1_000_000_000, n: 31, f: 10 };
            x.report = longest.clone();
            x.transmitter = 31;
            x.bits = bits;
        })
        .must(builder, code, "n is 31");
    }
    // n = 1.
    builder.fresh_contract(&terms(1, 0));
    let single = final_body(rng, 1, 1, &[(1, -1)], &[1]).write();
    must(builder.submit(1, 5, 1, &single), Code::Funds, "no fund");
    must(builder.deposit(1_100), Code::Done, "deposit");
    must(builder.submit(1, 5, 0, &single), Code::Signers, "the bit");
    must(builder.submit(2, 5, 1, &single), Code::Sender, "7 before 18");
    must(builder.submit(1, 5, 1, &single), Code::Done, "both fees");
    must(builder.withdraw(1), Code::Done, "1100");
    must(builder.withdraw(1), Code::Done, "0");
    must(builder.withdraw(2), Code::Sender, "no member");

    // Deposits up to 2^53 together.
    builder.fresh_contract(&terms(4, 1));
    for (amount, code) in [
        (0, Code::Done),
        (1, Code::Done),
        (TWO_53, Code::Range),
        (TWO_53 + 1, Code::Range),
        (1 << 63, Code::Range),
        (u64::MAX, Code::Range),
        (u64::MAX - 1, Code::Range),
        (TWO_53 - 2, Code::Done),
        (2, Code::Range),
        (1, Code::Done),
        (1, Code::Range),
        (0, Code::Done),
    ] {
        must(builder.deposit(amount), code, "deposit");
    }
    must(builder.submit(4, 9, ALL, &base.body()), Code::Done, "out of the largest fund");
    for member in [0, 1, 2, 3, 4, 4, 5, 31, 32, 255] {
        let code = if member >= 1 && member <= 4 { Code::Done } else { Code::Sender };
        must(builder.withdraw(member), code, "withdrawal");
    }
    must(builder.deposit(1), Code::Range, "deposits never fall");
    // The largest balance and paid total.
    let mut rich = Contract { deposits: TWO_53, terms: terms(31, 10), ..Contract::default() };
    rich.accounts[30] = account(TWO_53 - 5, 5);
    builder.contract(&rich);
    must(builder.withdraw(31), Code::Done, "the largest balance");
    must(builder.withdraw(31), Code::Done, "nothing left");
}
