//! 01, "Contract".

use crate::config::{ensure, good_members, is_member, Code, Commit, LAST_TIME, MEMBERS, MOST_DEPOSITS, MOST_FEE};
use crate::frame::Attested;
use crate::report::{check, newer, Fault};

#[repr(C)]
#[derive(Clone, Copy, Default)]
pub struct Account {
    pub balance: u64,
    pub paid: u64,
}

#[repr(C)]
#[derive(Clone, Copy, Default)]
pub struct Ledger {
    pub fund: u64,
    pub deposits: u64,
    pub accounts: [Account; MEMBERS],
}

#[repr(C)]
#[derive(Clone, Copy)]
pub struct Terms {
    pub observation_fee: u64,
    pub sending_fee: u64,
    pub n: u8,
    pub f: u8,
}

#[repr(C)]
#[derive(Clone, Copy)]
pub struct Contract {
    pub ledger: Ledger,
    pub commit: Commit,
    pub terms: Terms,
}

#[repr(C)]
#[derive(Clone, Copy, Default)]
pub struct Outcome {
    pub amount: u64,
    pub place: usize,
    pub fault: u8,
    pub answer: u8,
}

#[repr(C)]
pub struct LentContract {
    pub contract: Contract,
    pub outcome: Outcome,
}

impl Ledger {
    /// Whether the deposits cover what the fund has, what was earned and what was paid.
    fn is_covered(&self) -> bool {
        let members = self.accounts.iter().map(|account| u128::from(account.balance) + u128::from(account.paid));
        u128::from(self.fund) + members.sum::<u128>() <= u128::from(self.deposits)
    }

    fn account(&mut self, member: u8) -> &mut Account {
        &mut self.accounts[usize::from(member - 1)]
    }
}

impl Terms {
    fn is_good(&self) -> bool {
        good_members(self.n, self.f) && self.observation_fee <= MOST_FEE && self.sending_fee <= MOST_FEE
    }
}

impl Contract {
    fn is_good(&self) -> bool {
        self.terms.is_good()
            && self.commit.in_range()
            && self.ledger.deposits <= MOST_DEPOSITS
            && self.ledger.is_covered()
    }

    /// A report that stands is paid for and published.
    fn publish(&mut self, report: &Attested, transmitter: u8, time: u64) -> Result<(), Code> {
        let terms = &self.terms;
        ensure(is_member(transmitter, terms.n), Code::Sender)?;
        let cost = report.list.len() as u64 * terms.observation_fee + terms.sending_fee;
        self.ledger.fund = self.ledger.fund.checked_sub(cost).ok_or(Code::Funds)?;
        for member in report.list.members() {
            self.ledger.account(member).balance += terms.observation_fee;
        }
        self.ledger.account(transmitter).balance += terms.sending_fee;
        let head = report.head;
        self.commit = Commit { median: report.list.median(), time, epoch: head.epoch, round: head.round };
        Ok(())
    }
}

impl LentContract {
    pub fn fresh(&mut self) -> Code {
        let code = if self.contract.terms.is_good() {
            self.contract.ledger = Ledger::default();
            self.contract.commit = Commit::default();
            Code::Done
        } else {
            Code::Config
        };
        self.answer(0, code)
    }

    fn answer(&mut self, amount: u64, code: Code) -> Code {
        self.outcome = Outcome { amount, answer: code as u8, ..Outcome::default() };
        code
    }

    pub fn submit(&mut self, body: &[u8], transmitter: u8, time: u64, bits: u64) -> Code {
        self.outcome = Outcome::default();
        let code = self.try_submit(body, transmitter, time, bits).err().unwrap_or(Code::Done);
        self.outcome.answer = code as u8;
        code
    }

    fn try_submit(&mut self, body: &[u8], transmitter: u8, time: u64, bits: u64) -> Result<(), Code> {
        let contract = &mut self.contract;
        ensure(contract.is_good(), Code::State)?;
        let report = Attested::read(body)?;
        ensure(report.in_range(contract.terms.n) && time <= LAST_TIME, Code::Range)?;
        let head = report.head;
        ensure(newer(head.epoch, head.round, contract.commit.epoch, contract.commit.round), Code::Old)?;
        if let Err(fault) = check(&report, usize::from(contract.terms.f), bits) {
            self.outcome.tell(fault);
            return Err(fault.code());
        }
        contract.publish(&report, transmitter, time)
    }

    pub fn deposit(&mut self, amount: u64) -> Code {
        if !self.contract.is_good() {
            return self.answer(0, Code::State);
        }
        let ledger = &mut self.contract.ledger;
        if amount > MOST_DEPOSITS - ledger.deposits {
            return self.answer(0, Code::Range);
        }
        ledger.fund += amount;
        ledger.deposits += amount;
        self.answer(0, Code::Done)
    }

    pub fn withdraw(&mut self, member: u8) -> Code {
        if !self.contract.is_good() {
            return self.answer(0, Code::State);
        }
        if !is_member(member, self.contract.terms.n) {
            return self.answer(0, Code::Sender);
        }
        let account = self.contract.ledger.account(member);
        let amount = core::mem::take(&mut account.balance);
        account.paid += amount;
        self.answer(amount, Code::Done)
    }
}

impl Outcome {
    fn tell(&mut self, fault: Fault) {
        (self.fault, self.place) = match fault {
            Fault::Few => (1, 0),
            Fault::Falling => (2, 0),
            Fault::Twice => (3, 0),
            Fault::FewSigners => (4, 0),
            Fault::SignerTwice(place) => (5, place),
            Fault::ClearBit(place) => (6, place),
        };
    }
}
