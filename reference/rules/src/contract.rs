//! 01, "Contract": submission, deposit, withdrawal.

use crate::bytes::{Reader, Writer};
use crate::config::{is_member, Commit, Terms, MAX_DEPOSITS, MAX_TIME, MEMBERS};
use crate::frame::{length_fits, FinalBody, FINAL};
use crate::report::{attested, median, newer};
use crate::Code;

/// One member's record: what is owed and what was paid.
#[derive(Clone, Copy, PartialEq, Eq, Debug, Default)]
pub struct Account {
    pub balance: u64,
    pub paid: u64,
}

#[derive(Clone, PartialEq, Eq, Debug, Default)]
pub struct Contract {
    pub fund: u64,
    pub deposits: u64,
    pub accounts: [Account; MEMBERS],
    pub commit: Commit,
    pub terms: Terms,
}

impl Contract {
    pub const IMAGE: usize = 551;

    /// Making a fresh state: 12. What the numbers make, refused or not.
    pub fn fresh(terms: Terms) -> (Code, Contract) {
        let code = if terms.is_good() { Code::Done } else { Code::Config };
        (code, Contract { terms, ..Contract::default() })
    }

    /// Code 2 for a contract: terms, commit, deposits, and fund + balances + paid totals (over all 31
    /// accounts) not above the deposits.
    pub fn is_good(&self) -> bool {
        let mut sum = self.fund as u128;
        for account in &self.accounts {
            sum += account.balance as u128 + account.paid as u128;
        }
        self.terms.is_good() && self.commit.in_range() && self.deposits <= MAX_DEPOSITS && sum <= self.deposits as u128
    }

    pub fn read(reader: &mut Reader) -> Contract {
        let fund = reader.u64();
        let deposits = reader.u64();
        let mut accounts = [Account::default(); MEMBERS];
        for account in accounts.iter_mut() {
            *account = Account { balance: reader.u64(), paid: reader.u64() };
        }
        Contract { fund, deposits, accounts, commit: Commit::read(reader), terms: Terms::read(reader) }
    }

    pub fn from_image(image: &[u8]) -> Contract {
        Contract::read(&mut Reader::new(image))
    }

    pub fn image(&self) -> Vec<u8> {
        let mut writer = Writer::new();
        writer.u64(self.fund).u64(self.deposits);
        for account in &self.accounts {
            writer.u64(account.balance).u64(account.paid);
        }
        self.commit.write(&mut writer);
        self.terms.write(&mut writer);
        writer.bytes
    }
}

/// Contract submission, of a FINAL body: 2, 8, 9, 13, 14, 15, 16, 17, 7, 18.
pub fn submit(contract: &mut Contract, transmitter: u8, time: u64, bits: u64, body: &[u8]) -> Code {
    if !contract.is_good() {
        return Code::State;
    }
    if !length_fits(FINAL, body) {
        return Code::Length;
    }
    let terms = contract.terms.clone();
    let report = FinalBody::read(body);
    if !report.in_range(terms.n) || time > MAX_TIME {
        return Code::Range;
    }
    if !newer((report.epoch, report.round), (contract.commit.epoch, contract.commit.round)) {
        return Code::Old;
    }
    if let Err(code) = attested(&report, terms.f, bits) {
        return code;
    }
    if !is_member(transmitter, terms.n) {
        return Code::Sender;
    }
    let cost = report.list.len() as u64 * terms.observation_fee + terms.sending_fee;
    if contract.fund < cost {
        return Code::Funds;
    }
    // "Each listed member earns the observation fee, the transmitter the sending fee as well, out of the fund."
    contract.fund -= cost;
    for entry in &report.list {
        contract.accounts[entry.member as usize - 1].balance += terms.observation_fee;
    }
    contract.accounts[transmitter as usize - 1].balance += terms.sending_fee;
    contract.commit = Commit { median: median(&report.list), time, epoch: report.epoch, round: report.round };
    Code::Done
}

/// Deposit: 2, 9.
pub fn deposit(contract: &mut Contract, amount: u64) -> Code {
    if !contract.is_good() {
        return Code::State;
    }
    if contract.deposits as u128 + amount as u128 > MAX_DEPOSITS as u128 {
        return Code::Range;
    }
    contract.deposits += amount;
    contract.fund += amount;
    Code::Done
}

/// Withdrawal: 2, 7. "Withdrawal pays the whole balance." Gives the amount paid.
pub fn withdraw(contract: &mut Contract, member: u8) -> (Code, u64) {
    if !contract.is_good() {
        return (Code::State, 0);
    }
    if !is_member(member, contract.terms.n) {
        return (Code::Sender, 0);
    }
    let account = &mut contract.accounts[member as usize - 1];
    let amount = account.balance;
    account.balance = 0;
    account.paid += amount;
    (Code::Done, amount)
}
