//! Calls of a contract, each made by `reference/rules` and turned into an event.

use crate::event::{Call, Event, Lent};
use crate::layout::{contract_after, contract_before};
use rules::config::Terms;
use rules::contract::{self, Contract};
use rules::frame::FinalBody;
use rules::Code;

/// What is wrong with a report, by the numbers of `enum wederburh_fault`, and the signer that it is about.
fn fault(code: Code, body: &[u8], f: u8, bits: u64) -> (u8, u64) {
    match code {
        Code::Few => (1, 0),
        Code::Order => (2, 0),
        Code::Twice => (3, 0),
        Code::Signers => signers_fault(&FinalBody::read(body), f, bits),
        _ => (0, 0),
    }
}

fn signers_fault(report: &FinalBody, f: u8, bits: u64) -> (u8, u64) {
    let signers: Vec<u8> = report.signers.iter().map(|signer| signer.member).collect();
    if signers.len() <= f as usize {
        return (4, 0);
    }
    let repeated = (0..signers.len()).find(|i| signers[..*i].contains(&signers[*i]));
    match repeated {
        Some(place) => (5, place as u64),
        None => (6, u64::from(bits.trailing_ones())),
    }
}

fn event(call: Call, before: Vec<u8>, contract: &Contract, amount: u64, fault: (u8, u64), code: Code) -> Event {
    let after = contract_after(contract, amount, fault, code);
    let lent = vec![Lent { before, after }];
    Event { n: contract.terms.n, call, numbers: Vec::new(), read: Vec::new(), lent, code }
}

/// The boundary makes a contract of the terms that are lent, and leaves it where they are refused.
pub fn fresh(contract: &mut Contract, terms: Terms) -> Event {
    contract.terms = terms.clone();
    let before = contract_before(contract);
    let (code, made) = Contract::fresh(terms);
    if code == Code::Done {
        *contract = made;
    }
    event(Call::ContractFresh, before, contract, 0, (0, 0), code)
}

pub fn submit(contract: &mut Contract, transmitter: u8, time: u64, bits: u64, body: &[u8]) -> Event {
    let before = contract_before(contract);
    let code = contract::submit(contract, transmitter, time, bits, body);
    let fault = fault(code, body, contract.terms.f, bits);
    let event = event(Call::ContractSubmit, before, contract, 0, fault, code);
    Event { numbers: vec![u64::from(transmitter), time, bits], read: vec![body.to_vec()], ..event }
}

pub fn deposit(contract: &mut Contract, amount: u64) -> Event {
    let before = contract_before(contract);
    let code = contract::deposit(contract, amount);
    let event = event(Call::ContractDeposit, before, contract, 0, (0, 0), code);
    Event { numbers: vec![amount], ..event }
}

pub fn withdraw(contract: &mut Contract, member: u8) -> Event {
    let before = contract_before(contract);
    let (code, amount) = contract::withdraw(contract, member);
    let event = event(Call::ContractWithdraw, before, contract, amount, (0, 0), code);
    Event { numbers: vec![u64::from(member)], ..event }
}
