//! The structs of `include/wederburh.h` as bytes, with zeros where C has padding.

use rules::config::{Commit, Config, Terms};
use rules::contract::Contract;
use rules::node::{Action, Answer, Node, Of};
use rules::sender::{self, Sender, Transmit};
use rules::Code;

#[derive(Default)]
pub struct Bytes(pub Vec<u8>);

impl Bytes {
    fn u8(&mut self, number: u8) -> &mut Bytes {
        self.put(&[number])
    }

    fn u32(&mut self, number: u32) -> &mut Bytes {
        self.put(&number.to_le_bytes())
    }

    fn u64(&mut self, number: u64) -> &mut Bytes {
        self.put(&number.to_le_bytes())
    }

    fn i64(&mut self, number: i64) -> &mut Bytes {
        self.put(&number.to_le_bytes())
    }

    fn put(&mut self, bytes: &[u8]) -> &mut Bytes {
        self.0.extend_from_slice(bytes);
        self
    }

    fn pad(&mut self, align: usize) -> &mut Bytes {
        self.0.resize(self.0.len().next_multiple_of(align), 0);
        self
    }

    fn config(&mut self, config: &Config) -> &mut Bytes {
        self.u64(config.number).u64(config.delta_c).u64(config.delta_stage).u32(config.alpha);
        self.u8(config.n).u8(config.f).u8(config.own).u8(config.r_max).u8(config.stages).put(&config.schedule).pad(8)
    }

    fn commit(&mut self, commit: &Commit) -> &mut Bytes {
        self.i64(commit.median).u64(commit.time).u32(commit.epoch).u8(commit.round).pad(8)
    }

    fn node(&mut self, node: &Node) -> &mut Bytes {
        self.config(&node.config).u32(node.epoch).u32(node.highest_sent);
        for heard in node.heard {
            self.u32(heard);
        }
        self.u8(node.started).u8(node.progress_armed).u8(node.resend_armed).pad(4);
        self.u8(node.live).u8(node.round).u8(node.signed).u8(node.completed).u8(node.kept).put(&node.marks).pad(8);
        for value in node.values {
            self.i64(value);
        }
        self.put(&node.observed).put(&node.reported);
        self.u8(node.phase).u8(node.leader_round).u8(node.round_armed).u8(node.grace_armed).pad(8)
    }
}

fn action(action: Action) -> u8 {
    match action {
        Action::Alone => 0,
        Action::Start => 1,
        Action::Stop => 2,
    }
}

/// An outcome that a call is to overwrite.
const STALE: [u8; 32] = [0xEE; 32];

fn lent(node: &Node, commit: &Commit, observation: i64) -> Bytes {
    let mut bytes = Bytes::default();
    bytes.node(node).commit(commit).i64(observation);
    bytes
}

pub fn node_before(node: &Node, commit: &Commit, observation: i64) -> Vec<u8> {
    let mut bytes = lent(node, commit, observation);
    bytes.put(&STALE);
    bytes.0
}

pub fn node_after(node: &Node, commit: &Commit, observation: i64, answer: &Answer) -> Vec<u8> {
    let mut bytes = lent(node, commit, observation);
    bytes.u64(answer.written as u64).u64(answer.part.start as u64).u64(answer.part.length as u64);
    bytes.u8(u8::from(answer.part.of == Of::Kept));
    for timer in answer.timers {
        bytes.u8(action(timer));
    }
    bytes.u8(answer.code.number()).pad(8);
    bytes.0
}

/// After a node was made: an outcome of zeros and the code.
pub fn node_made(node: &Node, commit: &Commit, observation: i64, code: Code) -> Vec<u8> {
    let mut bytes = lent(node, commit, observation);
    bytes.put(&[0; 29]).u8(code.number()).pad(8);
    bytes.0
}

fn sender_bytes(sender: &Sender, commit: &Commit) -> Bytes {
    let mut bytes = Bytes::default();
    bytes.config(&sender.config).i64(sender.median).u32(sender.epoch).u8(sender.round).pad(8);
    for time in sender.times {
        bytes.u64(time);
    }
    bytes.put(&sender.taken).commit(commit);
    bytes
}

pub fn sender_before(sender: &Sender, commit: &Commit) -> Vec<u8> {
    let mut bytes = sender_bytes(sender, commit);
    bytes.put(&STALE);
    bytes.0
}

pub fn sender_after(sender: &Sender, commit: &Commit, answer: &sender::Answer) -> Vec<u8> {
    let mut bytes = sender_bytes(sender, commit);
    let (milliseconds, transmit) = match answer.transmit {
        Transmit::Alone => (0, 0),
        Transmit::Start(milliseconds) => (milliseconds, 1),
        Transmit::Stop => (0, 2),
    };
    bytes.u64(milliseconds).u64(answer.part.0 as u64).u64(answer.part.1 as u64);
    bytes.u8(transmit).u8(answer.code.number()).pad(8);
    bytes.0
}

fn contract_bytes(contract: &Contract) -> Bytes {
    let mut bytes = Bytes::default();
    bytes.u64(contract.fund).u64(contract.deposits);
    for account in contract.accounts {
        bytes.u64(account.balance).u64(account.paid);
    }
    let Terms { observation_fee, sending_fee, n, f } = contract.terms;
    bytes.commit(&contract.commit).u64(observation_fee).u64(sending_fee).u8(n).u8(f).pad(8);
    bytes
}

pub fn contract_before(contract: &Contract) -> Vec<u8> {
    let mut bytes = contract_bytes(contract);
    bytes.put(&STALE[..24]);
    bytes.0
}

/// `fault` is the number and the place of what is wrong with a report.
pub fn contract_after(contract: &Contract, amount: u64, fault: (u8, u64), code: Code) -> Vec<u8> {
    let mut bytes = contract_bytes(contract);
    bytes.u64(amount).u64(fault.1).u8(fault.0).u8(code.number()).pad(8);
    bytes.0
}
