//! The script of docs/REPLAY.md: its records, the machine that makes the calls, and the lines printed.

use crate::bytes::Reader;
use crate::config::{Commit, Config, Terms};
use crate::contract::{self, Contract};
use crate::node::{self, Action, Arrival, Lent, Node, Of};
use crate::sender::{self, Sender, Transmit};
use crate::Code;
use std::fmt::Write;

/// One node, one sender and one contract, with their buffers.
#[derive(Clone, Default)]
pub struct Machine {
    pub node: Node,
    pub lent: Lent,
    pub sender: Sender,
    pub slots: Vec<u8>,
    pub contract: Contract,
}

/// What a record did.
pub enum Outcome {
    /// It set something; nothing is printed.
    Set,
    /// It was a call: its code and its line, with the newline.
    Call(Code, String),
    /// Another letter, or another length than its letter has: the run ends.
    End,
}

/// A record as bytes: letter, length, bytes.
pub fn record(letter: u8, bytes: &[u8]) -> Vec<u8> {
    let mut out = vec![letter];
    out.extend_from_slice(&(bytes.len() as u32).to_be_bytes());
    out.extend_from_slice(bytes);
    out
}

/// The records of a script up to the first that is cut off.
pub fn records(script: &[u8]) -> Vec<(u8, &[u8])> {
    let mut out = Vec::new();
    let mut rest = script;
    while rest.len() >= 5 {
        let mut reader = Reader::new(rest);
        let letter = reader.u8();
        let length = reader.u32() as usize;
        if rest.len() - 5 < length {
            break;
        }
        out.push((letter, reader.take(length)));
        rest = &rest[5 + length..];
    }
    out
}

/// Runs a whole script and gives what is printed.
pub fn replay(script: &[u8]) -> String {
    let mut machine = Machine::default();
    let mut printed = String::new();
    for (letter, bytes) in records(script) {
        match machine.run(letter, bytes) {
            Outcome::Set => {}
            Outcome::Call(_, line) => printed.push_str(&line),
            Outcome::End => break,
        }
    }
    printed
}

/// The longest record of a delivery, a transmission or a submission.
const LONGEST: usize = 65536;

/// Whether the length is one that the letter has.
fn length_good(letter: u8, bytes: &[u8]) -> bool {
    let length = bytes.len();
    match letter {
        b'n' => length == Node::IMAGE,
        b's' => length == Sender::IMAGE,
        b'c' => length == Contract::IMAGE,
        b'o' => length <= 8192,
        b'k' => length <= 4096,
        b'g' => length <= 8192,
        b'w' => length <= 40960,
        b'F' | b'f' => length == Config::IMAGE,
        b'R' => length == Config::IMAGE + 8,
        b'S' => length == 16,
        b'D' => (54..=LONGEST).contains(&length),
        b'T' => length == 17,
        b'X' => (30..=LONGEST).contains(&length) && length >= 30 + bytes[29] as usize,
        b'O' => length == 29,
        b'm' => length == Terms::IMAGE,
        b'B' => (17..=LONGEST).contains(&length),
        b'P' => length == 8,
        b'W' => length == 1,
        _ => false,
    }
}

impl Machine {
    pub fn run(&mut self, letter: u8, bytes: &[u8]) -> Outcome {
        if !length_good(letter, bytes) {
            return Outcome::End;
        }
        match letter {
            b'n' => self.node = Node::from_image(bytes),
            b's' => self.sender = Sender::from_image(bytes),
            b'c' => self.contract = Contract::from_image(bytes),
            b'o' => self.lent.outbox = bytes.to_vec(),
            b'k' => self.lent.kept = bytes.to_vec(),
            b'g' => self.lent.signatures = bytes.to_vec(),
            b'w' => self.slots = bytes.to_vec(),
            b'F' | b'R' | b'S' | b'D' | b'T' => return self.node_call(letter, bytes),
            b'f' | b'X' | b'O' => return self.sender_call(letter, bytes),
            _ => return self.contract_call(letter, bytes),
        }
        Outcome::Set
    }

    fn node_call(&mut self, letter: u8, bytes: &[u8]) -> Outcome {
        let node_before = self.node.image();
        let lent_before = self.lent.clone();
        let mut reader = Reader::new(bytes);
        let (code, result) = match letter {
            b'F' => {
                let (code, node) = Node::fresh(Config::read(&mut reader));
                self.node = node;
                (code, String::new())
            }
            b'R' => {
                let config = Config::read(&mut reader);
                let epoch = reader.u32();
                let highest_sent = reader.u32();
                let (code, node) = Node::restore(config, epoch, highest_sent);
                self.node = node;
                (code, String::new())
            }
            b'S' => {
                let time = reader.u64();
                let at = reader.u64();
                node_result(node::start(&mut self.node, &mut self.lent, time, at))
            }
            b'D' => {
                let arrival = Arrival {
                    link: reader.u8(),
                    time: reader.u64(),
                    observation: reader.i64(),
                    commit: Commit::read(&mut reader),
                    bits: reader.u64(),
                    at: reader.u64(),
                    frame: reader.rest().to_vec(),
                };
                node_result(node::deliver(&mut self.node, &mut self.lent, &arrival))
            }
            _ => {
                let timer = reader.u8();
                let time = reader.u64();
                let at = reader.u64();
                node_result(node::timer(&mut self.node, &mut self.lent, timer, time, at))
            }
        };
        let mut line = format!("{} {}{}", letter as char, code.number(), result);
        changes(&mut line, 'n', &node_before, &self.node.image());
        changes(&mut line, 'o', &lent_before.outbox, &self.lent.outbox);
        changes(&mut line, 'k', &lent_before.kept, &self.lent.kept);
        changes(&mut line, 'g', &lent_before.signatures, &self.lent.signatures);
        line.push('\n');
        Outcome::Call(code, line)
    }

    fn sender_call(&mut self, letter: u8, bytes: &[u8]) -> Outcome {
        let sender_before = self.sender.image();
        let slots_before = self.slots.clone();
        let mut reader = Reader::new(bytes);
        let (code, result) = match letter {
            b'f' => {
                let (code, sender) = Sender::fresh(Config::read(&mut reader));
                self.sender = sender;
                (code, String::new())
            }
            b'X' => {
                let time = reader.u64();
                let commit = Commit::read(&mut reader);
                let length = reader.u8() as usize;
                let permutation = reader.take(length);
                let body = reader.rest();
                let answer = sender::transmit(&mut self.sender, &mut self.slots, time, &commit, permutation, body);
                (answer.code, format!(" {}", transmit_text(answer.transmit)))
            }
            _ => {
                let time = reader.u64();
                let commit = Commit::read(&mut reader);
                let answer = sender::timeout(&mut self.sender, &self.slots, time, &commit);
                let (start, length) = answer.part;
                (answer.code, format!(" {} {}+{}", transmit_text(answer.transmit), start, length))
            }
        };
        let mut line = format!("{} {}{}", letter as char, code.number(), result);
        changes(&mut line, 's', &sender_before, &self.sender.image());
        changes(&mut line, 'w', &slots_before, &self.slots);
        line.push('\n');
        Outcome::Call(code, line)
    }

    fn contract_call(&mut self, letter: u8, bytes: &[u8]) -> Outcome {
        let before = self.contract.image();
        let mut reader = Reader::new(bytes);
        let (code, result) = match letter {
            b'm' => {
                let (code, contract) = Contract::fresh(Terms::read(&mut reader));
                self.contract = contract;
                (code, String::new())
            }
            b'B' => {
                let transmitter = reader.u8();
                let time = reader.u64();
                let bits = reader.u64();
                (contract::submit(&mut self.contract, transmitter, time, bits, reader.rest()), String::new())
            }
            b'P' => (contract::deposit(&mut self.contract, reader.u64()), String::new()),
            _ => {
                let (code, amount) = contract::withdraw(&mut self.contract, reader.u8());
                (code, format!(" {amount}"))
            }
        };
        let mut line = format!("{} {}{}", letter as char, code.number(), result);
        changes(&mut line, 'c', &before, &self.contract.image());
        line.push('\n');
        Outcome::Call(code, line)
    }
}

/// " written timers part".
fn node_result(answer: node::Answer) -> (Code, String) {
    let mut timers = String::new();
    for action in answer.timers {
        timers.push(match action {
            Action::Alone => '-',
            Action::Start => 's',
            Action::Stop => 'x',
        });
    }
    let of = match answer.part.of {
        Of::Kept => 'k',
        Of::Frame => 'f',
    };
    let text = format!(" {} {} {}{}+{}", answer.written, timers, of, answer.part.start, answer.part.length);
    (answer.code, text)
}

fn transmit_text(transmit: Transmit) -> String {
    match transmit {
        Transmit::Alone => "-".to_string(),
        Transmit::Stop => "x".to_string(),
        Transmit::Start(milliseconds) => format!("s{milliseconds}"),
    }
}

/// Appends the letter and each run of changed bytes, if any byte changed. No call alters a length.
fn changes(line: &mut String, letter: char, before: &[u8], after: &[u8]) {
    assert_eq!(before.len(), after.len());
    if before == after {
        return;
    }
    line.push(' ');
    line.push(letter);
    let mut i = 0;
    while i < after.len() {
        if before[i] == after[i] {
            i += 1;
            continue;
        }
        write!(line, "@{i}:").unwrap();
        while i < after.len() && before[i] != after[i] {
            write!(line, "{:02x}", after[i]).unwrap();
            i += 1;
        }
    }
}
