//! Writes a script and runs it at the same time, so that a case can look at what the calls before it left.

use crate::bytes::Writer;
use crate::config::{Commit, Config, Terms};
use crate::contract::Contract;
use crate::node::{Arrival, Lent, Node};
use crate::script::{record, Machine, Outcome};
use crate::sender::Sender;
use crate::Code;
use std::collections::BTreeMap;

pub struct Builder {
    pub script: Vec<u8>,
    pub output: String,
    pub machine: Machine,
    /// The last line printed.
    pub last: String,
    /// Calls by letter and code.
    pub counts: BTreeMap<(u8, u8), usize>,
    /// Deliveries by the kind in the trailer and code.
    pub kinds: BTreeMap<(u8, u8), usize>,
    /// Timer calls by timer and code.
    pub timers: BTreeMap<(u8, u8), usize>,
    pub calls: usize,
    /// Sections so far: name, bytes of the script, calls.
    pub sections: Vec<(String, usize, usize)>,
}

impl Default for Builder {
    fn default() -> Builder {
        Builder::new()
    }
}

impl Builder {
    pub fn new() -> Builder {
        Builder {
            script: Vec::new(),
            output: String::new(),
            machine: Machine::default(),
            last: String::new(),
            counts: BTreeMap::new(),
            kinds: BTreeMap::new(),
            timers: BTreeMap::new(),
            calls: 0,
            sections: Vec::new(),
        }
    }

    /// Notes that a section ends here.
    pub fn section(&mut self, name: &str) {
        self.sections.push((name.to_string(), self.script.len(), self.calls));
    }

    fn set(&mut self, letter: u8, bytes: &[u8]) {
        match self.machine.run(letter, bytes) {
            Outcome::Set => self.script.extend_from_slice(&record(letter, bytes)),
            _ => panic!("not a record that sets: {}", letter as char),
        }
    }

    pub fn call(&mut self, letter: u8, bytes: &[u8]) -> Code {
        match self.machine.run(letter, bytes) {
            Outcome::Call(code, line) => {
                self.script.extend_from_slice(&record(letter, bytes));
                self.output.push_str(&line);
                self.last = line;
                self.calls += 1;
                *self.counts.entry((letter, code.number())).or_insert(0) += 1;
                code
            }
            _ => panic!("not a call: {}", letter as char),
        }
    }

    // What is set only if it is another.

    pub fn node(&mut self, node: &Node) {
        if self.machine.node != *node {
            self.set(b'n', &node.image());
        }
    }

    pub fn sender(&mut self, sender: &Sender) {
        if self.machine.sender != *sender {
            self.set(b's', &sender.image());
        }
    }

    pub fn contract(&mut self, contract: &Contract) {
        if self.machine.contract != *contract {
            self.set(b'c', &contract.image());
        }
    }

    pub fn outbox(&mut self, bytes: &[u8]) {
        if self.machine.lent.outbox != bytes {
            self.set(b'o', bytes);
        }
    }

    pub fn kept(&mut self, bytes: &[u8]) {
        if self.machine.lent.kept != bytes {
            self.set(b'k', bytes);
        }
    }

    pub fn signatures(&mut self, bytes: &[u8]) {
        if self.machine.lent.signatures != bytes {
            self.set(b'g', bytes);
        }
    }

    pub fn slots(&mut self, bytes: &[u8]) {
        if self.machine.slots != bytes {
            self.set(b'w', bytes);
        }
    }

    /// All three buffers; an outbox of the same length is left with what was written into it before.
    pub fn lent(&mut self, lent: &Lent) {
        if self.machine.lent.outbox.len() != lent.outbox.len() {
            self.outbox(&lent.outbox);
        }
        self.kept(&lent.kept);
        self.signatures(&lent.signatures);
    }

    // The calls.

    pub fn fresh(&mut self, config: &Config) -> Code {
        self.call(b'F', &config.image())
    }

    pub fn restore(&mut self, config: &Config, epoch: u32, highest_sent: u32) -> Code {
        let mut writer = Writer::new();
        config.write(&mut writer);
        writer.u32(epoch).u32(highest_sent);
        self.call(b'R', &writer.bytes)
    }

    pub fn start(&mut self, time: u64, at: u64) -> Code {
        let mut writer = Writer::new();
        writer.u64(time).u64(at);
        self.call(b'S', &writer.bytes)
    }

    pub fn deliver(&mut self, arrival: &Arrival) -> Code {
        let mut writer = Writer::new();
        writer.u8(arrival.link).u64(arrival.time).i64(arrival.observation);
        arrival.commit.write(&mut writer);
        writer.u64(arrival.bits).u64(arrival.at).put(&arrival.frame);
        self.call_delivery(&writer.bytes)
    }

    /// A delivery as bytes, counted by the kind in its trailer too.
    pub fn call_delivery(&mut self, bytes: &[u8]) -> Code {
        let code = self.call(b'D', bytes);
        let kind = if bytes.len() >= 54 + 16 { bytes[bytes.len() - 16] } else { 0 };
        *self.kinds.entry((kind, code.number())).or_insert(0) += 1;
        code
    }

    /// A timer call as bytes, counted by timer too.
    pub fn call_timer(&mut self, bytes: &[u8]) -> Code {
        let code = self.call(b'T', bytes);
        *self.timers.entry((bytes[0], code.number())).or_insert(0) += 1;
        code
    }

    pub fn timer(&mut self, timer: u8, time: u64, at: u64) -> Code {
        let mut writer = Writer::new();
        writer.u8(timer).u64(time).u64(at);
        self.call_timer(&writer.bytes)
    }

    pub fn fresh_sender(&mut self, config: &Config) -> Code {
        self.call(b'f', &config.image())
    }

    pub fn transmit(&mut self, time: u64, commit: &Commit, permutation: &[u8], body: &[u8]) -> Code {
        let mut writer = Writer::new();
        writer.u64(time);
        commit.write(&mut writer);
        writer.u8(permutation.len() as u8).put(permutation).put(body);
        self.call(b'X', &writer.bytes)
    }

    pub fn timeout(&mut self, time: u64, commit: &Commit) -> Code {
        let mut writer = Writer::new();
        writer.u64(time);
        commit.write(&mut writer);
        self.call(b'O', &writer.bytes)
    }

    pub fn fresh_contract(&mut self, terms: &Terms) -> Code {
        self.call(b'm', &terms.image())
    }

    pub fn submit(&mut self, transmitter: u8, time: u64, bits: u64, body: &[u8]) -> Code {
        let mut writer = Writer::new();
        writer.u8(transmitter).u64(time).u64(bits).put(body);
        self.call(b'B', &writer.bytes)
    }

    pub fn deposit(&mut self, amount: u64) -> Code {
        self.call(b'P', &amount.to_be_bytes())
    }

    pub fn withdraw(&mut self, member: u8) -> Code {
        self.call(b'W', &[member])
    }

    /// The last records: a call, then one that ends the run, then a call that is not made any more.
    pub fn ending(&mut self) {
        self.deposit(0);
        self.script.extend_from_slice(&record(b'W', &[1, 2]));
        self.script.extend_from_slice(&record(b'P', &[0; 8]));
    }

    /// The table of calls by letter and code, as text.
    pub fn table(&self) -> String {
        let mut text = String::new();
        let mut total = 0;
        for letter in b"FRSDTfXOmBPW" {
            text.push_str(&row(*letter as char, &self.counts, *letter));
            total += self.counts.iter().filter(|(key, _)| key.0 == *letter).map(|(_, count)| count).sum::<usize>();
        }
        text.push_str(&format!("calls in all: {total}\ndeliveries by kind:\n"));
        for kind in 0..=255 {
            if self.kinds.keys().any(|key| key.0 == kind) {
                text.push_str(&row(kind, &self.kinds, kind));
            }
        }
        let (mut bytes, mut calls) = (0, 0);
        for (name, bytes_so_far, calls_so_far) in &self.sections {
            text.push_str(&format!("{name}: {} bytes, {} calls\n", bytes_so_far - bytes, calls_so_far - calls));
            (bytes, calls) = (*bytes_so_far, *calls_so_far);
        }
        text.push_str("timers:\n");
        for timer in 0..=255 {
            if self.timers.keys().any(|key| key.0 == timer) {
                text.push_str(&row(timer, &self.timers, timer));
            }
        }
        text
    }
}

fn row(name: impl std::fmt::Display, counts: &BTreeMap<(u8, u8), usize>, key: u8) -> String {
    let mut text = format!("{name}:");
    for ((this, code), count) in counts {
        if *this == key {
            text.push_str(&format!(" {code}={count}"));
        }
    }
    text.push('\n');
    text
}

/// States in a row of the same call, each with the code that it must give.
pub fn must(code: Code, wanted: Code, what: &str) {
    assert_eq!(code, wanted, "{what}");
}
