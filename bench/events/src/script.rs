//! The calls of a script of docs/REPLAY.md as events.

use crate::event::Event;
use crate::member::Member;
use crate::payer;
use crate::transmitter::Transmitter;
use rules::bytes::Reader;
use rules::config::{Commit, Config, Terms};
use rules::contract::Contract;
use rules::node::{Arrival, Node};
use rules::script::{self, records, Outcome};
use rules::sender::Sender;

#[derive(Default)]
struct Machine {
    member: Member,
    transmitter: Transmitter,
    contract: Contract,
}

/// Hands each call to `each`, up to the record that ends the script: the reference's own machine says which.
pub fn calls(script: &[u8], mut each: impl FnMut(Event)) {
    let mut machine = Machine::default();
    let mut reference = script::Machine::default();
    for (letter, bytes) in records(script) {
        if matches!(reference.run(letter, bytes), Outcome::End) {
            return;
        }
        match letter {
            b'n' => machine.member.node = Node::from_image(bytes),
            b'o' => machine.member.lent.outbox = bytes.to_vec(),
            b'k' => machine.member.lent.kept = bytes.to_vec(),
            b'g' => machine.member.lent.signatures = bytes.to_vec(),
            b's' => machine.transmitter.sender = Sender::from_image(bytes),
            b'w' => machine.transmitter.waiting = bytes.to_vec(),
            b'c' => machine.contract = Contract::from_image(bytes),
            b'F' | b'R' | b'S' | b'D' | b'T' => each(machine.member.call(letter, Reader::new(bytes))),
            b'f' | b'X' | b'O' => each(machine.transmitter.call(letter, Reader::new(bytes))),
            _ => each(contract_call(&mut machine.contract, letter, Reader::new(bytes))),
        }
    }
}

impl Member {
    fn call(&mut self, letter: u8, mut reader: Reader) -> Event {
        match letter {
            b'F' => self.fresh(Config::read(&mut reader)),
            b'R' => self.restore(Config::read(&mut reader), reader.u32(), reader.u32()),
            b'S' => self.start(reader.u64(), reader.u64()),
            b'D' => self.deliver(Arrival {
                link: reader.u8(),
                time: reader.u64(),
                observation: reader.i64(),
                commit: Commit::read(&mut reader),
                bits: reader.u64(),
                at: reader.u64(),
                frame: reader.rest().to_vec(),
            }),
            _ => self.timer(reader.u8(), reader.u64(), reader.u64()),
        }
    }
}

impl Transmitter {
    fn call(&mut self, letter: u8, mut reader: Reader) -> Event {
        if letter == b'f' {
            return self.fresh(Config::read(&mut reader));
        }
        let time = reader.u64();
        self.commit = Commit::read(&mut reader);
        if letter == b'O' {
            return self.timeout(time);
        }
        let length = reader.u8() as usize;
        let permutation = reader.take(length);
        self.transmit(time, permutation, reader.rest())
    }
}

fn contract_call(contract: &mut Contract, letter: u8, mut reader: Reader) -> Event {
    match letter {
        b'm' => payer::fresh(contract, Terms::read(&mut reader)),
        b'B' => payer::submit(contract, reader.u8(), reader.u64(), reader.u64(), reader.rest()),
        b'P' => payer::deposit(contract, reader.u64()),
        _ => payer::withdraw(contract, reader.u8()),
    }
}
