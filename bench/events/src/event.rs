//! A call, all that it is given, and all that it is to leave behind.

use rules::Code;
use std::io::{Result, Write};

/// The numbers by which bench/harness.c knows the calls.
#[derive(Clone, Copy)]
pub enum Call {
    NodeFresh = 0,
    NodeRestore = 1,
    NodeStart = 2,
    NodeDeliver = 3,
    NodeTimer = 4,
    SenderFresh = 5,
    SenderTransmit = 6,
    SenderTimeout = 7,
    ContractFresh = 8,
    ContractSubmit = 9,
    ContractDeposit = 10,
    ContractWithdraw = 11,
}

/// A struct or a buffer that is lent, before and after the call.
pub struct Lent {
    pub before: Vec<u8>,
    pub after: Vec<u8>,
}

pub struct Event {
    pub n: u8,
    pub call: Call,
    /// The call's numbers, in the order of the header.
    pub numbers: Vec<u64>,
    /// What it only reads: a frame or a body, then a permutation.
    pub read: Vec<Vec<u8>>,
    /// The struct, then the buffers in the order of the header.
    pub lent: Vec<Lent>,
    pub code: Code,
}

/// An event of the benchmark.
pub struct Named {
    name: String,
    event: Event,
}

const NAME: usize = 48;
const NUMBERS: usize = 4;
const READ: usize = 2;
const LENT: usize = 4;

impl Event {
    /// Itself, with the code that it is meant to have.
    pub fn gives(self, code: Code) -> Event {
        assert_eq!(self.code, code);
        self
    }

    pub fn named(self, name: &str) -> Named {
        Named { name: name.to_string(), event: self }
    }
}

fn put(out: &mut impl Write, bytes: &[u8]) -> Result<()> {
    out.write_all(&(bytes.len() as u64).to_le_bytes())?;
    out.write_all(bytes)
}

impl Named {
    /// Name, n, call, four numbers, two parts that are read, four that are lent; what a call has not is empty.
    pub fn write(&self, out: &mut impl Write) -> Result<()> {
        let event = &self.event;
        let mut name = [0; NAME];
        name[..self.name.len()].copy_from_slice(self.name.as_bytes());
        out.write_all(&name)?;
        let mut numbers = vec![u64::from(event.n), event.call as u64];
        numbers.extend(&event.numbers);
        numbers.resize(2 + NUMBERS, 0);
        for number in numbers {
            out.write_all(&number.to_le_bytes())?;
        }
        for i in 0..READ {
            put(out, event.read.get(i).map_or(&[], |part| part))?;
        }
        for i in 0..LENT {
            put(out, event.lent.get(i).map_or(&[], |part| &part.before))?;
            put(out, event.lent.get(i).map_or(&[], |part| &part.after))?;
        }
        Ok(())
    }
}
