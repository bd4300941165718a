//! Document 01 in plain Rust, made from the documents alone.
//!
//! Every call works on a copy and gives the copy back only with code 0 ("Only code 0 changes anything").
//! Numbers are compared in types wide enough that nothing wraps; nothing here is made to be fast.

pub mod bytes;
pub mod cases;
pub mod config;
pub mod contract;
pub mod follower;
pub mod frame;
pub mod leader;
pub mod node;
pub mod pacemaker;
pub mod report;
pub mod script;
pub mod sender;

/// The codes of 01's table, with its numbers.
#[derive(Clone, Copy, PartialEq, Eq, Debug, PartialOrd, Ord, Hash)]
pub enum Code {
    Done = 0,
    Ignored = 1,
    State = 2,
    Room = 3,
    Short = 4,
    Version = 5,
    Kind = 6,
    Sender = 7,
    Length = 8,
    Range = 9,
    Proof = 10,
    End = 11,
    Config = 12,
    Old = 13,
    Few = 14,
    Order = 15,
    Twice = 16,
    Signers = 17,
    Funds = 18,
    Similar = 19,
    Queue = 20,
}

impl Code {
    pub fn number(self) -> u8 {
        self as u8
    }
}
