//! A feed of n members for the benchmark: its configuration, its signatures, its frames and reports.

use rules::cases::rng::Rng;
use rules::config::Config;
use rules::frame::{FinalBody, Message, Observed, SignedObserved, Signer};

/// The configuration number.
pub const NUMBER: u64 = 0x0123_4567_89AB_CDEF;

/// Who leads the epochs of the benchmark, and who follows.
pub const LEADER: u8 = 2;
pub const FOLLOWER: u8 = 3;

pub const NOW: u64 = 1_700_000_000_000;

pub fn faulty(n: u8) -> u8 {
    (n - 1) / 3
}

/// As many stages as there can be, of equal size.
pub fn config(n: u8, own: u8) -> Config {
    let stages = n.min(8);
    let mut schedule = [0; 8];
    schedule[..stages as usize].fill(n / stages);
    Config {
        number: NUMBER,
        delta_c: 3_600_000,
        delta_stage: 10_000,
        alpha: 5_000_000,
        n,
        f: faulty(n),
        own,
        r_max: 100,
        stages,
        schedule,
    }
}

/// An epoch that `LEADER` leads; a later one for a larger number.
pub fn epoch(n: u8, later: u32) -> u32 {
    u32::from(n) * (1_000 + later) + u32::from(LEADER - 1)
}

/// In which order the values stand to the members.
#[derive(Clone, Copy, PartialEq)]
pub enum Values {
    /// The later member has the lower value.
    Falling,
    Shuffled,
}

/// What each member observes: values[j - 1] is member j's.
pub fn values(n: u8, order: Values) -> Vec<i64> {
    let mut values: Vec<i64> = (0..i64::from(n)).map(|j| 20_000 - 3 * j).collect();
    if order == Values::Shuffled {
        Rng::new(u64::from(n)).shuffle(&mut values);
    }
    values
}

/// Member j's signature.
pub fn signature(j: u8) -> [u8; 64] {
    Rng::new(u64::from(j) + 1_000).signature()
}

/// The list of all members, by value.
pub fn list(n: u8, order: Values) -> Vec<Observed> {
    let values = values(n, order);
    let mut list: Vec<Observed> =
        (1..=n).map(|member| Observed { member, value: values[member as usize - 1] }).collect();
    list.sort_by_key(|entry| (entry.value, entry.member));
    list
}

/// The report of an epoch and a round: the list of all members, signed by the lowest f + 1.
pub fn report(n: u8, epoch: u32, round: u8) -> FinalBody {
    let signers = (1..=faulty(n) + 1).map(|member| Signer { member, signature: signature(member) }).collect();
    FinalBody { epoch, round, list: list(n, Values::Falling), signers }
}

pub fn observe(n: u8, j: u8, epoch: u32, order: Values) -> Message {
    Message::Observe { epoch, round: 1, value: values(n, order)[j as usize - 1], signature: signature(j) }
}

pub fn report_req(n: u8, epoch: u32) -> Message {
    let signed = |entry: Observed| SignedObserved {
        member: entry.member,
        value: entry.value,
        signature: signature(entry.member),
    };
    Message::ReportReq { epoch, round: 1, list: list(n, Values::Falling).into_iter().map(signed).collect() }
}

pub fn report_of(n: u8, j: u8, epoch: u32, order: Values) -> Message {
    Message::Report { epoch, round: 1, list: list(n, order), signature: signature(j) }
}
