//! 01, "Sender" (000, Algorithm 5): transmission and its timeout.

use crate::bytes::{Reader, Writer};
use crate::config::{both_zero_or_neither, Commit, Config, MAX_TIME, MAX_WAITING_TIME};
use crate::frame::{length_fits, FinalBody, FINAL, SLOT};
use crate::report::{deviates, median, newer};
use crate::Code;

/// "waiting reports 16 slots of 2,304".
pub const SLOTS: usize = 16;
pub const WAITING: usize = SLOTS * SLOT;

/// A sender's state. Epoch and round of a waiting report are read from its body.
#[derive(Clone, PartialEq, Eq, Debug, Default)]
pub struct Sender {
    pub config: Config,
    pub median: i64,
    pub epoch: u32,
    pub round: u8,
    pub times: [u64; SLOTS],
    pub taken: [u8; SLOTS],
}

#[derive(Clone, Copy, PartialEq, Eq, Debug)]
pub enum Transmit {
    Alone,
    Stop,
    Start(u64),
}

#[derive(Clone, PartialEq, Eq, Debug)]
pub struct Answer {
    pub code: Code,
    pub transmit: Transmit,
    /// Start and length of the report handed out, in the slots' buffer.
    pub part: (usize, usize),
}

impl Sender {
    pub const IMAGE: usize = 198;

    /// Making a fresh state: 12. What the numbers make, refused or not.
    pub fn fresh(config: Config) -> (Code, Sender) {
        let code = if config.is_good() { Code::Done } else { Code::Config };
        (code, Sender { config, ..Sender::default() })
    }

    /// Code 2 for a sender. A waiting body is looked into only in a buffer of full size.
    pub fn is_good(&self, slots: &[u8]) -> bool {
        self.config.is_good()
            && both_zero_or_neither(self.epoch, self.round)
            && self.times.iter().all(|time| *time <= MAX_WAITING_TIME)
            && self.taken.iter().all(|taken| *taken <= 1)
            && (slots.len() < WAITING || (0..SLOTS).all(|i| self.taken[i] == 0 || self.body(slots, i).is_some()))
    }

    /// The body waiting in slot i; None if it fails RANGE.
    fn body(&self, slots: &[u8], i: usize) -> Option<FinalBody> {
        FinalBody::stored(&slots[SLOT * i..SLOT * (i + 1)], self.config.n)
    }

    /// The slot of the earliest time ("ties: lower epoch, round, slot"); None if nothing waits.
    fn earliest(&self, slots: &[u8]) -> Option<usize> {
        let mut best: Option<((u64, u32, u8, usize), usize)> = None;
        for i in 0..SLOTS {
            if self.taken[i] == 1 {
                let body = self.body(slots, i).expect("code 2 is past");
                let key = (self.times[i], body.epoch, body.round, i);
                if best.is_none() || key < best.unwrap().0 {
                    best = Some((key, i));
                }
            }
        }
        best.map(|(_, i)| i)
    }

    /// "DONE sets T_transmit to the earliest time less now, at least 0, or stops it."
    fn set_timer(&self, slots: &[u8], now: u64) -> Transmit {
        match self.earliest(slots) {
            Some(i) => Transmit::Start(self.times[i].saturating_sub(now)),
            None => Transmit::Stop,
        }
    }

    pub fn read(reader: &mut Reader) -> Sender {
        Sender {
            config: Config::read(reader),
            median: reader.i64(),
            epoch: reader.u32(),
            round: reader.u8(),
            times: reader.u64s(),
            taken: reader.bytes(),
        }
    }

    pub fn from_image(image: &[u8]) -> Sender {
        Sender::read(&mut Reader::new(image))
    }

    pub fn image(&self) -> Vec<u8> {
        let mut writer = Writer::new();
        self.config.write(&mut writer);
        writer.i64(self.median).u32(self.epoch).u8(self.round);
        for time in self.times {
            writer.u64(time);
        }
        writer.put(&self.taken);
        writer.bytes
    }
}

/// Exactly n entries, each of 1 to n once.
pub fn is_permutation(permutation: &[u8], n: u8) -> bool {
    permutation.len() == n as usize && (1..=n).all(|number| permutation.contains(&number))
}

fn refused(code: Code) -> Answer {
    Answer { code, transmit: Transmit::Alone, part: (0, 0) }
}

/// Transmission, of a FINAL body: 2, 3, 8, 9, 12, 13, 19, 20.
pub fn transmit(
    sender: &mut Sender,
    slots: &mut [u8],
    now: u64,
    commit: &Commit,
    permutation: &[u8],
    body: &[u8],
) -> Answer {
    if !sender.is_good(slots) {
        return refused(Code::State);
    }
    if slots.len() < WAITING {
        return refused(Code::Room);
    }
    if !length_fits(FINAL, body) {
        return refused(Code::Length);
    }
    let config = sender.config.clone();
    let report = FinalBody::read(body);
    if !report.in_range(config.n) || now > MAX_TIME || !commit.in_range() {
        return refused(Code::Range);
    }
    if !is_permutation(permutation, config.n) {
        return refused(Code::Config);
    }
    let this = (report.epoch, report.round);
    let committed = (commit.epoch, commit.round);
    let accepted = (sender.epoch, sender.round);
    let none_accepted = accepted == (0, 0);
    // "OLD if (epoch, round) is not above the commit, or not above the last accepted report."
    if !newer(this, committed) || (!none_accepted && !newer(this, accepted)) {
        return refused(Code::Old);
    }
    // "SIMILAR unless none was accepted yet, or the median deviates from the accepted one, or the commit
    // has reached it."
    let value = median(&report.list);
    let commit_reached_it = !newer(accepted, committed);
    if !(none_accepted || deviates(config.alpha, sender.median, value) || commit_reached_it) {
        return refused(Code::Similar);
    }
    // "With p = π(own number)": the entry of the own number.
    let p = permutation[config.own as usize - 1];
    if let Some(k) = config.stage_of(p) {
        // "queueing takes the lowest free slot"
        let Some(slot) = (0..SLOTS).find(|i| sender.taken[*i] == 0) else {
            return refused(Code::Queue);
        };
        sender.taken[slot] = 1;
        sender.times[slot] = now + k * config.delta_stage;
        let bytes = &mut slots[SLOT * slot..SLOT * (slot + 1)];
        bytes.fill(0);
        bytes[..body.len()].copy_from_slice(body);
    }
    sender.median = value;
    sender.epoch = report.epoch;
    sender.round = report.round;
    Answer { code: Code::Done, transmit: sender.set_timer(slots, now), part: (0, 0) }
}

/// Its timeout: 2, 3, 9, 1.
pub fn timeout(sender: &mut Sender, slots: &[u8], now: u64, commit: &Commit) -> Answer {
    if !sender.is_good(slots) {
        return refused(Code::State);
    }
    if slots.len() < WAITING {
        return refused(Code::Room);
    }
    if now > MAX_TIME || !commit.in_range() {
        return refused(Code::Range);
    }
    // "a sender timeout early or with nothing waiting"
    let Some(slot) = sender.earliest(slots) else {
        return refused(Code::Ignored);
    };
    if now < sender.times[slot] {
        return refused(Code::Ignored);
    }
    // "removes that report, frees its slot, and hands it out if newer than the commit"
    let report = sender.body(slots, slot).expect("code 2 is past");
    sender.taken[slot] = 0;
    sender.times[slot] = 0;
    let part = if newer((report.epoch, report.round), (commit.epoch, commit.round)) {
        (SLOT * slot, report.length())
    } else {
        (0, 0)
    };
    Answer { code: Code::Done, transmit: sender.set_timer(slots, now), part }
}
