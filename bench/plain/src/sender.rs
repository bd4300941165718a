//! 01, "Sender".

use crate::config::{
    ensure, flags, is_member, paired, Code, Commit, Config, KEPT, LAST_DUE, LAST_TIME, SLOTS, WAITING,
};
use crate::frame::Attested;
use crate::report::{deviates, keep, newer, repeated};

const SET: u8 = 1;
const STOP: u8 = 2;

#[repr(C)]
#[derive(Clone, Copy, Default)]
pub struct Accepted {
    pub median: i64,
    pub epoch: u32,
    pub round: u8,
}

#[repr(C)]
#[derive(Clone, Copy)]
pub struct Sender {
    pub config: Config,
    pub accepted: Accepted,
    pub times: [u64; SLOTS],
    pub taken: [u8; SLOTS],
}

#[repr(C)]
#[derive(Clone, Copy, Default)]
pub struct Outcome {
    pub milliseconds: u64,
    pub start: usize,
    pub len: usize,
    pub transmit: u8,
    pub answer: u8,
}

#[repr(C)]
pub struct LentSender {
    pub sender: Sender,
    pub commit: Commit,
    pub outcome: Outcome,
}

/// The buffer of slot k.
fn slot(waiting: &[u8], k: usize) -> &[u8; KEPT] {
    waiting[KEPT * k..].first_chunk().unwrap()
}

fn is_permutation(permutation: &[u8], n: u8) -> bool {
    permutation.len() == usize::from(n)
        && permutation.iter().all(|place| is_member(*place, n))
        && repeated(permutation.iter().copied()).is_none()
}

impl Sender {
    fn is_good(&self, waiting: &[u8]) -> bool {
        self.config.is_good()
            && paired(self.accepted.epoch, self.accepted.round)
            && self.times.iter().all(|time| *time <= LAST_DUE)
            && flags(&self.taken)
            && (waiting.len() < WAITING
                || self.slots().all(|k| Attested::kept(slot(waiting, k), self.config.n).is_some()))
    }

    /// The slots in which a report waits.
    fn slots(&self) -> impl Iterator<Item = usize> + '_ {
        (0..SLOTS).filter(|k| self.taken[*k] == 1)
    }

    /// The slot of the earliest report: by time, then epoch, round and slot.
    fn earliest(&self, waiting: &[u8]) -> Option<usize> {
        self.slots().min_by_key(|k| {
            let [a, b, c, d, round, ..] = *slot(waiting, *k);
            (self.times[*k], u32::from_be_bytes([a, b, c, d]), round)
        })
    }
}

impl LentSender {
    pub fn fresh(&mut self) -> Code {
        let code = if self.sender.config.is_good() {
            self.sender.accepted = Accepted::default();
            self.sender.times = [0; SLOTS];
            self.sender.taken = [0; SLOTS];
            Code::Done
        } else {
            Code::Config
        };
        self.outcome = Outcome::default();
        self.answer(code)
    }

    fn answer(&mut self, code: Code) -> Code {
        self.outcome.answer = code as u8;
        code
    }

    pub fn transmit(&mut self, body: &[u8], time: u64, permutation: &[u8], waiting: &mut [u8]) -> Code {
        self.outcome = Outcome::default();
        let result = self.try_transmit(body, time, permutation, waiting);
        self.answer(result.err().unwrap_or(Code::Done))
    }

    fn try_transmit(&mut self, body: &[u8], time: u64, permutation: &[u8], waiting: &mut [u8]) -> Result<(), Code> {
        ensure(self.sender.is_good(waiting), Code::State)?;
        ensure(waiting.len() >= WAITING, Code::Room)?;
        let config = &self.sender.config;
        let report = Attested::read(body)?;
        ensure(report.in_range(config.n) && time <= LAST_TIME && self.commit.in_range(), Code::Range)?;
        ensure(is_permutation(permutation, config.n), Code::Config)?;
        self.is_wanted(&report)?;
        if let Some(stage) = config.stage(permutation[usize::from(config.own - 1)]) {
            let free = self.sender.taken.iter().position(|taken| *taken == 0).ok_or(Code::Queue)?;
            keep(&mut waiting[KEPT * free..][..KEPT], body);
            self.sender.times[free] = time + stage * config.delta_stage;
            self.sender.taken[free] = 1;
        }
        let head = report.head;
        self.sender.accepted = Accepted { median: report.list.median(), epoch: head.epoch, round: head.round };
        self.set_timer(time, waiting);
        Ok(())
    }

    /// 13, then 19.
    fn is_wanted(&self, report: &Attested) -> Result<(), Code> {
        let Accepted { median, epoch, round } = self.sender.accepted;
        let commit = &self.commit;
        let head = report.head;
        ensure(
            newer(head.epoch, head.round, commit.epoch, commit.round) && newer(head.epoch, head.round, epoch, round),
            Code::Old,
        )?;
        ensure(
            epoch == 0
                || deviates(self.sender.config.alpha, median, report.list.median())
                || !newer(epoch, round, commit.epoch, commit.round),
            Code::Similar,
        )
    }

    fn set_timer(&mut self, time: u64, waiting: &[u8]) {
        match self.sender.earliest(waiting) {
            Some(k) => {
                self.outcome.transmit = SET;
                self.outcome.milliseconds = self.sender.times[k].saturating_sub(time);
            }
            None => self.outcome.transmit = STOP,
        }
    }

    pub fn timeout(&mut self, time: u64, waiting: &[u8]) -> Code {
        self.outcome = Outcome::default();
        let result = self.try_timeout(time, waiting);
        self.answer(result.err().unwrap_or(Code::Done))
    }

    fn try_timeout(&mut self, time: u64, waiting: &[u8]) -> Result<(), Code> {
        ensure(self.sender.is_good(waiting), Code::State)?;
        ensure(waiting.len() >= WAITING, Code::Room)?;
        ensure(time <= LAST_TIME && self.commit.in_range(), Code::Range)?;
        let k = self.sender.earliest(waiting).ok_or(Code::Ignored)?;
        ensure(self.sender.times[k] <= time, Code::Ignored)?;
        self.sender.taken[k] = 0;
        self.sender.times[k] = 0;
        let buffer = slot(waiting, k);
        let [a, b, c, d, round, ..] = *buffer;
        let epoch = u32::from_be_bytes([a, b, c, d]);
        if newer(epoch, round, self.commit.epoch, self.commit.round) {
            self.outcome.start = KEPT * k;
            self.outcome.len = Attested::length(buffer);
        }
        self.set_timer(time, waiting);
        Ok(())
    }
}
