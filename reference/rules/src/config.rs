//! 01, "Numbers": the configuration, the contract's terms, the contract's last commit.

use crate::bytes::{Reader, Writer};

/// "Times are milliseconds; they and Delta_C are at most 2^53".
pub const MAX_TIME: u64 = 1 << 53;
/// "Alpha: 0 to 1,000,000,000 parts per billion".
pub const MAX_ALPHA: u32 = 1_000_000_000;
/// "Delta_stage at most 86,400,000".
pub const MAX_DELTA_STAGE: u64 = 86_400_000;
/// "a waiting report's time 691,200,000 more": eight stages of the longest.
pub const MAX_WAITING_TIME: u64 = MAX_TIME + 691_200_000;
/// "Fees at most 1,000,000,000 each".
pub const MAX_FEE: u64 = 1_000_000_000;
/// "All deposits ever made: at most 2^53 together".
pub const MAX_DEPOSITS: u64 = 1 << 53;
/// "Members n: 1 to 31": places of a table with one for each possible member.
pub const MEMBERS: usize = 31;
/// "Schedule: 1 to 8 stages".
pub const STAGES: usize = 8;

/// "Members n: 1 to 31, numbered from 1. Faulty f: 3f < n."
pub fn members_good(n: u8, f: u8) -> bool {
    1 <= n && n <= 31 && 3 * (f as u32) < n as u32
}

/// Whether a number names one of the members 1 to n.
pub fn is_member(number: u8, n: u8) -> bool {
    1 <= number && number <= n
}

/// The configuration of a node and of a sender.
#[derive(Clone, PartialEq, Eq, Debug, Default)]
pub struct Config {
    pub number: u64,
    pub delta_c: u64,
    pub delta_stage: u64,
    pub alpha: u32,
    pub n: u8,
    pub f: u8,
    pub own: u8,
    pub r_max: u8,
    pub stages: u8,
    pub schedule: [u8; STAGES],
}

impl Config {
    pub const IMAGE: usize = 41;

    pub fn is_good(&self) -> bool {
        members_good(self.n, self.f)
            && is_member(self.own, self.n)
            && 1 <= self.r_max
            && self.r_max <= 254
            && self.alpha <= MAX_ALPHA
            && self.delta_c <= MAX_TIME
            && self.delta_stage <= MAX_DELTA_STAGE
            && self.schedule_good()
    }

    /// "Schedule: 1 to 8 stages, each at least 1, sum above f and at most n." Numbers past the count aren't read.
    fn schedule_good(&self) -> bool {
        if self.stages < 1 || self.stages > 8 {
            return false;
        }
        let stages = &self.schedule[..self.stages as usize];
        let sum: u32 = stages.iter().map(|s| *s as u32).sum();
        stages.iter().all(|s| *s >= 1) && sum > self.f as u32 && sum <= self.n as u32
    }

    /// "Leader of e is (e mod n) + 1"; epoch 0 has none (0).
    pub fn leader(&self, epoch: u32) -> u8 {
        if epoch == 0 {
            0
        } else {
            (epoch % self.n as u32) as u8 + 1
        }
    }

    /// "stage k is the one holding p": the first k whose stages up to it reach p; none beyond the last.
    pub fn stage_of(&self, p: u8) -> Option<u64> {
        let mut reached: u32 = 0;
        for k in 1..=self.stages {
            reached += self.schedule[k as usize - 1] as u32;
            if p as u32 <= reached {
                return Some(k as u64);
            }
        }
        None
    }

    pub fn read(reader: &mut Reader) -> Config {
        Config {
            number: reader.u64(),
            delta_c: reader.u64(),
            delta_stage: reader.u64(),
            alpha: reader.u32(),
            n: reader.u8(),
            f: reader.u8(),
            own: reader.u8(),
            r_max: reader.u8(),
            stages: reader.u8(),
            schedule: reader.bytes(),
        }
    }

    pub fn write(&self, writer: &mut Writer) {
        writer.u64(self.number).u64(self.delta_c).u64(self.delta_stage).u32(self.alpha);
        writer.u8(self.n).u8(self.f).u8(self.own).u8(self.r_max).u8(self.stages).put(&self.schedule);
    }

    pub fn image(&self) -> Vec<u8> {
        let mut writer = Writer::new();
        self.write(&mut writer);
        writer.bytes
    }
}

/// The contract's terms.
#[derive(Clone, PartialEq, Eq, Debug, Default)]
pub struct Terms {
    pub observation_fee: u64,
    pub sending_fee: u64,
    pub n: u8,
    pub f: u8,
}

impl Terms {
    pub const IMAGE: usize = 18;

    pub fn is_good(&self) -> bool {
        members_good(self.n, self.f) && self.observation_fee <= MAX_FEE && self.sending_fee <= MAX_FEE
    }

    pub fn read(reader: &mut Reader) -> Terms {
        Terms { observation_fee: reader.u64(), sending_fee: reader.u64(), n: reader.u8(), f: reader.u8() }
    }

    pub fn write(&self, writer: &mut Writer) {
        writer.u64(self.observation_fee).u64(self.sending_fee).u8(self.n).u8(self.f);
    }

    pub fn image(&self) -> Vec<u8> {
        let mut writer = Writer::new();
        self.write(&mut writer);
        writer.bytes
    }
}

/// The contract's last commit: epoch, round, median, time. Epoch 0 and round 0: none.
#[derive(Clone, PartialEq, Eq, Debug, Default)]
pub struct Commit {
    pub median: i64,
    pub time: u64,
    pub epoch: u32,
    pub round: u8,
}

impl Commit {
    pub const IMAGE: usize = 21;

    /// "a commit has both 0 or neither, else RANGE"; its time is checked also when it is 0, 0.
    pub fn in_range(&self) -> bool {
        both_zero_or_neither(self.epoch, self.round) && self.time <= MAX_TIME
    }

    pub fn read(reader: &mut Reader) -> Commit {
        Commit { median: reader.i64(), time: reader.u64(), epoch: reader.u32(), round: reader.u8() }
    }

    pub fn write(&self, writer: &mut Writer) {
        writer.i64(self.median).u64(self.time).u32(self.epoch).u8(self.round);
    }

    pub fn image(&self) -> Vec<u8> {
        let mut writer = Writer::new();
        self.write(&mut writer);
        writer.bytes
    }
}

pub fn both_zero_or_neither(epoch: u32, round: u8) -> bool {
    (epoch == 0) == (round == 0)
}
