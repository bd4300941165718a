//! 01, "Numbers" and "Codes": the configuration, its limits, the contract's last commit.

pub const MEMBERS: usize = 31;
pub const STAGES: usize = 8;
pub const SLOTS: usize = 16;
pub const SIGNATURE: usize = 64;
pub const OUTBOX: usize = 2400;
pub const KEPT: usize = 2304;
pub const REPORT_SIGNATURES: usize = MEMBERS * SIGNATURE;
pub const SIGNATURES: usize = 2 * REPORT_SIGNATURES;
pub const WAITING: usize = SLOTS * KEPT;

pub const MOST_ALPHA: u32 = 1_000_000_000;
pub const LAST_TIME: u64 = 1 << 53;
pub const LONGEST_STAGE: u64 = 86_400_000;
pub const LAST_DUE: u64 = LAST_TIME + STAGES as u64 * LONGEST_STAGE;
pub const MOST_FEE: u64 = 1_000_000_000;
pub const MOST_DEPOSITS: u64 = 1 << 53;

#[repr(u8)]
#[derive(Clone, Copy, PartialEq, Eq)]
pub enum Code {
    Done = 0,
    Ignored = 1,
    State = 2,
    Room = 3,
    Short = 4,
    Version = 5,
    Kind = 6,
    Sender = 7,
    Length = 8,
    Range = 9,
    Proof = 10,
    End = 11,
    Config = 12,
    Old = 13,
    Few = 14,
    Order = 15,
    Twice = 16,
    Signers = 17,
    Funds = 18,
    Similar = 19,
    Queue = 20,
}

/// Passes on, or answers the code.
pub fn ensure(holds: bool, code: Code) -> Result<(), Code> {
    if holds {
        Ok(())
    } else {
        Err(code)
    }
}

#[repr(C)]
#[derive(Clone, Copy)]
pub struct Config {
    pub number: u64,
    pub delta_c: u64,
    pub delta_stage: u64,
    pub alpha: u32,
    pub n: u8,
    pub f: u8,
    pub own: u8,
    pub r_max: u8,
    pub stages: u8,
    pub schedule: [u8; STAGES],
}

#[repr(C)]
#[derive(Clone, Copy, Default)]
pub struct Commit {
    pub median: i64,
    pub time: u64,
    pub epoch: u32,
    pub round: u8,
}

pub fn good_members(n: u8, f: u8) -> bool {
    (1..=MEMBERS as u8).contains(&n) && 3 * u32::from(f) < u32::from(n)
}

pub fn is_member(number: u8, n: u8) -> bool {
    (1..=n).contains(&number)
}

pub fn flags(flags: &[u8]) -> bool {
    flags.iter().all(|flag| *flag <= 1)
}

/// How many are set.
pub fn count(flags: &[u8]) -> usize {
    flags.iter().filter(|flag| **flag == 1).count()
}

impl Config {
    pub fn is_good(&self) -> bool {
        good_members(self.n, self.f)
            && is_member(self.own, self.n)
            && (1..=254).contains(&self.r_max)
            && self.alpha <= MOST_ALPHA
            && self.delta_c <= LAST_TIME
            && self.delta_stage <= LONGEST_STAGE
            && self.good_schedule()
    }

    fn good_schedule(&self) -> bool {
        let Some(stages) = self.schedule.get(..usize::from(self.stages)) else {
            return false;
        };
        let sum: u32 = stages.iter().map(|members| u32::from(*members)).sum();
        !stages.is_empty()
            && stages.iter().all(|members| *members >= 1)
            && (u32::from(self.f) + 1..=u32::from(self.n)).contains(&sum)
    }

    /// The leader of an epoch; 0 for epoch 0.
    pub fn leader(&self, epoch: u32) -> u8 {
        if epoch == 0 {
            0
        } else {
            (epoch % u32::from(self.n)) as u8 + 1
        }
    }

    /// The stage that holds a place, from 1.
    pub fn stage(&self, place: u8) -> Option<u64> {
        let mut reached = 0;
        for (k, members) in self.schedule[..usize::from(self.stages)].iter().enumerate() {
            reached += u32::from(*members);
            if u32::from(place) <= reached {
                return Some(k as u64 + 1);
            }
        }
        None
    }

    pub fn members(&self) -> usize {
        usize::from(self.n)
    }

    pub fn faulty(&self) -> usize {
        usize::from(self.f)
    }
}

/// Both 0 or neither.
pub fn paired(epoch: u32, round: u8) -> bool {
    (epoch == 0) == (round == 0)
}

impl Commit {
    pub fn in_range(&self) -> bool {
        paired(self.epoch, self.round) && self.time <= LAST_TIME
    }
}
