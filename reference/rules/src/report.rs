//! Median, deviation, "should be reported" and the checks 14 to 17 of a FINAL body.

use crate::config::{Commit, Config};
use crate::frame::{FinalBody, Observed};
use crate::Code;

/// "Median: entry floor(m/2), counted from 0, as written."
pub fn median(list: &[Observed]) -> i64 {
    list[list.len() / 2].value
}

/// "|new − old| × 10^9 > alpha × |old|, exactly, over the full signed range."
/// The left side is below 2^64 × 10^9, under 2^94.
pub fn deviates(alpha: u32, old: i64, new: i64) -> bool {
    let (old, new) = (old as i128, new as i128);
    (new - old).abs() * 1_000_000_000 > alpha as i128 * old.abs()
}

/// "the last commit is epoch 0 round 0, or the median deviates from the committed one, or more than
/// Delta_C has passed (nothing, if the clock is behind the commit)".
pub fn should_report(config: &Config, commit: &Commit, now: u64, median: i64) -> bool {
    let passed = if now < commit.time { 0 } else { now - commit.time };
    (commit.epoch == 0 && commit.round == 0) || deviates(config.alpha, commit.median, median) || passed > config.delta_c
}

/// Whether bit i is set.
pub fn bit(bits: u64, i: usize) -> bool {
    bits >> i & 1 == 1
}

pub fn all_bits(bits: u64, count: usize) -> bool {
    (0..count).all(|i| bit(bits, i))
}

/// "a value below the one before it".
pub fn falls(list: &[Observed]) -> bool {
    (1..list.len()).any(|i| list[i].value < list[i - 1].value)
}

/// Whether a number stands twice in a list.
pub fn twice(members: &[u8]) -> bool {
    (0..members.len()).any(|i| (0..i).any(|j| members[i] == members[j]))
}

pub fn members_of(list: &[Observed]) -> Vec<u8> {
    list.iter().map(|entry| entry.member).collect()
}

/// The checks 14 to 17, first match wins.
pub fn attested(body: &FinalBody, f: u8, bits: u64) -> Result<(), Code> {
    let f = f as usize;
    let signers: Vec<u8> = body.signers.iter().map(|entry| entry.member).collect();
    if body.list.len() <= 2 * f {
        return Err(Code::Few);
    }
    if falls(&body.list) {
        return Err(Code::Order);
    }
    if twice(&members_of(&body.list)) {
        return Err(Code::Twice);
    }
    if signers.len() <= f || twice(&signers) || !all_bits(bits, signers.len()) {
        return Err(Code::Signers);
    }
    Ok(())
}

/// Whether (epoch, round) a is above b: the epoch decides first.
pub fn newer(a: (u32, u8), b: (u32, u8)) -> bool {
    a.0 > b.0 || (a.0 == b.0 && a.1 > b.1)
}
