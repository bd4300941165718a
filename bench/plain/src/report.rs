//! Whether a report stands, is due, is newer: one account for follower, sender and contract.

use crate::config::{Code, Commit, Config};
use crate::frame::{Attested, List};

/// What is wrong with a report; the numbers are those of `enum wederburh_fault`.
#[derive(Clone, Copy)]
pub enum Fault {
    Few,
    Falling,
    Twice,
    FewSigners,
    SignerTwice(usize),
    ClearBit(usize),
}

impl Fault {
    pub fn code(self) -> Code {
        match self {
            Fault::Few => Code::Few,
            Fault::Falling => Code::Order,
            Fault::Twice => Code::Twice,
            Fault::FewSigners | Fault::SignerTwice(_) | Fault::ClearBit(_) => Code::Signers,
        }
    }
}

/// The place of the first number, all below 32, that an earlier one equals.
pub fn repeated(members: impl Iterator<Item = u8>) -> Option<usize> {
    let mut met = 0u32;
    for (place, member) in members.enumerate() {
        let bit = 1 << (member & 31);
        if met & bit != 0 {
            return Some(place);
        }
        met |= bit;
    }
    None
}

/// The place of the first clear bit among the first `many`, at most 31.
pub fn clear_bit(bits: u64, many: usize) -> Option<usize> {
    let place = bits.trailing_ones() as usize;
    (place < many).then_some(place)
}

/// Checks 14 to 16.
pub fn check_list<const STRIDE: usize>(list: List<STRIDE>, f: usize) -> Result<(), Fault> {
    if list.len() <= 2 * f {
        return Err(Fault::Few);
    }
    if !list.entries().map(|(_, value)| value).is_sorted() {
        return Err(Fault::Falling);
    }
    match repeated(list.members()) {
        Some(_) => Err(Fault::Twice),
        None => Ok(()),
    }
}

/// Checks 14 to 17.
pub fn check(body: &Attested, f: usize, bits: u64) -> Result<(), Fault> {
    check_list(body.list, f)?;
    if body.signer_count() <= f {
        return Err(Fault::FewSigners);
    }
    if let Some(place) = repeated(body.signers()) {
        return Err(Fault::SignerTwice(place));
    }
    match clear_bit(bits, body.signer_count()) {
        Some(place) => Err(Fault::ClearBit(place)),
        None => Ok(()),
    }
}

pub fn deviates(alpha: u32, old: i64, new: i64) -> bool {
    u128::from(new.abs_diff(old)) * 1_000_000_000 > u128::from(old.unsigned_abs()) * u128::from(alpha)
}

pub fn is_due(config: &Config, commit: &Commit, now: u64, median: i64) -> bool {
    commit.epoch == 0
        || deviates(config.alpha, commit.median, median)
        || now.saturating_sub(commit.time) > config.delta_c
}

pub fn newer(epoch: u32, round: u8, than_epoch: u32, than_round: u8) -> bool {
    (epoch, round) > (than_epoch, than_round)
}

/// Keeps a body at the start of a buffer, with zeros after it.
pub fn keep(buffer: &mut [u8], body: &[u8]) {
    let (front, rest) = buffer.split_at_mut(body.len());
    front.copy_from_slice(body);
    rest.fill(0);
}
