//! Good values that the cases start from.

use super::rng::Rng;
use crate::config::{Commit, Config, Terms};
use crate::frame::{FinalBody, Observed, SignedObserved, Signer};
use crate::node::{Lent, Node, OUTBOX, SIGNATURES};

pub const TWO_53: u64 = 1 << 53;
pub const LAST_EPOCH: u32 = u32::MAX;

/// Bits that are all set.
pub const ALL: u64 = u64::MAX;

/// A good configuration: f+1 members in the first stage, one in the second if there is one left.
pub fn config(n: u8, f: u8, own: u8) -> Config {
    let mut schedule = [0; 8];
    schedule[0] = f + 1;
    let stages = if f + 2 <= n { 2 } else { 1 };
    if stages == 2 {
        schedule[1] = 1;
    }
    Config {
        number: 0x0A0B_0C0D_0102_0304,
        delta_c: 60_000,
        delta_stage: 30_000,
        alpha: 5_000_000,
        n,
        f,
        own,
        r_max: 3,
        stages,
        schedule,
    }
}

pub fn terms(n: u8, f: u8) -> Terms {
    Terms { observation_fee: 100, sending_fee: 1_000, n, f }
}

pub fn no_commit() -> Commit {
    Commit::default()
}

pub fn commit(epoch: u32, round: u8, median: i64, time: u64) -> Commit {
    Commit { median, time, epoch, round }
}

/// Buffers of exactly their sizes, the outbox full of 0xEE.
pub fn lent() -> Lent {
    Lent { outbox: vec![0xEE; OUTBOX], kept: vec![0; 2304], signatures: vec![0; SIGNATURES] }
}

pub fn list(entries: &[(u8, i64)]) -> Vec<Observed> {
    entries.iter().map(|(member, value)| Observed { member: *member, value: *value }).collect()
}

pub fn signed_list(rng: &mut Rng, entries: &[(u8, i64)]) -> Vec<SignedObserved> {
    entries
        .iter()
        .map(|(member, value)| SignedObserved { member: *member, value: *value, signature: rng.signature() })
        .collect()
}

pub fn signers(rng: &mut Rng, members: &[u8]) -> Vec<Signer> {
    members.iter().map(|member| Signer { member: *member, signature: rng.signature() }).collect()
}

pub fn final_body(rng: &mut Rng, epoch: u32, round: u8, entries: &[(u8, i64)], signed: &[u8]) -> FinalBody {
    FinalBody { epoch, round, list: list(entries), signers: signers(rng, signed) }
}

/// A kept buffer or slot of 2,304 bytes with a body at its start.
pub fn slot(body: &[u8]) -> Vec<u8> {
    let mut bytes = body.to_vec();
    bytes.resize(2304, 0);
    bytes
}

/// A node that has started and is in round 2 of epoch 5 (n = 4: led by member 2).
pub fn node_in_round(own: u8) -> Node {
    let mut node = Node { config: config(4, 1, own), ..Node::default() };
    node.epoch = 5;
    node.highest_sent = 5;
    node.heard[..4].copy_from_slice(&[5, 5, 5, 4]);
    node.started = 1;
    node.progress_armed = 1;
    node.resend_armed = 1;
    node.live = 1;
    node.round = 2;
    node
}

/// The leader of epoch 5 in round 2, with observations of the first `observed` members.
pub fn leader_in_round(phase: u8, observed: usize) -> Node {
    let mut node = node_in_round(2);
    node.phase = phase;
    node.leader_round = 2;
    node.round_armed = 1;
    node.grace_armed = if phase == 2 { 1 } else { 0 };
    for j in 0..observed {
        node.observed[j] = 1;
        node.values[j] = [105, 100, 107, 9000][j];
    }
    node
}
