//! Deliveries: each kind with each code, pairs of faults, damaged frames, and the rules' conditions one by one.

use super::builder::{must, Builder};
use super::make::{
    commit, config, final_body, leader_in_round, lent, list, no_commit, node_in_round, signed_list, slot, ALL,
    LAST_EPOCH, TWO_53,
};
use super::rng::Rng;
use super::timers::{long_buffers, odd_good_states};
use crate::config::Commit;
use crate::frame::{trailer, FinalBody, Message};
use crate::node::{Arrival, Node, SIGNATURES};
use crate::Code;

/// A delivery with all its parts open to faults.
#[derive(Clone)]
struct Delivery {
    node: Node,
    /// The kept buffer; None leaves it as it is, which must not matter where nothing is kept.
    kept: Option<Vec<u8>>,
    link: u8,
    time: u64,
    observation: i64,
    commit: Commit,
    bits: u64,
    at: u64,
    /// Bytes before the body.
    before: Vec<u8>,
    body: Vec<u8>,
    kind: u8,
    sender: u8,
    version: u16,
    /// The body length said by the trailer, if it isn't the body's.
    length: Option<u32>,
    number: u64,
}

impl Delivery {
    fn new(node: Node, sender: u8, message: &Message) -> Delivery {
        Delivery {
            number: node.config.number,
            node,
            kept: None,
            link: sender,
            time: 1_000_000,
            observation: -42,
            commit: no_commit(),
            bits: ALL,
            at: 0,
            before: Vec::new(),
            body: message.body(),
            kind: message.kind(),
            sender,
            version: 1,
            length: None,
        }
    }

    fn frame(&self) -> Vec<u8> {
        let length = self.length.unwrap_or(self.body.len() as u32);
        let mut frame = self.before.clone();
        frame.extend_from_slice(&self.body);
        frame.extend_from_slice(&trailer(self.kind, self.sender, self.version, length, self.number));
        frame
    }

    fn arrival(&self) -> Arrival {
        self.arrival_of(self.frame())
    }

    fn arrival_of(&self, frame: Vec<u8>) -> Arrival {
        Arrival {
            link: self.link,
            time: self.time,
            observation: self.observation,
            commit: self.commit.clone(),
            bits: self.bits,
            at: self.at,
            frame,
        }
    }

    fn with(&self, edit: impl FnOnce(&mut Delivery)) -> Delivery {
        let mut other = self.clone();
        edit(&mut other);
        other
    }

    fn make(&self, builder: &mut Builder) -> Code {
        builder.node(&self.node);
        if let Some(kept) = &self.kept {
            builder.kept(kept);
        }
        builder.deliver(&self.arrival())
    }

    fn must(&self, builder: &mut Builder, code: Code, what: &str) {
        must(self.make(builder), code, what);
    }
}

/// For each kind a delivery that is DONE, in a state that is in the midst of a round (n = 4, f = 1, led by 2).
fn scenarios(rng: &mut Rng) -> Vec<Delivery> {
    let entries = [(2, 100), (1, 105), (3, 107)];
    let body = final_body(rng, 5, 2, &entries, &[1, 4]);
    let follower = node_in_round(3);
    let signature = rng.signature();
    vec![
        Delivery::new(follower.clone(), 4, &Message::NewEpoch { epoch: 6 }),
        Delivery::new(follower.clone(), 2, &Message::ObserveReq { epoch: 5, round: 3 }),
        Delivery::new(leader_in_round(1, 2), 3, &Message::Observe { epoch: 5, round: 2, value: -7, signature }),
        Delivery::new(
            follower.clone(),
            2,
            &Message::ReportReq { epoch: 5, round: 2, list: signed_list(rng, &entries) },
        ),
        Delivery::new(
            leader_in_round(3, 3),
            4,
            &Message::Report { epoch: 5, round: 2, list: list(&entries), signature },
        ),
        Delivery::new(follower.clone(), 2, &Message::Final(body.clone())),
        Delivery::new(follower, 1, &Message::FinalEcho(body)),
    ]
}

type Fault = (Code, fn(&mut Delivery));

/// One fault for each code of a delivery's list up to IGNORED, in that order.
const FAULTS: [Fault; 9] = [
    (Code::State, |d| d.node.phase = 5),
    (Code::Room, |d| d.at = 1),
    (Code::Short, |d| d.length = Some(d.body.len() as u32 + 3)),
    (Code::Version, |d| d.version = 2),
    (Code::Kind, |d| d.kind = 8),
    (Code::Sender, |d| d.link = if d.sender == 1 { 2 } else { 1 }),
    (Code::Length, |d| d.before = vec![0]),
    (Code::Range, |d| d.time = TWO_53 + 1),
    (Code::Ignored, |d| d.node.started = 0),
];

fn pairs(builder: &mut Builder, rng: &mut Rng) {
    for base in scenarios(rng) {
        base.must(builder, Code::Done, "the base");
        let mut faults: Vec<Fault> = FAULTS.to_vec();
        if base.kind >= 3 {
            faults.push((Code::Proof, |d| d.bits = 0));
        }
        let mut made: Vec<(Delivery, Code, &str)> = Vec::new();
        for (j, (later, second)) in faults.iter().enumerate() {
            made.push((base.with(second), *later, "one fault"));
            // Every pair for two kinds, neighbours in the list for the others.
            let from = if base.kind == 1 || base.kind == 6 { 0 } else { j.saturating_sub(1) };
            for (earlier, first) in &faults[from..j] {
                let both = base.with(|d| {
                    first(d);
                    second(d);
                });
                made.push((both, *earlier, "two faults"));
            }
            // All of them from one on.
            let many = base.with(|d| faults[j..].iter().for_each(|(_, fault)| fault(d)));
            made.push((many, *later, "many faults"));
        }
        // Those of the same state together.
        made.sort_by_key(|(delivery, _, _)| delivery.node.image());
        for (delivery, code, what) in made {
            delivery.must(builder, code, what);
        }
    }
    // END: a halting request in the last epoch (2^32 − 1 is led by member 4 of 4).
    let mut node = node_in_round(3);
    node.epoch = LAST_EPOCH;
    node.highest_sent = LAST_EPOCH;
    let last = Delivery::new(node, 4, &Message::ObserveReq { epoch: LAST_EPOCH, round: 4 });
    last.must(builder, Code::End, "END");
    for (code, fault) in FAULTS {
        last.with(fault).must(builder, code, "before END");
    }
    last.with(|d| d.body[4] = 2).must(builder, Code::Ignored, "1 before 11: round not higher");
    last.with(|d| d.node.live = 0).must(builder, Code::Ignored, "1 before 11: halted");
    last.with(|d| d.bits = 0).must(builder, Code::End, "bits are not read");
    last.with(|d| d.body[4] = 255).must(builder, Code::End, "round 255");
    last.with(|d| d.body[4] = 3).must(builder, Code::Done, "round r_max in the last epoch");
    // Just before the last epoch, and highest sent the last: a halt is fine.
    let mut node = node_in_round(3);
    node.epoch = LAST_EPOCH - 1;
    node.highest_sent = LAST_EPOCH - 1;
    let near = Delivery::new(node, 3, &Message::ObserveReq { epoch: LAST_EPOCH - 1, round: 4 });
    near.must(builder, Code::Done, "a halt before the last epoch");
    near.with(|d| d.node.highest_sent = LAST_EPOCH).must(builder, Code::Done, "highest sent is the last");
}

/// Two bad fields of the same or another code in the frame itself, bounds of each number.
fn bounds(builder: &mut Builder, rng: &mut Rng) {
    let all = scenarios(rng);
    for base in &all {
        // Trailer: versions, configuration numbers, kinds, senders and links.
        let full = base.kind == 1 || base.kind == 7;
        let some = |list: &[u16]| if full { list.to_vec() } else { list[..1].to_vec() };
        for version in some(&[0, 2, 256, 257, 65535]) {
            base.with(|d| d.version = version).must(builder, Code::Version, "version");
        }
        for place in some(&[0, 31, 63]) {
            base.with(|d| d.number ^= 1 << place).must(builder, Code::Version, "configuration number");
        }
        for kind in some(&[0, 8, 9, 127, 128, 255]) {
            base.with(|d| d.kind = kind as u8).must(builder, Code::Kind, "kind");
        }
        for sender in some(&[5, 0, 31, 32, 255]) {
            base.with(|d| {
                d.sender = sender as u8;
                d.link = sender as u8;
            })
            .must(builder, Code::Sender, "sender and link outside");
        }
        base.with(|d| d.sender = 0).must(builder, Code::Sender, "sender 0");
        base.with(|d| d.link = 0).must(builder, Code::Sender, "link 0");
        base.with(|d| d.sender = 5).must(builder, Code::Sender, "sender 5 on a good link");
        // Times, commits, positions.
        for time in if full { vec![TWO_53 + 1, 1 << 63, u64::MAX] } else { vec![TWO_53 + 1] } {
            base.with(|d| d.time = time).must(builder, Code::Range, "time");
            base.with(|d| d.commit.time = time).must(builder, Code::Range, "commit's time");
            base.with(|d| d.at = time).must(builder, Code::Room, "position");
        }
        for (epoch, round) in [(0, 1), (0, 255), (1, 0), (LAST_EPOCH, 0)] {
            base.with(|d| d.commit = commit(epoch, round, 5, 5)).must(builder, Code::Range, "commit");
        }
        // Epoch 0, round 0.
        base.with(|d| d.body[..4].fill(0)).must(builder, Code::Range, "epoch 0");
        if base.kind > 1 {
            base.with(|d| d.body[4] = 0).must(builder, Code::Range, "round 0");
        }
    }
    // m, s and member numbers, the length made to fit.
    let resize = |d: &mut Delivery, m: usize, s: usize, members: u8| {
        let entry = match d.kind {
            4 => 73,
            _ => 9,
        };
        let mut body = d.body[..5].to_vec();
        body.push(m as u8);
        for k in 0..m {
            let mut bytes = vec![0; entry];
            bytes[0] = if members == 0 { (k % 4) as u8 + 1 } else { members };
            body.extend_from_slice(&bytes);
        }
        match d.kind {
            4 => {}
            5 => body.extend_from_slice(&[9; 64]),
            _ => {
                body.push(s as u8);
                for k in 0..s {
                    let mut bytes = vec![7; 65];
                    bytes[0] = if members == 0 { (k % 4) as u8 + 1 } else { members };
                    body.extend_from_slice(&bytes);
                }
            }
        }
        d.body = body;
    };
    for base in &all[3..] {
        for m in [0, 5, 6] {
            base.with(|d| resize(d, m, 2, 0)).must(builder, Code::Range, "m");
        }
        for m in [1, 2] {
            base.with(|d| resize(d, m, 2, 0)).must(builder, Code::Proof, "m at most 2f, or another list");
        }
        for member in [0, 5, 31, 32, 255] {
            base.with(|d| d.body[6] = member).must(builder, Code::Range, "the first member");
        }
        let last = if base.kind == 4 { 6 + 2 * 73 } else { 6 + 2 * 9 };
        base.with(|d| d.body[last] = 0).must(builder, Code::Range, "the last member 0");
        base.with(|d| d.body[last] = 5).must(builder, Code::Range, "the last member n+1");
        // The count alone altered: the length doesn't fit.
        for m in [0, 1, 2, 4, 5, 31, 32, 255] {
            base.with(|d| d.body[5] = m).must(builder, Code::Length, "m and the length differ");
        }
    }
    for base in &all[5..] {
        let s = 6 + 9 * 3;
        for count in [0, 5, 6] {
            base.with(|d| resize(d, 3, count, 0)).must(builder, Code::Range, "s");
        }
        base.with(|d| resize(d, 3, 1, 0)).must(builder, Code::Proof, "s is f");
        base.with(|d| resize(d, 3, 4, 0)).must(builder, Code::Done, "s is n");
        base.with(|d| resize(d, 4, 4, 0)).must(builder, Code::Done, "m and s are n");
        for member in [0, 5, 255] {
            base.with(|d| d.body[s + 1] = member).must(builder, Code::Range, "the first signer");
            base.with(|d| d.body[s + 66] = member).must(builder, Code::Range, "the last signer");
        }
        for count in [0, 1, 3, 4, 5, 31, 32, 255] {
            base.with(|d| d.body[s] = count).must(builder, Code::Length, "s and the length differ");
        }
        // A length that another pair of counts would have: 65 s and 9 m together.
        base.with(|d| {
            d.body.truncate(s);
            d.body[5] = 3;
        })
        .must(builder, Code::Length, "cut before s");
        base.with(|d| d.body.truncate(s + 1)).must(builder, Code::Length, "cut after s");
    }
    // Large counts with lengths that fit: RANGE, tested after the length.
    for (kind, m, s) in [(3, 32, 0), (4, 255, 0), (5, 32, 1), (6, 1, 32), (6, 255, 1)] {
        all[kind].with(|d| resize(d, m, s, 0)).must(builder, Code::Range, "large counts");
    }
    all[6].with(|d| resize(d, 255, 255, 0)).must(builder, Code::Range, "the largest counts");
    // Two faults within the frame.
    all[5]
        .with(|d| {
            d.body[4] = 0;
            d.body[5] = 9;
        })
        .must(builder, Code::Length, "8 before 9");
    all[5]
        .with(|d| {
            d.body[4] = 0;
            d.bits = 0;
            d.node.round = 7;
        })
        .must(builder, Code::Range, "9 before 1, 10");
}

/// Damage to each byte of the trailer and each length of the frame.
fn damage(builder: &mut Builder, rng: &mut Rng) {
    for base in scenarios(rng) {
        builder.node(&base.node);
        let frame = base.frame();
        let trailer_at = frame.len() - 16;
        for k in (0..16).filter(|k| base.kind == 1 || base.kind == 7 || k % 3 == base.kind as usize % 3) {
            for flip in if base.kind == 1 { vec![1, 0x80, 0xFF] } else { vec![if k % 2 == 0 { 1 } else { 0x80 }] } {
                let mut damaged = frame.clone();
                damaged[trailer_at + k] ^= flip;
                // Another kind may have the same length (6 and 7): then the rule decides.
                builder.node(&base.node);
                builder.deliver(&base.arrival_of(damaged));
            }
        }
        // The body length one less and one more, and far off.
        let length = base.body.len() as u32;
        for (said, code) in [
            (length - 1, Code::Length),
            (length + 1, Code::Short),
            (0, Code::Length),
            (1, Code::Length),
            (length + 256, Code::Short),
            (1 << 31, Code::Short),
            (u32::MAX - 16, Code::Short),
            (u32::MAX - 15, Code::Short),
            (u32::MAX, Code::Short),
        ] {
            base.with(|d| d.length = Some(said)).must(builder, code, "body length");
        }
        // Whole bodies one shorter, one longer; bytes before the body; bytes cut off the end.
        base.with(|d| d.body.truncate(length as usize - 1)).must(builder, Code::Length, "body one short");
        base.with(|d| d.body.push(0)).must(builder, Code::Length, "body one long");
        base.with(|d| d.body = vec![]).must(builder, Code::Length, "no body");
        base.with(|d| d.before = vec![9]).must(builder, Code::Length, "a byte before the body");
        base.with(|d| d.before = vec![9; 40]).must(builder, Code::Length, "bytes before the body");
        base.with(|d| {
            d.before = vec![9];
            d.length = Some(length + 1);
        })
        .must(builder, Code::Length, "a byte before, counted in");
        for cut in [1, 2, 8, 15, 16] {
            if cut < frame.len() {
                let code = builder.deliver(&base.arrival_of(frame[..frame.len() - cut].to_vec()));
                assert_ne!(code, Code::Done);
            }
        }
        for from in [1, 2] {
            must(builder.deliver(&base.arrival_of(frame[from..].to_vec())), Code::Short, "cut at the front");
        }
    }
    // Every length of slice up to 40 for two kinds, from the end and with zeros.
    for base in &scenarios(rng)[..2] {
        builder.node(&base.node);
        let frame = base.frame();
        for length in 0..frame.len() {
            let cut = frame[frame.len() - length..].to_vec();
            must(builder.deliver(&base.arrival_of(cut)), Code::Short, "cut at the front");
        }
        for length in 0..40 {
            let zeros = builder.deliver(&base.arrival_of(vec![0; length]));
            must(zeros, if length < 16 { Code::Short } else { Code::Version }, "zeros");
        }
    }
    // Bodies of every length up to 12 for the kinds with counts.
    for base in &scenarios(rng)[3..] {
        builder.node(&base.node);
        for length in [0, 4, 5, 6, 7, 12] {
            base.with(|d| d.body.truncate(length)).must(builder, Code::Length, "a short body");
        }
    }
}

fn newepochs(builder: &mut Builder, rng: &mut Rng) {
    let send = |builder: &mut Builder, from: u8, epoch: u32| {
        let node = builder.machine.node.clone();
        let arrival = Delivery::new(node, from, &Message::NewEpoch { epoch }).arrival();
        builder.deliver(&arrival)
    };
    // 01's run, then on: amplification and moves, jumps, repeats, lower numbers.
    builder.fresh(&config(4, 1, 3));
    must(send(builder, 2, 7), Code::Ignored, "before Start");
    builder.start(5, 0);
    for (from, epoch) in [
        (2, 7),
        (4, 6),
        (3, 5),
        (3, 5),
        (3, 6),
        (1, 1),
        (1, 9),
        (2, 9),
        (2, 8),
        (4, 9),
        (3, 10),
        (3, LAST_EPOCH),
        (1, LAST_EPOCH),
        (2, 20),
        (4, LAST_EPOCH),
        (4, 1),
    ] {
        must(send(builder, from, epoch), Code::Done, "NEWEPOCH");
    }
    // The largest number that more than f (2f) reach, for several n.
    for n in [1u8, 2, 3, 4, 6, 7, 10, 31] {
        for f in [0, (n - 1) / 3] {
            let own = rng.between(1, n as u64) as u8;
            builder.fresh(&config(n, f, own));
            builder.start(1, 0);
            let mut order = rng.members(n);
            order.extend(rng.members(n));
            for from in order {
                let epoch =
                    rng.pick(&[1, 2, 3, 4, 5, 6, 7, 8, own as u32 + n as u32 - 1, own as u32 + 2 * n as u32 - 1]);
                must(send(builder, from, epoch), Code::Done, "NEWEPOCH");
            }
        }
    }
    // A move out of the midst of a round, with kept report, tables, armed timers, entries past n; as leader
    // and not. Highest sent above what is heard: a move without a send.
    let body = final_body(rng, 5, 2, &[(2, 100), (1, 105), (3, 107)], &[1, 4]).write();
    for (own, highests) in [(2, vec![6]), (3, vec![5, 9]), (4, vec![6, 7])] {
        for highest in highests {
            let mut node = leader_in_round(3, 4);
            node.config.own = own;
            node.highest_sent = highest;
            node.heard[..4].copy_from_slice(&[7, 6, 5, 5]);
            node.heard[4..].fill(LAST_EPOCH);
            node.kept = 1;
            node.signed = 1;
            node.completed = 1;
            node.marks = [1; 31];
            node.observed[4..].fill(1);
            node.reported = [1; 31];
            node.values[4..].fill(i64::MIN);
            node.grace_armed = 1;
            builder.kept(&slot(&body));
            if own == 2 && highest == 6 {
                builder.signatures(&[0x77; SIGNATURES]);
            }
            builder.node(&node);
            must(send(builder, 4, 7), Code::Done, "NEWEPOCH 7: the third largest is 6, the second 7");
        }
    }
    // Entries past n are not counted.
    let mut node = node_in_round(3);
    node.heard = [0; 31];
    node.heard[4..].fill(9);
    builder.node(&node);
    must(send(builder, 1, 9), Code::Done, "one of 4");
    must(send(builder, 2, 8), Code::Done, "two of 4");
    must(send(builder, 3, 7), Code::Done, "three of 4");
    // Lent buffers longer than their sizes: only the node's bytes are zeroed.
    for (lent, at) in &long_buffers()[1..] {
        let mut node = node_in_round(3);
        node.heard[..4].copy_from_slice(&[7, 7, 5, 5]);
        builder.node(&node);
        builder.lent(lent);
        let base = Delivery::new(node, 4, &Message::NewEpoch { epoch: 6 });
        must(builder.deliver(&base.with(|d| d.at = *at).arrival()), Code::Done, "a move with long buffers");
    }
    builder.lent(&lent());
    // A leader's move writes two frames; at the last position that has room.
    let mut node = node_in_round(3);
    node.heard[..4].copy_from_slice(&[6, 6, 6, 0]);
    builder.node(&node);
    must(send(builder, 4, 6), Code::Done, "a move to an epoch that the node leads");
    // Moves to the last epoch, led by member 4; further NEWEPOCH of the same.
    let mut node = node_in_round(4);
    node.heard[..4].copy_from_slice(&[LAST_EPOCH, LAST_EPOCH, 0, 0]);
    builder.node(&node);
    must(send(builder, 3, LAST_EPOCH), Code::Done, "the last epoch");
    must(send(builder, 4, LAST_EPOCH), Code::Done, "the last epoch again");
    // Restored nodes: no rule of a round until a move to a higher epoch.
    builder.restore(&config(4, 1, 2), 5, 6);
    builder.start(3, 0);
    for message in [Message::ObserveReq { epoch: 5, round: 1 }, Message::ObserveReq { epoch: 6, round: 1 }] {
        let node = builder.machine.node.clone();
        must(builder.deliver(&Delivery::new(node, 2, &message).arrival()), Code::Ignored, "restored");
    }
    for from in 1..=4 {
        must(send(builder, from, 5), Code::Done, "the same epoch does nothing");
    }
    for from in 1..=4 {
        must(send(builder, from, 9), Code::Done, "a higher one");
    }
    let node = builder.machine.node.clone();
    let request = Delivery::new(node, 2, &Message::ObserveReq { epoch: 9, round: 1 });
    must(builder.deliver(&request.arrival()), Code::Done, "rejoined");
}

fn conditions(builder: &mut Builder, rng: &mut Rng) {
    let all = scenarios(rng);
    builder.lent(&lent());
    // Every kind but NEWEPOCH: epoch other, halted, epoch 0 in the state.
    for base in &all[1..] {
        for epoch in [1u32, 4, 6, LAST_EPOCH] {
            base.with(|d| d.body[..4].copy_from_slice(&epoch.to_be_bytes())).must(builder, Code::Ignored, "epoch");
        }
        base.with(|d| d.node.live = 0).must(builder, Code::Ignored, "halted");
        base.with(|d| {
            d.node.live = 0;
            d.bits = 0;
        })
        .must(builder, Code::Ignored, "1 before 10");
        base.with(|d| d.node.epoch = 0).must(builder, Code::Ignored, "no epoch yet");
        base.with(|d| d.body[4] = 1).must(builder, Code::Ignored, "a lower round");
    }
    // From another than the leader.
    for k in [1, 3, 5] {
        for from in [1, 3, 4] {
            all[k]
                .with(|d| {
                    d.sender = from;
                    d.link = from;
                })
                .must(builder, Code::Ignored, "not the leader");
        }
    }
    // OBSERVE-REQ by round, own round, r_max.
    let request = &all[1];
    for (own_round, r_max, round, code) in [
        (0, 3, 1, Code::Done),
        (0, 3, 3, Code::Done),
        (0, 3, 4, Code::Done),
        (0, 3, 5, Code::Done),
        (0, 3, 255, Code::Done),
        (2, 3, 2, Code::Ignored),
        (3, 3, 3, Code::Ignored),
        (3, 3, 4, Code::Done),
        (4, 3, 4, Code::Ignored),
        (4, 3, 5, Code::Done),
        (255, 3, 255, Code::Ignored),
        (254, 254, 255, Code::Done),
        (253, 254, 254, Code::Done),
        (0, 1, 1, Code::Done),
        (0, 1, 2, Code::Done),
        (1, 1, 2, Code::Done),
        (0, 254, 254, Code::Done),
    ] {
        request
            .with(|d| {
                d.node.config.r_max = r_max;
                d.node.round = own_round;
                d.body[4] = round;
            })
            .must(builder, code, "OBSERVE-REQ");
    }
    // What it clears, and what the halt leaves; observations at the ends of the range.
    let body = final_body(rng, 5, 2, &[(2, 100), (1, 105), (3, 107)], &[1, 4]).write();
    for (round, highests) in [(3, vec![5]), (4, vec![5, 6, 9]), (255, vec![6])] {
        for highest in highests {
            request
                .with(|d| {
                    d.node = leader_in_round(3, 4);
                    d.node.highest_sent = highest;
                    d.node.grace_armed = 1;
                    d.node.signed = 1;
                    d.node.completed = 1;
                    d.node.kept = 1;
                    d.node.marks = [1; 31];
                    d.node.progress_armed = 0;
                    d.kept = Some(slot(&body));
                    d.body[4] = round;
                })
                .must(builder, Code::Done, "a new round");
        }
    }
    for observation in [0, 1, -1, i64::MIN, i64::MAX, 255, -256] {
        request.with(|d| d.observation = observation).must(builder, Code::Done, "an observation");
    }
    // The kept buffer is zeroed whatever it held.
    request.with(|d| d.kept = Some(vec![0x99; 2310])).must(builder, Code::Done, "nothing kept");

    // OBSERVE by phase, count, member.
    let observe = &all[2];
    for phase in 0..=4 {
        for count in 0..4 {
            observe
                .with(|d| {
                    d.node = leader_in_round(phase, count);
                    d.sender = 4;
                    d.link = 4;
                })
                .must(builder, if phase == 1 || phase == 2 { Code::Done } else { Code::Ignored }, "OBSERVE");
        }
    }
    for from in 1..=4 {
        let code = if from <= 2 { Code::Ignored } else { Code::Done };
        observe
            .with(|d| {
                d.sender = from;
                d.link = from;
                d.bits = ALL;
            })
            .must(builder, code, "the first two have observed");
    }
    observe.with(|d| d.bits = ALL - 1).must(builder, Code::Proof, "bit clear, later ones set");
    observe.with(|d| d.bits = 1).must(builder, Code::Done, "one bit set");
    observe.with(|d| d.node.config.own = 3).must(builder, Code::Ignored, "not the leader");
    observe
        .with(|d| {
            d.node.config.own = 3;
            d.bits = 0;
        })
        .must(builder, Code::Ignored, "1 before 10");
    observe.with(|d| d.node.leader_round = 3).must(builder, Code::Ignored, "another round of the leader");
    observe.with(|d| d.node.round = 1).must(builder, Code::Done, "the follower's round doesn't count");
    observe.with(|d| d.node.observed[4..].fill(1)).must(builder, Code::Done, "entries past n don't count");
    observe
        .with(|d| {
            d.node.observed = [0; 31];
            d.node.observed[4..].fill(1);
        })
        .must(builder, Code::Done, "entries past n don't count");
    observe
        .with(|d| {
            d.node.leader_round = 4;
            d.body[4] = 4;
        })
        .must(builder, Code::Done, "after the request for r_max+1");
    for value in [0, i64::MIN, i64::MAX, -1] {
        observe.with(|d| d.body[5..13].copy_from_slice(&value.to_be_bytes())).must(builder, Code::Done, "a value");
    }
    must(builder.deliver(&observe.arrival()), Code::Ignored, "a second one");

    // REPORT-REQ.
    let report_req = &all[3];
    report_req.with(|d| d.node.signed = 1).must(builder, Code::Ignored, "signed");
    report_req.with(|d| d.node.completed = 1).must(builder, Code::Ignored, "completed");
    report_req.with(|d| d.node.round = 3).must(builder, Code::Ignored, "an old round");
    report_req.with(|d| d.node.round = 1).must(builder, Code::Ignored, "a later round");
    report_req.with(|d| d.node.kept = 1).with(|d| d.kept = Some(slot(&body))).must(builder, Code::Done, "kept already");
    for bits in [0b011, 0b101, 0b110, 0, ALL - 4] {
        report_req.with(|d| d.bits = bits).must(builder, Code::Proof, "a clear bit");
    }
    report_req.with(|d| d.bits = 0b111).must(builder, Code::Done, "just the bits needed");
    let mut lists = |entries: &[(u8, i64)]| {
        let list = signed_list(rng, entries);
        report_req.with(|d| d.body = Message::ReportReq { epoch: 5, round: 2, list }.body())
    };
    lists(&[(1, 5), (2, 6)]).must(builder, Code::Proof, "m is 2f");
    lists(&[(1, 5)]).must(builder, Code::Proof, "m is 1");
    lists(&[(1, 5), (2, 6), (1, 7)]).must(builder, Code::Proof, "a member twice");
    lists(&[(1, 5), (1, 5), (2, 7), (3, 8)]).must(builder, Code::Proof, "a member twice");
    lists(&[(1, 5), (2, 4), (3, 6)]).must(builder, Code::Proof, "falling");
    lists(&[(1, 0), (2, -1), (3, 6)]).must(builder, Code::Proof, "falling below 0");
    lists(&[(1, i64::MAX), (2, i64::MIN), (3, i64::MIN)]).must(builder, Code::Proof, "falling");
    lists(&[(4, 5), (2, 5), (3, 5)]).must(builder, Code::Done, "equal values, any order of members");
    lists(&[(4, i64::MIN), (2, -1), (3, 0), (1, i64::MAX)]).must(builder, Code::Done, "all four");
    lists(&[(1, -9), (2, -9), (3, -9), (4, -9)]).with(|d| d.bits = 0b1111).must(builder, Code::Done, "four bits");
    lists(&[(1, -9), (2, -9), (3, -9), (4, -9)]).with(|d| d.bits = 0b0111).must(builder, Code::Proof, "three bits");
    // Should be reported: the median, alpha, Delta_C.
    let medians = |builder: &mut Builder, alpha: u32, old: i64, new: i64| {
        let list = signed_list(&mut Rng::new(7), &[(1, new), (2, new), (3, new)]);
        let made = report_req.with(|d| {
            d.body = Message::ReportReq { epoch: 5, round: 2, list }.body();
            d.node.config.alpha = alpha;
            d.commit = commit(4, 1, old, 999_999);
        });
        made.must(builder, Code::Done, "a deviation");
    };
    for (alpha, old, new) in [
        (5_000_000, 20_000, 20_100),
        (5_000_000, 20_000, 20_101),
        (5_000_000, -200, -201),
        (5_000_000, -200, -202),
        (5_000_000, 0, 0),
        (5_000_000, 0, 1),
        (5_000_000, i64::MIN, i64::MAX),
        (1_000_000_000, 1, 0),
        (1_000_000_000, 0, 1),
        (1_000_000_000, -1, 0),
        (1_000_000_000, 1, 2),
        (1_000_000_000, 1, 3),
        (1_000_000_000, i64::MIN, 0),
        (1_000_000_000, i64::MIN, 1),
        (1_000_000_000, i64::MIN, -1),
        (1_000_000_000, i64::MAX, -1),
        (1_000_000_000, i64::MAX, 0),
        (1_000_000_000, i64::MAX, i64::MIN),
        (999_999_999, i64::MIN, 0),
        (0, 5, 5),
        (0, 5, 6),
        (0, i64::MIN, i64::MIN),
        (0, i64::MIN, i64::MIN + 1),
        (1, i64::MAX, i64::MAX - 9_223_372_036),
        (1, i64::MAX, i64::MAX - 9_223_372_037),
        (0, 0, 0),
        (1, i64::MIN, i64::MIN + 9_223_372_036),
        (1, i64::MIN, i64::MIN + 9_223_372_037),
        (1, 999_999_999, 1_000_000_000),
        (1, 1_000_000_000, 1_000_000_001),
        (5_000_000, 20_000, 19_900),
        (5_000_000, 20_000, 19_899),
    ] {
        medians(builder, alpha, old, new);
    }
    for (delta_c, committed, now) in [
        (0, 5, 5),
        (0, 5, 6),
        (0, 6, 5),
        (60_000, 0, 60_000),
        (60_000, 0, 60_001),
        (60_000, 60_001, 0),
        (TWO_53, 0, TWO_53),
        (TWO_53 - 1, 0, TWO_53),
        (TWO_53 - 1, 1, TWO_53),
        (0, TWO_53, 0),
        (0, TWO_53, TWO_53),
        (0, 0, 1),
        (1, TWO_53 - 1, TWO_53),
    ] {
        report_req
            .with(|d| {
                d.node.config.delta_c = delta_c;
                d.commit = commit(4, 1, 105, committed);
                d.time = now;
            })
            .must(builder, Code::Done, "Delta_C");
    }
    for commit in [commit(0, 0, 105, TWO_53), commit(1, 1, 105, 1_000_000), commit(LAST_EPOCH, 255, 105, 1_000_000)] {
        report_req.with(|d| d.commit = commit).must(builder, Code::Done, "commits");
    }
    // The round completed: T_progress restarts, armed or not.
    report_req
        .with(|d| {
            d.commit = commit(4, 1, 105, 1_000_000);
            d.node.progress_armed = 0;
        })
        .must(builder, Code::Done, "completed without a report");
    must(builder.deliver(&report_req.arrival()), Code::Ignored, "completed");

    // REPORT by phase and list.
    let report = &all[4];
    for phase in 0..=4 {
        report
            .with(|d| {
                let reported = d.node.reported;
                d.node = leader_in_round(phase, 3);
                d.node.reported = reported;
            })
            .must(builder, if phase == 3 { Code::Done } else { Code::Ignored }, "REPORT");
    }
    report.with(|d| d.node.reported[3] = 1).must(builder, Code::Ignored, "a second one");
    report.with(|d| d.node.config.own = 4).must(builder, Code::Ignored, "not the leader");
    report.with(|d| d.node.leader_round = 3).must(builder, Code::Ignored, "another round");
    report.with(|d| d.node.round = 9).must(builder, Code::Done, "the follower's round doesn't count");
    report.with(|d| d.bits = ALL - 1).must(builder, Code::Proof, "a clear bit");
    report.with(|d| d.bits = 1).must(builder, Code::Done, "one bit");
    let other = |entries: &[(u8, i64)]| {
        let body = Message::Report { epoch: 5, round: 2, list: list(entries), signature: [3; 64] }.body();
        report.with(|d| d.body = body)
    };
    other(&[(2, 100), (1, 105), (3, 107)]).must(builder, Code::Done, "the list");
    other(&[(2, 100), (1, 105), (3, 108)]).must(builder, Code::Proof, "another value");
    other(&[(2, 100), (1, 105), (4, 107)]).must(builder, Code::Proof, "another member");
    other(&[(1, 105), (2, 100), (3, 107)]).must(builder, Code::Proof, "another order");
    other(&[(2, 100), (1, 105)]).must(builder, Code::Proof, "shorter");
    other(&[(2, 100), (1, 105), (3, 107), (4, 9000)]).must(builder, Code::Proof, "longer");
    other(&[(2, 100)]).must(builder, Code::Proof, "the first only");
    // Equal values: by member.
    let equal = |d: &mut Delivery| d.node.values[..3].fill(7);
    other(&[(1, 7), (2, 7), (3, 7)]).with(equal).must(builder, Code::Done, "equal values by member");
    other(&[(2, 7), (1, 7), (3, 7)]).with(equal).must(builder, Code::Proof, "equal values in another order");
    // FINAL: more than f; the lowest f+1 in member order; signatures from the buffer.
    let signatures = rng.bytes(SIGNATURES);
    builder.signatures(&signatures);
    for (reported, from) in [
        ([0, 0, 0, 0], 4),
        ([1, 0, 0, 0], 4),
        ([0, 0, 1, 0], 2),
        ([0, 0, 0, 1], 1),
        ([1, 1, 1, 0], 4),
        ([0, 1, 1, 1], 1),
    ] {
        report
            .with(|d| {
                d.node.reported[..4].copy_from_slice(&reported);
                d.node.reported[4..].fill(1);
                d.sender = from;
                d.link = from;
            })
            .must(builder, Code::Done, "REPORT");
    }
    must(builder.deliver(&report.arrival()), Code::Ignored, "finished");
    // A list at most 2f in a state that no run reaches.
    other(&[(2, 100), (1, 105)]).with(|d| d.node.observed[2] = 0).must(
        builder,
        Code::Done,
        "the same list, though short",
    );

    attested(builder, rng, &all[5], &all[6]);

    for node in odd_good_states(&node_in_round(3)) {
        for base in [&all[0], &all[3], &all[5]] {
            base.with(|d| d.node = node.clone()).make(builder);
        }
    }
}

/// FINAL and FINAL-ECHO: the checks 14 to 17, keeping, echoing, handing out.
fn attested(builder: &mut Builder, rng: &mut Rng, fin: &Delivery, echo: &Delivery) {
    let good = [(2, 100), (1, 105), (3, 107)];
    let kept_body = final_body(rng, 5, 2, &[(4, -3), (3, -2), (2, -2), (1, 0)], &[4, 3, 2]).write();
    for base in [fin, echo] {
        let mut of = |entries: &[(u8, i64)], signers: &[u8]| {
            let body: FinalBody = final_body(rng, 5, 2, entries, signers);
            base.with(|d| d.body = body.write())
        };
        of(&good, &[1, 2]).must(builder, Code::Done, "good");
        of(&good, &[4, 1]).must(builder, Code::Done, "signers in any order");
        of(&good, &[1, 2, 3, 4]).must(builder, Code::Done, "all sign");
        of(&[(4, -1), (1, -1), (3, -1), (2, -1)], &[3, 2]).must(builder, Code::Done, "equal values in any order");
        of(&[(1, 5), (2, 6)], &[1, 2]).must(builder, Code::Proof, "m is 2f");
        of(&[(1, 5), (2, 4), (3, 6)], &[1, 2]).must(builder, Code::Proof, "falling");
        of(&[(1, 5), (2, 5), (1, 6)], &[1, 2]).must(builder, Code::Proof, "observed twice");
        of(&good, &[1]).must(builder, Code::Proof, "s is f");
        of(&good, &[1, 1]).must(builder, Code::Proof, "a signer twice");
        of(&good, &[1, 2, 1]).must(builder, Code::Proof, "a signer twice");
        for bits in [0, 1, 2, ALL - 1, ALL - 2] {
            of(&good, &[1, 2]).with(|d| d.bits = bits).must(builder, Code::Proof, "a clear bit");
        }
        of(&good, &[1, 2]).with(|d| d.bits = 3).must(builder, Code::Done, "just two bits");
        of(&good, &[1, 2, 3]).with(|d| d.bits = 3).must(builder, Code::Proof, "just two bits of three");
        base.with(|d| d.node.round = 1).must(builder, Code::Ignored, "a later round");
        base.with(|d| d.node.round = 3).must(builder, Code::Ignored, "an old round");
        base.with(|d| d.node.signed = 1).must(builder, Code::Done, "signed is fine");
        base.with(|d| d.kept = Some(vec![0xBB; 2320])).must(builder, Code::Done, "zeros after the body, up to 2,304");
    }
    // FINAL: nothing kept; completed or not.
    fin.with(|d| {
        d.node.kept = 1;
        d.kept = Some(slot(&kept_body));
    })
    .must(builder, Code::Ignored, "kept already");
    fin.with(|d| {
        d.node.kept = 1;
        d.kept = Some(slot(&kept_body));
        d.bits = 0;
    })
    .must(builder, Code::Ignored, "1 before 10");
    fin.with(|d| d.node.completed = 1).must(builder, Code::Done, "a completed round keeps and echoes");
    fin.with(|d| d.node.marks = [1; 31]).must(builder, Code::Done, "marks play no part");
    // FINAL-ECHO: marks, kept or not, the part handed out.
    echo.with(|d| d.node.completed = 1).must(builder, Code::Ignored, "completed");
    echo.with(|d| {
        d.node.completed = 1;
        d.bits = 0;
    })
    .must(builder, Code::Ignored, "1 before 10");
    echo.with(|d| d.node.marks[0] = 1).must(builder, Code::Ignored, "marked already");
    for kept in [0, 1] {
        for marks in [[0, 0, 0, 0], [0, 1, 0, 0], [0, 0, 0, 1], [0, 1, 1, 1]] {
            for past_n in [0, 1] {
                echo.with(|d| {
                    d.node.kept = kept;
                    d.kept = if kept == 1 { Some(slot(&kept_body)) } else { None };
                    d.node.marks[..4].copy_from_slice(&marks);
                    d.node.marks[4..].fill(past_n);
                    d.node.progress_armed = past_n;
                })
                .must(builder, Code::Done, "FINAL-ECHO");
            }
        }
    }
    // PROOF leaves no mark; a good frame is taken later, a second one isn't.
    echo.with(|d| d.bits = 0).must(builder, Code::Proof, "PROOF");
    must(builder.deliver(&echo.arrival()), Code::Done, "good later");
    must(builder.deliver(&echo.arrival()), Code::Ignored, "twice");
    must(builder.deliver(&fin.arrival()), Code::Ignored, "the FINAL after the echo");
    // f = 0: one echo completes.
    let single = Message::FinalEcho(final_body(rng, 5, 2, &[(1, 8)], &[1]));
    let mut node = node_in_round(1);
    node.config = config(1, 0, 1);
    Delivery::new(node.clone(), 1, &single).must(builder, Code::Done, "n is 1");
    // n = 31 with the longest body, at an odd position and with a long kept buffer.
    let entries: Vec<(u8, i64)> = (1..=31).map(|j| (j, j as i64 - 16)).collect();
    let longest = final_body(rng, 5, 2, &entries, &rng_members(31));
    node.config = config(31, 10, 7);
    node.marks[1..11].fill(1);
    let mut long = Delivery::new(node, 31, &Message::FinalEcho(longest.clone()));
    long.must(builder, Code::Done, "the longest body");
    long.node.config.own = 1;
    long.node.epoch = 5;
    long.sender = 6;
    long.link = 6;
    long.kind = 6;
    long.must(builder, Code::Done, "the longest FINAL");
}

fn rng_members(n: u8) -> Vec<u8> {
    (1..=n).rev().collect()
}

pub fn cases(builder: &mut Builder, rng: &mut Rng) {
    builder.lent(&lent());
    pairs(builder, rng);
    bounds(builder, rng);
    damage(builder, rng);
    newepochs(builder, rng);
    conditions(builder, rng);
}
