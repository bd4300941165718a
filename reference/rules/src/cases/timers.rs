//! Start and the timers: each code, each pair of faults, states with one bad field, buffers and positions.

use super::builder::{must, Builder};
use super::make::{config, final_body, leader_in_round, lent, no_commit, node_in_round, slot, LAST_EPOCH, TWO_53};
use super::rng::Rng;
use crate::config::Config;
use crate::frame::Message;
use crate::node::{Arrival, Lent, Node, OUTBOX, SIGNATURES};
use crate::Code;

pub const HUGE: [u64; 6] = [TWO_53 + 1, 1 << 60, 1 << 63, (1 << 63) + 1, u64::MAX - 2399, u64::MAX];

/// The base state with one field out of its range, each in a way of its own.
pub fn bad_states(base: &Node) -> Vec<Node> {
    let mut out = Vec::new();
    let mut add = |edit: &dyn Fn(&mut Node)| {
        let mut node = base.clone();
        edit(&mut node);
        out.push(node);
    };
    add(&|x| x.highest_sent = x.epoch - 1);
    add(&|x| x.highest_sent = 0);
    add(&|x| x.epoch = LAST_EPOCH);
    for flag in [2, 128, 255] {
        add(&|x| x.started = flag);
    }
    add(&|x| x.progress_armed = 2);
    add(&|x| x.resend_armed = 2);
    add(&|x| x.live = 2);
    add(&|x| x.signed = 3);
    add(&|x| x.completed = 2);
    add(&|x| x.kept = 2);
    add(&|x| x.kept = 255);
    for j in [0, 3, 4, 30] {
        add(&|x| x.marks[j] = 2);
        add(&|x| x.observed[j] = 2);
        add(&|x| x.reported[j] = 255);
    }
    add(&|x| x.phase = 5);
    add(&|x| x.phase = 255);
    add(&|x| x.round_armed = 2);
    add(&|x| x.grace_armed = 2);
    add(&|x| x.config.n = 0);
    add(&|x| x.config.n = 32);
    add(&|x| x.config.f = 2);
    add(&|x| x.config.own = 5);
    add(&|x| x.config.own = 0);
    add(&|x| x.config.r_max = 0);
    add(&|x| x.config.r_max = 255);
    add(&|x| x.config.alpha = 1_000_000_001);
    add(&|x| x.config.delta_c = TWO_53 + 1);
    add(&|x| x.config.delta_stage = 86_400_001);
    add(&|x| x.config.stages = 0);
    add(&|x| x.config.stages = 9);
    add(&|x| x.config.schedule[0] = 0);
    add(&|x| x.config.schedule[0] = 4);
    out
}

/// States with unlikely but good numbers.
pub fn odd_good_states(base: &Node) -> Vec<Node> {
    let mut out = Vec::new();
    let mut add = |edit: &dyn Fn(&mut Node)| {
        let mut node = base.clone();
        edit(&mut node);
        out.push(node);
    };
    add(&|x| x.highest_sent = LAST_EPOCH);
    add(&|x| x.round = 255);
    add(&|x| x.leader_round = 255);
    add(&|x| x.heard = [LAST_EPOCH; 31]);
    add(&|x| x.marks = [1; 31]);
    add(&|x| {
        x.observed = [1; 31];
        x.reported = [1; 31];
        x.values = [i64::MIN; 31];
    });
    add(&|x| x.config.schedule[7] = 0xFF);
    out
}

/// Kept buffers of full size whose body fails RANGE, and ones that look odd but pass.
pub fn kept_buffers(rng: &mut Rng) -> Vec<(bool, Vec<u8>)> {
    let entries = [(3, -5), (1, 100), (4, 105)];
    let body = final_body(rng, 5, 2, &entries, &[1, 3]).write();
    let edited = |place: usize, byte: u8| {
        let mut buffer = slot(&body);
        buffer[place] = byte;
        buffer
    };
    let s = 6 + 9 * 3;
    let mut out = vec![(true, slot(&body))];
    // Epoch 0, round 0.
    let mut zero_epoch = slot(&body);
    zero_epoch[..4].fill(0);
    out.push((false, zero_epoch));
    out.push((false, edited(4, 0)));
    // m, s and members.
    for byte in [0, 5] {
        out.push((false, edited(5, byte)));
        out.push((false, edited(s, byte)));
    }
    for (place, byte) in [(6, 0), (6, 5), (6 + 18, 0), (6 + 18, 5), (s + 1, 0), (s + 1, 5), (s + 66, 0), (s + 66, 5)] {
        out.push((false, edited(place, byte)));
    }
    out.push((false, vec![0xFF; 2304]));
    // Another epoch and round, values that fall, members twice, few entries, one signer, bytes after it.
    out.push((true, slot(&final_body(rng, 77, 9, &[(2, 9), (2, -9)], &[4]).write())));
    out.push((true, slot(&final_body(rng, LAST_EPOCH, 255, &[(4, i64::MIN)], &[2, 2, 2, 2]).write())));
    let mut after = slot(&body);
    after[body.len()..].fill(0xDD);
    out.push((true, after));
    out
}

/// Buffers and positions that have no room.
fn no_room() -> Vec<(Lent, u64)> {
    let good = lent();
    let mut out = Vec::new();
    for at in [1, 2399, 2400, 2401].into_iter().chain(HUGE) {
        out.push((good.clone(), at));
    }
    for length in [0, 1, OUTBOX - 1] {
        out.push((Lent { outbox: vec![0xEE; length], ..good.clone() }, 0));
    }
    for at in [101, 2499, 2500, 2501, u64::MAX - 100] {
        out.push((Lent { outbox: vec![0xEE; OUTBOX + 100], ..good.clone() }, at));
    }
    for length in [0, 1, 2303] {
        out.push((Lent { kept: vec![0; length], ..good.clone() }, 0));
    }
    out.push((Lent { outbox: vec![0xEE; OUTBOX - 1], kept: vec![0; 2303], signatures: vec![] }, 0));
    for length in [0, SIGNATURES - 1] {
        out.push((Lent { signatures: vec![0; length], ..good.clone() }, 0));
    }
    out
}

/// Buffers that are longer than their sizes, with other bytes in them.
pub fn long_buffers() -> Vec<(Lent, u64)> {
    let mut out = Vec::new();
    for (outbox, at, kept, signatures) in [
        (OUTBOX + 1, 1, 2305, SIGNATURES + 1),
        (OUTBOX + 100, 37, 2404, SIGNATURES + 64),
        (8192, 8192 - OUTBOX as u64, 2304, SIGNATURES),
    ] {
        out.push((Lent { outbox: vec![0xA5; outbox], kept: vec![0x5A; kept], signatures: vec![0xC3; signatures] }, at));
    }
    out
}

/// NEWEPOCH 9 from member 1.
fn newepoch(at: u64) -> Arrival {
    Arrival {
        link: 1,
        time: 1_000,
        observation: 0,
        commit: no_commit(),
        bits: 0,
        at,
        frame: Message::NewEpoch { epoch: 9 }.frame(1, config(4, 1, 1).number),
    }
}

/// Codes 2, 3, 9, 1 in pairs for Start, and every single fault.
fn start(builder: &mut Builder, rng: &mut Rng) {
    let good = Node { config: config(4, 1, 3), ..Node::default() };
    let all_good = lent();
    let mut running = node_in_round(3);
    let mut started = good.clone();
    started.started = 1;
    let mut bad = good.clone();
    bad.phase = 5;
    let mut bad_and_started = bad.clone();
    bad_and_started.started = 1;

    builder.lent(&all_good);
    // Time bounds.
    for time in [0, 1, u32::MAX as u64, 1 << 32, TWO_53 - 1, TWO_53] {
        builder.node(&good);
        must(builder.start(time, 0), Code::Done, "start");
    }
    builder.node(&good);
    for time in HUGE {
        must(builder.start(time, 0), Code::Range, "time past 2^53");
    }
    // Start twice.
    must(builder.start(5, 0), Code::Done, "start");
    must(builder.start(5, 0), Code::Ignored, "start twice");
    must(builder.start(TWO_53, 0), Code::Ignored, "start twice");
    builder.node(&running);
    must(builder.start(5, 0), Code::Ignored, "a running node");

    // Pairs: 2 before 3, 9, 1; 3 before 9, 1; 9 before 1.
    builder.node(&bad);
    must(builder.start(0, 0), Code::State, "2");
    must(builder.start(0, 1), Code::State, "2 before 3");
    must(builder.start(TWO_53 + 1, 0), Code::State, "2 before 9");
    must(builder.start(TWO_53 + 1, 1), Code::State, "2 before 3, 9");
    builder.node(&bad_and_started);
    must(builder.start(0, 0), Code::State, "2 before 1");
    must(builder.start(u64::MAX, u64::MAX), Code::State, "2 before 3, 9, 1");
    builder.node(&good);
    must(builder.start(0, 1), Code::Room, "3");
    must(builder.start(TWO_53 + 1, 1), Code::Room, "3 before 9");
    builder.node(&started);
    must(builder.start(0, 1), Code::Room, "3 before 1");
    must(builder.start(TWO_53 + 1, 1), Code::Room, "3 before 9, 1");
    must(builder.start(TWO_53 + 1, 0), Code::Range, "9 before 1");
    must(builder.start(TWO_53, 0), Code::Ignored, "1");

    // States with one bad field; odd but good ones.
    running.started = 0;
    for node in bad_states(&running) {
        builder.node(&node);
        must(builder.start(0, 0), Code::State, "a bad field");
        must(builder.timer(1, 0, 0), Code::State, "a bad field");
        must(builder.deliver(&newepoch(0)), Code::State, "a bad field");
    }
    for node in odd_good_states(&running) {
        builder.node(&node);
        must(builder.start(0, 0), Code::Done, "an odd state");
    }
    // No room, for a fresh node and one in the midst of a round.
    for (lent, at) in no_room() {
        builder.lent(&lent);
        builder.node(&good);
        must(builder.start(0, at), Code::Room, "no room");
        must(builder.timer(0, 0, at), Code::Room, "no room");
        must(builder.deliver(&newepoch(at)), Code::Room, "no room");
    }
    for (lent, at) in &long_buffers()[..1] {
        builder.lent(lent);
        builder.node(&good);
        must(builder.start(0, *at), Code::Done, "long buffers");
    }
    // A kept body is looked into only in a buffer of full size.
    let mut held = running.clone();
    held.kept = 1;
    builder.lent(&all_good);
    for (fine, buffer) in kept_buffers(rng) {
        builder.kept(&buffer);
        builder.node(&held);
        must(builder.start(0, 0), if fine { Code::Done } else { Code::State }, "a kept body");
    }
    builder.node(&running);
    builder.kept(&vec![0xFF; 2304]);
    must(builder.start(0, 0), Code::Done, "any bytes where nothing is held");
    builder.node(&held);
    builder.kept(&vec![0; 2303]);
    must(builder.start(0, 0), Code::Room, "a bad body in a short buffer");
    builder.kept(&vec![0; 2304]);
    must(builder.start(0, 1), Code::State, "a bad body, and no room elsewhere");
    builder.kept(&vec![0; 4096]);
    must(builder.start(0, 0), Code::State, "a bad body in a long buffer");
    let mut long = kept_buffers(rng)[0].1.clone();
    long.resize(2400, 0xFF);
    builder.kept(&long);
    must(builder.start(0, 0), Code::Done, "a good body in a long buffer");
    for flag in [2, 3, 255] {
        builder.node(&Node { kept: flag, ..running.clone() });
        must(builder.start(0, 0), Code::State, "a bad flag over a good body");
        must(builder.deliver(&newepoch(0)), Code::State, "a bad flag over a good body");
    }
    builder.kept(&[]);
    must(builder.start(0, 0), Code::State, "a bad flag, and a short buffer");

    // Highest sent at Start, restored nodes.
    builder.lent(&all_good);
    for highest in [0, 1, 2, 255, 256, 65_536, LAST_EPOCH - 1, LAST_EPOCH] {
        builder.restore(&good.config, 0, highest);
        must(builder.start(9, 0), Code::Done, "start");
        builder.restore(&good.config, highest, highest);
        must(builder.start(9, 0), Code::Done, "start");
        must(builder.timer(0, 10, 0), Code::Done, "resend");
        must(builder.timer(1, 10, 0), if highest == LAST_EPOCH { Code::End } else { Code::Done }, "progress");
        must(builder.timer(1, 10, 0), if highest == LAST_EPOCH { Code::End } else { Code::Ignored }, "progress");
    }
    for n in [1, 4, 31] {
        for own in [1, n] {
            let config = Config { number: u64::MAX, ..config(n, (n - 1) / 3, own) };
            builder.fresh(&config);
            must(builder.start(9, 0), Code::Done, "start");
        }
    }
}

fn edited(base: &Node, edit: impl Fn(&mut Node)) -> Node {
    let mut node = base.clone();
    edit(&mut node);
    node
}

fn timers(builder: &mut Builder, rng: &mut Rng) {
    let follower = node_in_round(3);
    let leader = leader_in_round(2, 3);
    let mut signed = lent();
    signed.signatures = rng.bytes(SIGNATURES);

    // Each timer: DONE, unarmed, not started, and with faults in pairs.
    for timer in 0..4 {
        let disarm = |x: &mut Node| {
            x.resend_armed = 0;
            x.progress_armed = 0;
            x.round_armed = 0;
            x.grace_armed = 0;
        };
        builder.lent(&signed);
        for base in [&follower, &leader] {
            let is_leader = base.config.own == 2;
            let runs = timer < 2 || is_leader;
            let base = edited(base, |x| {
                x.round_armed = 1;
                x.grace_armed = 1;
            });
            if is_leader != (timer >= 2) {
                builder.node(&base);
                must(builder.timer(timer, 1_000, 0), if runs { Code::Done } else { Code::Ignored }, "a timer");
                continue;
            }
            let ignored = edited(&base, disarm);
            builder.node(&base);
            builder.signatures(&signed.signatures);
            must(builder.timer(timer, 1_000, 0), if runs { Code::Done } else { Code::Ignored }, "a timer");
            builder.signatures(&signed.signatures);
            builder.node(&base);
            must(builder.timer(timer, TWO_53 + 1, 0), Code::Range, "9");
            must(builder.timer(timer, 5, 1), Code::Room, "3");
            must(builder.timer(timer, TWO_53 + 1, 1), Code::Room, "3 before 9");
            must(builder.timer(timer, u64::MAX, u64::MAX), Code::Room, "3 before 9");
            builder.node(&ignored);
            must(builder.timer(timer, 5, 0), Code::Ignored, "1");
            must(builder.timer(timer, TWO_53, 0), Code::Ignored, "1");
            must(builder.timer(timer, TWO_53 + 1, 0), Code::Range, "9 before 1");
            must(builder.timer(timer, 5, 1), Code::Room, "3 before 1");
            builder.node(&edited(&ignored, |x| x.phase = 9));
            must(builder.timer(timer, 5, 0), Code::State, "2 before 1");
            must(builder.timer(timer, TWO_53 + 1, 0), Code::State, "2 before 9");
            must(builder.timer(timer, 5, 1), Code::State, "2 before 3");
            builder.node(&edited(&base, |x| x.started = 0));
            must(builder.timer(timer, 5, 0), Code::Ignored, "before Start");
            must(builder.timer(timer, TWO_53 + 1, 0), Code::Range, "9 before 1");
        }
    }
    // A number that names no timer is a timer that is never armed.
    for timer in [4, 255] {
        for base in [&follower, &leader] {
            builder.lent(&signed);
            builder.node(base);
            must(builder.timer(timer, 5, 0), Code::Ignored, "1");
            must(builder.timer(timer, TWO_53, 0), Code::Ignored, "1");
            must(builder.timer(timer, TWO_53 + 1, 0), Code::Range, "9 before 1");
            must(builder.timer(timer, 5, 1), Code::Room, "3 before 1");
            must(builder.timer(timer, TWO_53 + 1, 1), Code::Room, "3 before 9");
            builder.node(&edited(base, |x| x.phase = 9));
            must(builder.timer(timer, 5, 0), Code::State, "2 before 1");
            must(builder.timer(timer, 5, 1), Code::State, "2 before 3");
            builder.node(&edited(base, |x| x.started = 0));
            must(builder.timer(timer, 5, 0), Code::Ignored, "before Start");
        }
    }
    // Buffers.
    builder.node(&leader);
    for at in [1, 2399, 2400, 2401].into_iter().chain(HUGE) {
        must(builder.timer(2, 0, at), Code::Room, "no room");
    }
    for (lent, at) in &long_buffers()[1..2] {
        builder.lent(lent);
        for timer in [0, 1, 3, 2] {
            builder.node(&leader);
            must(builder.timer(timer, 0, *at), Code::Done, "long buffers");
        }
    }
    builder.lent(&signed);

    // T_resend and T_progress by epoch and highest sent.
    for (epoch, highest) in [
        (0, 0),
        (0, 1),
        (0, 2),
        (1, 1),
        (5, 5),
        (5, 6),
        (5, 7),
        (5, 9),
        (LAST_EPOCH - 1, LAST_EPOCH - 1),
        (LAST_EPOCH - 1, LAST_EPOCH),
        (5, LAST_EPOCH),
        (LAST_EPOCH, LAST_EPOCH),
    ] {
        let node = edited(&follower, |x| {
            x.epoch = epoch;
            x.highest_sent = highest;
        });
        builder.node(&node);
        must(builder.timer(0, 5, 0), if highest == 0 { Code::Ignored } else { Code::Done }, "resend");
        builder.node(&node);
        let end = epoch == LAST_EPOCH;
        must(builder.timer(1, 5, 0), if end { Code::End } else { Code::Done }, "progress");
        must(builder.timer(1, 5, 0), if end { Code::End } else { Code::Ignored }, "progress again");
    }
    // END and faults before it.
    let last = edited(&follower, |x| {
        x.epoch = LAST_EPOCH;
        x.highest_sent = LAST_EPOCH;
    });
    builder.node(&last);
    must(builder.timer(1, 5, 1), Code::Room, "3 before 11");
    must(builder.timer(1, TWO_53 + 1, 0), Code::Range, "9 before 11");
    builder.node(&edited(&last, |x| x.progress_armed = 0));
    must(builder.timer(1, 5, 0), Code::Ignored, "1 before 11");
    builder.node(&edited(&last, |x| x.kept = 7));
    must(builder.timer(1, 5, 0), Code::State, "2 before 11");
    builder.node(&edited(&last, |x| x.started = 0));
    must(builder.timer(1, 5, 0), Code::Ignored, "1 before 11");

    // T_round by the leader's count and r_max.
    for (r_max, counts) in [
        (1, vec![0, 1, 2, 254, 255]),
        (3, vec![0, 2, 3, 4, 255]),
        (253, vec![252, 253, 254, 255]),
        (254, vec![1, 252, 253, 254, 255]),
    ] {
        for count in counts {
            let node = edited(&leader, |x| {
                x.config.r_max = r_max;
                x.leader_round = count;
            });
            builder.node(&node);
            must(builder.timer(2, 5, 0), if count == 255 { Code::End } else { Code::Done }, "T_round");
        }
    }
    let past = edited(&leader, |x| x.leader_round = 255);
    builder.node(&past);
    must(builder.timer(2, 5, 1), Code::Room, "3 before 11");
    must(builder.timer(2, TWO_53 + 1, 0), Code::Range, "9 before 11");
    builder.node(&edited(&past, |x| x.reported[30] = 2));
    must(builder.timer(2, 5, 0), Code::State, "2 before 11");
    builder.node(&edited(&past, |x| x.live = 0));
    must(builder.timer(2, 5, 0), Code::Ignored, "1 before 11: halted");
    builder.node(&edited(&past, |x| x.config.own = 1));
    must(builder.timer(2, 5, 0), Code::Ignored, "1 before 11: not the leader");
    builder.node(&edited(&past, |x| x.round_armed = 0));
    must(builder.timer(2, 5, 0), Code::Ignored, "1 before 11: unarmed");
    builder.node(&edited(&leader, |x| x.live = 0));
    must(builder.timer(2, 5, 0), Code::Ignored, "halted");
    must(builder.timer(3, 5, 0), Code::Ignored, "halted");
    builder.node(&edited(&leader, |x| {
        x.epoch = 0;
        x.config.own = 1;
    }));
    must(builder.timer(2, 5, 0), Code::Ignored, "epoch 0 has no leader");
    must(builder.timer(3, 5, 0), Code::Ignored, "epoch 0 has no leader");
    // Entries past n are written by a reset, and stay where nothing is reset.
    let past_n = edited(&leader, |x| {
        x.marks = [1; 31];
        x.observed[4..].fill(1);
        x.reported = [1; 31];
        x.values[4..].fill(-7);
        x.heard[4..].fill(LAST_EPOCH);
    });
    for timer in 0..4 {
        builder.node(&past_n);
        builder.signatures(&signed.signatures);
        must(builder.timer(timer, 5, 0), Code::Done, "entries past n");
    }

    // T_grace by phase, count of observations and leader's count.
    for phase in 0..=4 {
        for observed in if phase == 2 { 0..=4 } else { 3..=3 } {
            let node = edited(&leader_in_round(phase, observed), |x| x.grace_armed = 1);
            builder.node(&node);
            builder.signatures(&signed.signatures);
            let runs = phase == 2 && observed > 2;
            must(builder.timer(3, 5, 0), if runs { Code::Done } else { Code::Ignored }, "T_grace");
        }
    }
    builder.node(&edited(&leader, |x| x.leader_round = 0));
    must(builder.timer(3, 5, 0), Code::Ignored, "leader's count 0");
    builder.node(&edited(&leader, |x| {
        x.observed = [1; 31];
        x.observed[..2].fill(0);
    }));
    must(builder.timer(3, 5, 0), Code::Ignored, "two observations, and some past n");
    // The order of the list: equal values, negative values, the ends of the range.
    for values in [
        [5, 5, 5, 5],
        [7, 5, 5, 7],
        [-1, 1, 0, -2],
        [i64::MAX, i64::MIN, 0, -1],
        [i64::MIN, i64::MIN, i64::MAX, i64::MAX],
        [256, 255, 65_536, 1],
        [-256, -255, 1 << 62, -(1 << 62)],
        [4, 3, 2, 1],
        [1, 2, 3, 4],
    ] {
        for left_out in [1, 4] {
            let node = edited(&leader, |x| {
                for j in 0..4 {
                    x.observed[j] = if j == left_out { 0 } else { 1 };
                    x.values[j] = values[j];
                }
            });
            builder.node(&node);
            must(builder.timer(3, 5, 0), Code::Done, "T_grace");
        }
    }
    // n = 31, n = 1.
    for (n, f, own) in [(31, 10, 6), (1, 0, 1), (7, 2, 6)] {
        let mut node = leader.clone();
        node.config = config(n, f, own);
        node.observed[..n as usize].fill(1);
        for j in 0..n as usize {
            node.values[j] = rng.between(0, 9) as i64 - 5;
        }
        builder.node(&node);
        builder.signatures(&rng.bytes(SIGNATURES));
        must(builder.timer(3, 5, 0), Code::Done, "T_grace with all");
        must(builder.timer(2, 5, 0), Code::Done, "T_round");
    }
}

pub fn cases(builder: &mut Builder, rng: &mut Rng) {
    start(builder, rng);
    timers(builder, rng);
}
