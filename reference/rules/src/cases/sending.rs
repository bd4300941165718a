//! Transmission and its timeout.

use super::builder::{must, Builder};
use super::make::{commit, config, final_body, no_commit, slot, LAST_EPOCH, TWO_53};
use super::rng::Rng;
use super::timers::HUGE;
use crate::config::{Commit, Config, MAX_WAITING_TIME};
use crate::frame::{FinalBody, SLOT};
use crate::sender::{Sender, SLOTS, WAITING};
use crate::Code;

/// A transmission with all its parts open to faults.
#[derive(Clone)]
struct Transmission {
    sender: Sender,
    now: u64,
    commit: Commit,
    permutation: Vec<u8>,
    body: Vec<u8>,
}

impl Transmission {
    fn with(&self, edit: impl FnOnce(&mut Transmission)) -> Transmission {
        let mut other = self.clone();
        edit(&mut other);
        other
    }

    fn must(&self, builder: &mut Builder, code: Code, what: &str) {
        builder.sender(&self.sender);
        must(builder.transmit(self.now, &self.commit, &self.permutation, &self.body), code, what);
    }
}

type Fault = (Code, fn(&mut Transmission));

/// One fault for each code of a transmission's list but ROOM, in that order. QUEUE needs bodies in all slots.
const FAULTS: [Fault; 7] = [
    (Code::State, |t| t.sender.times[15] = MAX_WAITING_TIME + 1),
    (Code::Length, |t| t.body.push(0)),
    (Code::Range, |t| t.now = TWO_53 + 1),
    (Code::Config, |t| t.permutation[0] = t.permutation[1]),
    (Code::Old, |t| t.sender.round = 20),
    (Code::Similar, |t| t.sender.median = 105),
    (Code::Queue, |t| t.sender.taken = [1; 16]),
];

fn report(rng: &mut Rng, epoch: u32, round: u8, value: i64) -> Vec<u8> {
    final_body(rng, epoch, round, &[(4, value), (1, value), (2, value)], &[3, 2]).write()
}

/// Sixteen bodies, and whether each passes RANGE (n = 4).
fn slots_of_bodies(rng: &mut Rng) -> (Vec<u8>, [bool; 16]) {
    let good = |rng: &mut Rng, epoch, round| slot(&report(rng, epoch, round, 7));
    let s = 6 + 9 * 3;
    let edits: [(usize, u8); 8] = [(4, 0), (5, 0), (5, 5), (6, 0), (6 + 18, 5), (s, 0), (s, 5), (s + 1, 0)];
    let mut all = Vec::new();
    all.extend(good(rng, 5, 2));
    for (place, byte) in edits {
        let mut body = good(rng, 5, 2);
        body[place] = byte;
        all.extend(body);
    }
    let mut last_signer = good(rng, 5, 2);
    last_signer[s + 66] = 5;
    all.extend(last_signer);
    all.extend(slot(&final_body(rng, 0, 2, &[(1, 1)], &[1]).write()));
    all.extend(slot(&final_body(rng, 6, 1, &[(2, 9), (2, -9)], &[4, 4, 4, 4]).write()));
    all.extend(slot(&final_body(rng, 5, 1, &[(4, i64::MIN)], &[2]).write()));
    all.extend(good(rng, 5, 2));
    all.extend(good(rng, 4, 200));
    let mut after = slot(&final_body(rng, LAST_EPOCH, 255, &[(1, 1), (2, 2), (3, 3), (4, 4)], &[1, 2, 3, 4]).write());
    let length = 7 + 9 * 4 + 65 * 4;
    after[length..].fill(0xDD);
    all.extend(after);
    let mut fine = [false; 16];
    for i in [0, 11, 12, 13, 14, 15] {
        fine[i] = true;
    }
    (all, fine)
}

pub fn cases(builder: &mut Builder, rng: &mut Rng) {
    let base_config = config(4, 1, 2);
    let fresh = Sender { config: base_config.clone(), ..Sender::default() };
    let identity: Vec<u8> = vec![1, 2, 3, 4];
    let body = report(rng, 5, 20, 105);
    let mut base = Transmission {
        sender: Sender { median: 200, epoch: 5, round: 19, ..fresh.clone() },
        now: 1_000_000,
        commit: commit(4, 1, 50, 900_000),
        permutation: identity.clone(),
        body: body.clone(),
    };

    // ROOM: slots one byte short.
    builder.slots(&vec![0xEE; WAITING - 1]);
    base.must(builder, Code::Room, "one byte short");
    builder.sender(&fresh);
    must(builder.timeout(5, &no_commit()), Code::Room, "one byte short");
    must(builder.timeout(TWO_53 + 1, &commit(1, 0, 0, 0)), Code::Room, "3 before 9, 1");
    let mut waiting = fresh.clone();
    waiting.taken = [1; 16];
    builder.sender(&waiting);
    must(builder.timeout(5, &no_commit()), Code::Room, "a bad body in a short buffer is not looked into");
    for (code, fault) in FAULTS {
        let wanted = if code == Code::State { Code::State } else { Code::Room };
        base.with(fault).must(builder, wanted, "3 and another");
    }
    let mut bad = fresh.clone();
    bad.taken[3] = 2;
    builder.sender(&bad);
    must(builder.timeout(5, &no_commit()), Code::State, "2 before 3");
    for length in [0, 1, SLOT] {
        builder.slots(&vec![0xEE; length]);
        base.must(builder, Code::Room, "short");
        builder.sender(&fresh);
        must(builder.timeout(5, &no_commit()), Code::Room, "short");
    }

    // Bodies in the slots; one byte more than the slots have.
    let (mut bodies, fine) = slots_of_bodies(rng);
    bodies.push(0xAB);
    builder.slots(&bodies);
    for i in 0..SLOTS {
        let mut one = fresh.clone();
        one.taken[i] = 1;
        one.times[i] = 100;
        builder.sender(&one);
        must(builder.timeout(99, &no_commit()), if fine[i] { Code::Ignored } else { Code::State }, "early");
        must(builder.timeout(100, &no_commit()), if fine[i] { Code::Done } else { Code::State }, "a body");
    }
    // Ties: by epoch, round, slot. One report in each timeout.
    for times in [[100; 16], [100, 0, 0, 0, 0, 0, 0, 0, 0, 0, 0, 99, 101, 100, 102, 98]] {
        let mut several = fresh.clone();
        several.times = times;
        for i in 0..SLOTS {
            several.taken[i] = fine[i] as u8;
        }
        builder.sender(&several);
        for step in 0..8 {
            let now = [98, 98, 99, 100, 100, 101, 300, 300][step];
            builder.timeout(now, &no_commit());
        }
        builder.sender(&several);
        for _ in 0..7 {
            builder.timeout(500, &commit(5, 1, 0, 0));
        }
    }
    // Not newer than the commit: removed, an empty part.
    for (epoch, round) in [(5, 1), (5, 2), (5, 3), (4, 255), (6, 1), (LAST_EPOCH, 255), (0, 0)] {
        let mut one = fresh.clone();
        one.taken[13] = 1;
        one.times[13] = TWO_53;
        builder.sender(&one);
        must(builder.timeout(TWO_53 - 1, &commit(epoch, round, 0, 0)), Code::Ignored, "early");
        must(builder.timeout(TWO_53, &commit(epoch, round, 0, TWO_53)), Code::Done, "the time itself");
    }
    // A time past 2^53 can't come.
    let mut late = fresh.clone();
    late.taken[0] = 1;
    for time in [TWO_53 + 1, MAX_WAITING_TIME - 1, MAX_WAITING_TIME] {
        late.times[0] = time;
        builder.sender(&late);
        must(builder.timeout(TWO_53, &no_commit()), Code::Ignored, "early for ever");
    }
    // RANGE of a timeout; before IGNORED.
    for time in HUGE {
        must(builder.timeout(time, &no_commit()), Code::Range, "time");
        must(builder.timeout(5, &commit(0, 0, 0, time)), Code::Range, "commit's time");
    }
    for (epoch, round) in [(0, 1), (1, 0), (LAST_EPOCH, 0), (0, 255)] {
        must(builder.timeout(5, &commit(epoch, round, 0, 0)), Code::Range, "commit");
    }
    builder.sender(&fresh);
    must(builder.timeout(TWO_53 + 1, &no_commit()), Code::Range, "9 before 1");
    must(builder.timeout(TWO_53, &no_commit()), Code::Ignored, "nothing waits");
    must(builder.timeout(0, &commit(1, 1, -5, TWO_53)), Code::Ignored, "nothing waits");

    // A sender's state with a bad field.
    let mut bad_senders: Vec<Sender> = Vec::new();
    let mut add = |edit: &dyn Fn(&mut Sender)| {
        let mut sender = fresh.clone();
        edit(&mut sender);
        bad_senders.push(sender);
    };
    add(&|s| s.epoch = 1);
    add(&|s| s.round = 1);
    add(&|s| s.epoch = LAST_EPOCH);
    add(&|s| s.round = 255);
    for i in [0, 7, 15] {
        add(&|s| s.taken[i] = 2);
        add(&|s| s.taken[i] = 255);
        add(&|s| s.times[i] = MAX_WAITING_TIME + 1);
        add(&|s| s.times[i] = u64::MAX);
    }
    add(&|s| s.config.n = 0);
    add(&|s| s.config.f = 2);
    add(&|s| s.config.own = 9);
    add(&|s| s.config.delta_stage = 86_400_001);
    add(&|s| s.config.schedule[1] = 3);
    for sender in bad_senders {
        base.with(|t| t.sender = sender.clone()).must(builder, Code::State, "a bad field");
        must(builder.timeout(5, &no_commit()), Code::State, "a bad field");
        must(builder.timeout(u64::MAX, &no_commit()), Code::State, "2 before 9");
    }
    let mut odd = fresh.clone();
    odd.times = [MAX_WAITING_TIME; 16];
    odd.median = i64::MIN;
    builder.sender(&odd);
    must(builder.timeout(5, &no_commit()), Code::Ignored, "times of free slots");

    // LENGTH and RANGE of the body. A free slot's bytes are any.
    let range: [(usize, u8); 11] = [
        (4, 0),
        (6, 0),
        (6, 5),
        (6 + 18, 0),
        (6 + 18, 255),
        (33 + 1, 0),
        (33 + 1, 5),
        (33 + 66, 0),
        (33 + 66, 5),
        (33 + 66, 31),
        (33 + 66, 32),
    ];
    for (place, byte) in range {
        base.with(|t| t.body[place] = byte).must(builder, Code::Range, "body");
    }
    base.with(|t| t.body[..4].fill(0)).must(builder, Code::Range, "epoch 0");
    for m in [0, 1, 2, 4, 255] {
        base.with(|t| t.body[5] = m).must(builder, Code::Length, "m and the length differ");
        base.with(|t| t.body[33] = m).must(builder, if m == 2 { Code::Done } else { Code::Length }, "s and the length");
    }
    for length in [0, 1, 5, 6, 7, 33, 34, 99, body.len() - 1] {
        base.with(|t| t.body.truncate(length)).must(builder, Code::Length, "cut");
    }
    for (m, s) in [(0, 2), (5, 2), (3, 0), (3, 5)] {
        let entries: Vec<(u8, i64)> = (0..m).map(|k| (k % 4 + 1, 5)).collect();
        let signers: Vec<u8> = (0..s).map(|k| k % 4 + 1).collect();
        let body = final_body(rng, 5, 20, &entries, &signers).write();
        base.with(|t| t.body = body).must(builder, Code::Range, "counts");
    }
    // Few, falling, twice, one signer: not asked here.
    let body_odd = final_body(rng, 5, 20, &[(3, 9), (3, 1)], &[2]).write();
    base.with(|t| t.body = body_odd).must(builder, Code::Done, "checks 14 to 17 are not the sender's");
    for time in HUGE {
        base.with(|t| t.now = time).must(builder, Code::Range, "time");
        base.with(|t| t.commit.time = time).must(builder, Code::Range, "commit's time");
    }
    for (epoch, round) in [(0, 1), (4, 0)] {
        base.with(|t| t.commit = commit(epoch, round, 0, 0)).must(builder, Code::Range, "commit");
    }
    // Permutations.
    for permutation in [
        vec![],
        vec![1],
        vec![1, 2, 3],
        vec![1, 2, 3, 4, 5],
        vec![1, 2, 3, 4, 4],
        vec![1, 2, 3, 3],
        vec![0, 1, 2, 3],
        vec![2, 3, 4, 5],
        vec![1, 2, 3, 255],
        vec![4; 4],
        vec![0; 4],
        vec![1; 255],
        (1..=31).collect(),
    ] {
        base.with(|t| t.permutation = permutation).must(builder, Code::Config, "no permutation");
    }
    // OLD: against the commit and the accepted one.
    for (epoch, round, code) in [
        (5, 20, Code::Old),
        (5, 21, Code::Old),
        (6, 1, Code::Old),
        (LAST_EPOCH, 255, Code::Old),
        (5, 19, Code::Done),
        (4, 255, Code::Done),
        (0, 0, Code::Done),
        (1, 1, Code::Done),
    ] {
        base.with(|t| t.commit = commit(epoch, round, 0, 0)).must(builder, code, "OLD by the commit");
        base.with(|t| {
            t.sender.epoch = epoch;
            t.sender.round = round;
        })
        .must(builder, code, "OLD by the accepted one");
    }
    // SIMILAR: deviation and commits.
    for (accepted, code) in
        [(105, Code::Similar), (104, Code::Done), (106, Code::Done), (-105, Code::Done), (0, Code::Done)]
    {
        base.with(|t| t.sender.median = accepted).must(builder, code, "SIMILAR");
    }
    for (epoch, round, code) in [
        (0, 0, Code::Similar),
        (5, 18, Code::Similar),
        (4, 255, Code::Similar),
        (5, 19, Code::Done),
        (5, 20, Code::Old),
    ] {
        base.with(|t| {
            t.sender.median = 105;
            t.commit = commit(epoch, round, 105, 0);
        })
        .must(builder, code, "SIMILAR and the commit");
    }
    base.with(|t| {
        t.sender = fresh.clone();
        t.sender.median = 105;
        t.commit = no_commit();
    })
    .must(builder, Code::Done, "none accepted yet");
    for (alpha, old, new, code) in [
        (5_000_000, 20_000, 20_100, Code::Similar),
        (5_000_000, 20_000, 20_101, Code::Done),
        (5_000_000, -200, -201, Code::Similar),
        (5_000_000, -200, -202, Code::Done),
        (5_000_000, 0, 0, Code::Similar),
        (5_000_000, 0, 1, Code::Done),
        (5_000_000, i64::MIN, i64::MAX, Code::Done),
        (1_000_000_000, i64::MIN, 0, Code::Similar),
        (1_000_000_000, i64::MIN, 1, Code::Done),
        (1_000_000_000, 1, 0, Code::Similar),
        (0, i64::MIN, i64::MIN, Code::Similar),
    ] {
        let body = report(rng, 5, 20, new);
        base.with(|t| {
            t.sender.config.alpha = alpha;
            t.sender.median = old;
            t.body = body;
        })
        .must(builder, code, "deviation");
    }
    // The median of a longer list, as written: 3, where the same values in order have 5 at that place.
    let longer = final_body(rng, 5, 20, &[(1, 9), (2, 1), (3, 3), (4, 5)], &[1, 2]).write();
    base.with(|t| t.body = longer).must(builder, Code::Done, "entry 2 of 4");

    // Sixteen in the queue, then QUEUE; slots of exactly their size from here on, filled with other bytes.
    builder.slots(&vec![0xC3; WAITING]);
    builder.fresh_sender(&base_config);
    for k in 0..16u8 {
        let body = report(rng, 7, k + 1, if k % 2 == 0 { 1_000 } else { 2_000 });
        let now = 1_000_000 - 10_000 * (k as u64 % 5);
        must(
            builder.transmit(
                now,
                &no_commit(),
                &[1, if k % 3 == 0 { 3 } else { 2 }, if k % 3 == 0 { 2 } else { 3 }, 4],
                &body,
            ),
            Code::Done,
            "queued",
        );
    }
    let full = builder.machine.sender.clone();
    let next = report(rng, 7, 20, 105);
    base = Transmission {
        sender: Sender { round: 19, epoch: 7, median: 200, ..full.clone() },
        commit: no_commit(),
        body: next,
        ..base
    };
    base.must(builder, Code::Queue, "all sixteen taken");
    base.with(|t| t.permutation = vec![1, 4, 2, 3]).must(
        builder,
        Code::Done,
        "beyond the last stage no slot is needed",
    );
    // Every pair of faults.
    let mut room = base.clone();
    room.sender.taken[9] = 0;
    let mut made: Vec<(Transmission, Code)> = Vec::new();
    for (j, (later, second)) in FAULTS.iter().enumerate() {
        made.push((room.with(second), *later));
        for (earlier, first) in &FAULTS[..j] {
            made.push((
                room.with(|t| {
                    first(t);
                    second(t);
                }),
                *earlier,
            ));
        }
        made.push((room.with(|t| FAULTS[j..].iter().for_each(|(_, fault)| fault(t))), *later));
    }
    made.sort_by_key(|(transmission, _)| transmission.sender.image());
    for (transmission, code) in made {
        transmission.must(builder, code, "faults");
    }
    // The lowest free slot, also out of the midst.
    for free in [vec![9], vec![3, 9], vec![15], vec![0, 1, 2]] {
        base.with(|t| free.iter().for_each(|i| t.sender.taken[*i] = 0)).must(
            builder,
            Code::Done,
            "the lowest free slot",
        );
    }
    // The queue runs out in order.
    builder.sender(&full);
    must(builder.timeout(0, &no_commit()), Code::Ignored, "early");
    for step in 0..17 {
        let now = if step < 4 { 990_000 + 10_000 * step } else { 2_000_000 };
        builder.timeout(now, &if step % 2 == 0 { commit(6, 255, 0, 0) } else { commit(7, 5, 0, 0) });
        builder.timeout(now, &commit(7, 5, 0, 0));
    }
    // Stages and delays: n = 10, eight stages of one, the longest Delta_stage.
    let mut long = Config { delta_stage: 86_400_000, alpha: 0, ..config(10, 3, 3) };
    long.stages = 8;
    long.schedule = [1; 8];
    for p in 1..=10u8 {
        for now in [0, TWO_53] {
            builder.fresh_sender(&long);
            // The entry of the own number is p, and its inverse another.
            let mut permutation: Vec<u8> = (1..=10).collect();
            permutation.swap(2, p as usize - 1);
            permutation.swap(if p == 1 { 4 } else { 0 }, if p == 10 { 8 } else { 9 });
            let at = permutation.iter().position(|entry| *entry == p).unwrap();
            permutation.swap(2, at);
            let body = final_body(rng, 1, p, &[(10, 5)], &[1]).write();
            must(builder.transmit(now, &no_commit(), &permutation, &body), Code::Done, "a stage");
        }
    }
    // Uneven stages, Delta_stage 0 and 1, own numbers at the ends.
    for (own, delta) in [(1, 0), (10, 1), (5, 30_000)] {
        long.own = own;
        long.delta_stage = delta;
        long.stages = 3;
        long.schedule = [2, 3, 1, 0, 0, 0, 0, 0];
        builder.fresh_sender(&long);
        for p in [1, 2, 3, 5, 6, 7, 10] {
            let mut permutation: Vec<u8> = (1..=10).collect();
            permutation.swap(own as usize - 1, p as usize - 1);
            let body = final_body(rng, 2, p, &[(10, p as i64)], &[1]).write();
            must(builder.transmit(50_000 - p as u64, &no_commit(), &permutation, &body), Code::Done, "a stage");
        }
        // A clock that goes on: what waits is due already, then backwards.
        let late = final_body(rng, 2, 11, &[(10, 1)], &[1]).write();
        must(builder.transmit(TWO_53, &no_commit(), &(1..=10).collect::<Vec<u8>>(), &late), Code::Done, "due");
        let back = final_body(rng, 2, 12, &[(10, 2)], &[1]).write();
        must(builder.transmit(0, &no_commit(), &(1..=10).collect::<Vec<u8>>(), &back), Code::Done, "backwards");
        for _ in 0..3 {
            builder.timeout(60_000, &commit(2, 2, 0, 0));
        }
    }
    // n = 1 and the longest body.
    builder.fresh_sender(&config(1, 0, 1));
    let single = final_body(rng, LAST_EPOCH, 255, &[(1, i64::MIN)], &[1]).write();
    must(builder.transmit(9, &commit(LAST_EPOCH, 254, 0, 0), &[1], &single), Code::Done, "n is 1");
    must(builder.transmit(9, &commit(LAST_EPOCH, 254, 0, 0), &[1], &single), Code::Old, "again");
    builder.fresh_sender(&config(31, 10, 31));
    let entries: Vec<(u8, i64)> = (1..=31).map(|j| (j, -(j as i64))).collect();
    let longest: FinalBody = final_body(rng, 3, 3, &entries, &(1..=31).collect::<Vec<u8>>());
    let reversed: Vec<u8> = (1..=31).rev().collect();
    must(builder.transmit(9, &no_commit(), &reversed, &longest.write()), Code::Done, "the longest body");
    must(builder.timeout(9 + 30_000, &no_commit()), Code::Done, "the longest body");
    must(builder.timeout(9 + 30_000, &no_commit()), Code::Ignored, "nothing waits");
}
