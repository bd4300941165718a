//! Random scripts: states with fields mostly good and some bad, and random calls that mostly fit the state.

use super::builder::Builder;
use super::make::{commit, list, LAST_EPOCH, TWO_53};
use super::rng::Rng;
use crate::config::{Commit, Config, Terms, MAX_WAITING_TIME};
use crate::contract::{Account, Contract};
use crate::frame::{FinalBody, Message, Observed, SignedObserved, Signer, SLOT};
use crate::leader::sorted_list;
use crate::node::{Arrival, Node, OUTBOX, SIGNATURES};
use crate::sender::{Sender, SLOTS, WAITING};

// Numbers.

fn any_u64(rng: &mut Rng) -> u64 {
    let edge = rng.pick(&[0, 1, 255, 256, u32::MAX as u64, 1 << 32, TWO_53 - 1, TWO_53, TWO_53 + 1, 1 << 63, u64::MAX]);
    match rng.below(3) {
        0 => edge,
        1 => rng.next(),
        _ => rng.next() >> rng.below(64),
    }
}

/// Mostly in range.
fn time(rng: &mut Rng) -> u64 {
    match rng.below(80) {
        0 => rng.pick(&[TWO_53 + 1, 1 << 63, u64::MAX]),
        1 => TWO_53,
        2 => 0,
        3..=15 => rng.below(TWO_53),
        _ => 1_000_000 + rng.below(200_000),
    }
}

fn value(rng: &mut Rng) -> i64 {
    match rng.below(12) {
        0 => rng.pick(&[i64::MIN, i64::MIN + 1, i64::MAX, i64::MAX - 1, 0]),
        1 => rng.next() as i64,
        2..=4 => rng.below(5) as i64 - 2,
        5..=6 => -20_000 + rng.below(200) as i64,
        _ => 20_000 + rng.below(200) as i64,
    }
}

fn epoch_near(rng: &mut Rng, near: u32) -> u32 {
    match rng.below(60) {
        0 => 0,
        1 => LAST_EPOCH,
        2 => near.saturating_add(1),
        3 => near.saturating_sub(1),
        4 => rng.next() as u32,
        _ => near.max(1),
    }
}

fn round_near(rng: &mut Rng, near: u8) -> u8 {
    match rng.below(60) {
        0 => 0,
        1 => 255,
        2 => near.saturating_add(1),
        3 => near.saturating_sub(1),
        4 => rng.byte(),
        _ => near.max(1),
    }
}

fn bits(rng: &mut Rng, count: usize) -> u64 {
    let needed = (1u64 << count.min(63)) - 1;
    let others = rng.next() & !needed;
    if rng.once_in(10) {
        (needed & rng.next()) | others
    } else {
        needed | others
    }
}

fn flag(rng: &mut Rng, set_in_eight: u64) -> u8 {
    (rng.below(8) < set_in_eight) as u8
}

// Configurations.

fn config(rng: &mut Rng) -> Config {
    let n = rng.pick(&[1u8, 2, 3, 4, 4, 4, 4, 5, 6, 7, 7, 10, 13, 16, 22, 30, 31]);
    let most = (n - 1) / 3;
    let f = if rng.once_in(4) { rng.below(most as u64 + 1) as u8 } else { most };
    let mut schedule = [0; 8];
    let stages = rng.between(1, 8.min(n as u64)) as u8;
    let mut sum = 0;
    for stage in schedule.iter_mut().take(stages as usize) {
        *stage = 1;
        sum += 1;
    }
    let wanted = rng.between(sum.max(f as u64 + 1), n as u64);
    while sum < wanted {
        schedule[rng.below(stages as u64) as usize] += 1;
        sum += 1;
    }
    for stage in schedule.iter_mut().skip(stages as usize) {
        *stage = rng.pick(&[0, 0, 1, 255]);
    }
    Config {
        number: rng.pick(&[0, 1, 0x0102_0304_0506_0708, u64::MAX]),
        delta_c: rng.pick(&[0, 1, 60_000, 60_000, 60_000, TWO_53]),
        delta_stage: rng.pick(&[0, 1, 30_000, 30_000, 86_400_000]),
        alpha: rng.pick(&[0, 1, 5_000_000, 5_000_000, 5_000_000, 1_000_000_000]),
        n,
        f,
        own: rng.between(1, n as u64) as u8,
        r_max: rng.pick(&[1, 2, 3, 3, 10, 253, 254]),
        stages,
        schedule,
    }
}

fn spoil_config(rng: &mut Rng, config: &mut Config) {
    match rng.below(10) {
        0 => config.n = rng.pick(&[0, 32, 255]),
        1 => config.f = rng.pick(&[11, 86, 255]),
        2 => config.own = rng.pick(&[0, 32, 255]),
        3 => config.r_max = rng.pick(&[0, 255]),
        4 => config.alpha = rng.pick(&[1_000_000_001, u32::MAX]),
        5 => config.delta_c = rng.pick(&[TWO_53 + 1, u64::MAX]),
        6 => config.delta_stage = rng.pick(&[86_400_001, u64::MAX]),
        7 => config.stages = rng.pick(&[0, 9, 255]),
        8 => config.schedule[0] = rng.pick(&[0, 255]),
        _ => config.own = config.n.saturating_add(1),
    }
}

fn terms(rng: &mut Rng) -> Terms {
    let config = config(rng);
    Terms {
        observation_fee: rng.pick(&[0, 1, 100, 1_000_000_000]),
        sending_fee: rng.pick(&[0, 1, 1_000, 1_000_000_000]),
        n: config.n,
        f: config.f,
    }
}

// Reports.

/// A list of mostly more than 2f distinct members with values that don't fall; sometimes with a fault.
fn entries(rng: &mut Rng, n: u8, f: u8) -> Vec<Observed> {
    let least = match rng.below(40) {
        0 => 0,
        1 | 2 => 1,
        _ => (2 * f as u64 + 1).min(n as u64),
    };
    let most = if rng.once_in(60) { n as u64 + 1 } else { n as u64 };
    let m = match rng.below(3) {
        0 => most,
        1 => least.min(most),
        _ => rng.between(least.min(most), most),
    };
    let mut members = rng.members(n);
    members.push(rng.byte());
    members.truncate(m as usize);
    let mut values: Vec<i64> = members.iter().map(|_| value(rng)).collect();
    values.sort();
    if values.len() > 1 {
        let (i, j) = (rng.below(values.len() as u64) as usize, rng.below(values.len() as u64) as usize);
        match rng.below(40) {
            0 => values.swap(i, j),
            1 => members[i] = members[j],
            2 => members[i] = rng.pick(&[0, n + 1, 255]),
            _ => {}
        }
    }
    members.iter().zip(values).map(|(member, value)| Observed { member: *member, value }).collect()
}

fn signers(rng: &mut Rng, n: u8, f: u8) -> Vec<Signer> {
    let count = match rng.below(30) {
        0 => f as u64,
        1 | 2 => n as u64,
        3 => rng.between(0, n as u64),
        _ => f as u64 + 1,
    };
    let mut members = rng.members(n);
    members.truncate(count as usize);
    let count = members.len() as u64;
    if count > 1 {
        let (i, j) = (rng.below(count) as usize, rng.below(count) as usize);
        match rng.below(40) {
            0 => members[i] = members[j],
            1 => members[i] = rng.pick(&[0, n + 1, 255]),
            _ => {}
        }
    }
    members.iter().map(|member| Signer { member: *member, signature: rng.signature() }).collect()
}

fn report(rng: &mut Rng, n: u8, f: u8, epoch: u32, round: u8) -> FinalBody {
    FinalBody { epoch, round, list: entries(rng, n, f), signers: signers(rng, n, f) }
}

/// A body that passes RANGE.
fn stored_report(rng: &mut Rng, n: u8, f: u8, epoch: u32, round: u8) -> FinalBody {
    loop {
        let body = report(rng, n, f, epoch.max(1), round.max(1));
        if body.in_range(n) {
            return body;
        }
    }
}

fn in_slot(rng: &mut Rng, body: &FinalBody, length: usize) -> Vec<u8> {
    let mut bytes = body.write();
    let fill = if rng.once_in(4) { rng.byte() } else { 0 };
    bytes.resize(length.max(bytes.len()), fill);
    bytes
}

fn commit_near(rng: &mut Rng, epoch: u32, round: u8, median: i64) -> Commit {
    let mut near = match rng.below(8) {
        0..=2 => commit(0, 0, median, time(rng)),
        3 => commit(epoch.max(1), round.max(1), median, time(rng)),
        4 => commit(epoch.max(1), round.saturating_sub(1).max(1), value(rng), time(rng)),
        5 => commit(epoch.saturating_sub(1).max(1), rng.byte().max(1), value(rng), time(rng)),
        6 => commit(epoch.saturating_add(1), 1, value(rng), time(rng)),
        _ => commit(1, 1, value(rng), 1_000_000 + rng.below(200_000)),
    };
    match rng.below(150) {
        0 => near.round = 0,
        1 => near.epoch = 0,
        2 => near.time = any_u64(rng),
        _ => {}
    }
    near
}

// The node.

fn n_of(config: &Config) -> u8 {
    config.n.clamp(1, 31)
}

fn f_of(config: &Config) -> u8 {
    config.f.min(10)
}

fn leader_of(node: &Node) -> u8 {
    if node.epoch == 0 {
        0
    } else {
        (node.epoch % n_of(&node.config) as u32) as u8 + 1
    }
}

/// A table of flags with about `wanted` of the first n set, and sometimes some past n.
fn flags(rng: &mut Rng, n: u8, wanted: u64, past_n: bool) -> [u8; 31] {
    let mut out = [0; 31];
    for member in rng.members(n).iter().take(wanted as usize) {
        out[*member as usize - 1] = 1;
    }
    if past_n {
        for entry in out.iter_mut().skip(n as usize) {
            *entry = flag(rng, 4);
        }
    }
    out
}

fn about(rng: &mut Rng, number: u64, most: u64) -> u64 {
    match rng.below(5) {
        0 => rng.between(0, most),
        1 => (number + 1).min(most),
        2 => number.saturating_sub(1),
        _ => number.min(most),
    }
}

fn node(rng: &mut Rng) -> Node {
    let config = config(rng);
    let (n, f) = (config.n, config.f);
    let mut node = Node { config, ..Node::default() };
    node.epoch = match rng.below(12) {
        0 => 0,
        1 => LAST_EPOCH,
        2 => LAST_EPOCH - rng.below(40) as u32,
        3 => rng.next() as u32,
        _ => 1 + rng.below(100) as u32,
    };
    if node.epoch > 0 && rng.once_in(2) {
        // An epoch that this node leads.
        let epoch = node.epoch as u64 / n as u64 * n as u64 + node.config.own as u64 - 1;
        node.epoch = epoch.clamp(1, LAST_EPOCH as u64) as u32;
    }
    node.highest_sent = match rng.below(6) {
        0 => node.epoch.saturating_add(1),
        1 => node.epoch.saturating_add(rng.below(50) as u32),
        2 => LAST_EPOCH,
        _ => node.epoch,
    };
    let past_n = rng.once_in(4);
    for j in 0..31 {
        if j < n as usize || past_n {
            node.heard[j] = match rng.below(6) {
                0 => 0,
                1 => node.epoch.saturating_add(rng.below(4) as u32),
                2 => node.highest_sent.saturating_add(rng.below(3) as u32),
                3 => rng.below(node.epoch as u64 + 1) as u32,
                _ => node.epoch,
            };
        }
        if j < n as usize || past_n {
            node.values[j] = value(rng);
        }
    }
    node.started = (!rng.once_in(16)) as u8;
    node.progress_armed = flag(rng, 6);
    node.resend_armed = flag(rng, 7);
    node.live = flag(rng, 7);
    let r_max = node.config.r_max;
    node.round = match rng.below(6) {
        0 => 0,
        1 => r_max,
        2 => r_max.saturating_add(1),
        3 => rng.byte(),
        _ => 1 + rng.below(r_max as u64) as u8,
    };
    node.signed = flag(rng, 2);
    node.completed = flag(rng, 1);
    node.kept = flag(rng, 3);
    let marked = about(rng, f as u64, n as u64);
    node.marks = flags(rng, n, marked, past_n);
    node.phase = rng.below(5) as u8;
    let observed = about(rng, 2 * f as u64 + (node.phase >= 2) as u64, n as u64);
    node.observed = flags(rng, n, observed, past_n);
    let reported = if node.phase < 3 && !rng.once_in(6) { 0 } else { about(rng, f as u64, n as u64) };
    node.reported = flags(rng, n, reported, past_n);
    node.leader_round = match rng.below(8) {
        0 => rng.byte(),
        1 => r_max,
        2 => r_max.saturating_add(1),
        3 => 255,
        _ => node.round,
    };
    node.round_armed = flag(rng, 7);
    node.grace_armed = flag(rng, if node.phase == 2 { 7 } else { 3 });
    node
}

/// One field out of its range, or any byte of the image.
fn spoil_node(rng: &mut Rng, node: &mut Node) {
    match rng.below(12) {
        0 => spoil_config(rng, &mut node.config),
        1 => node.highest_sent = node.epoch.saturating_sub(1),
        2 => node.started = 2,
        3 => node.live = rng.byte(),
        4 => node.kept = rng.byte(),
        5 => node.marks[rng.below(31) as usize] = rng.byte(),
        6 => node.observed[rng.below(31) as usize] = rng.byte(),
        7 => node.reported[rng.below(31) as usize] = rng.byte(),
        8 => node.phase = rng.byte(),
        9 => node.round_armed = rng.byte(),
        10 => node.grace_armed = rng.byte(),
        _ => {
            let mut image = node.image();
            let place = rng.below(image.len() as u64) as usize;
            image[place] ^= 1 << rng.below(8);
            *node = Node::from_image(&image);
        }
    }
}

/// A change that keeps the node good and gives its rules something to do.
fn nudge(rng: &mut Rng, node: &mut Node) {
    let n = n_of(&node.config);
    if node.started == 0 || node.live == 0 {
        node.started = 1;
        node.live = 1;
        return;
    }
    match rng.below(9) {
        0 => node.phase = rng.below(5) as u8,
        1 | 2 | 3 => {
            let f = f_of(&node.config);
            let wanted = about(rng, 2 * f as u64 + 1, n as u64);
            node.observed = flags(rng, n, wanted, false);
            node.round_armed = 1;
            node.grace_armed = 1;
            node.phase = 2;
        }
        4 => {
            node.completed = 0;
            node.signed = 0;
            node.marks = [0; 31];
        }
        5 => node.leader_round = node.round,
        6 => {
            node.phase = 3;
            node.reported = [0; 31];
            node.observed = flags(rng, n, n as u64, false);
        }
        7 => {
            let own = node.config.own.clamp(1, n);
            node.epoch = (node.epoch / n as u32 * n as u32).saturating_add(own as u32 - 1).max(1);
            node.highest_sent = node.highest_sent.max(node.epoch);
        }
        _ => node.round = node.round.saturating_sub(1),
    }
}

/// A member whose flag isn't set, mostly.
fn unset(rng: &mut Rng, flags: &[u8; 31], n: u8) -> u8 {
    for member in rng.members(n) {
        if flags[member as usize - 1] == 0 && !rng.once_in(12) {
            return member;
        }
    }
    rng.between(1, n as u64) as u8
}

/// A message that mostly fits the state: its sender, itself, and how many signatures it has.
fn message(rng: &mut Rng, node: &Node) -> (u8, Message, usize) {
    let (n, f) = (n_of(&node.config), f_of(&node.config));
    let leader = leader_of(node);
    let leads = leader == node.config.own;
    let follower_kind = match (node.completed, node.kept, node.signed) {
        (1, 0, _) => rng.pick(&[2, 6, 6]),
        (1, _, _) => 2,
        (_, 0, 0) => rng.pick(&[2, 4, 4, 4, 6, 7]),
        (_, 0, _) => rng.pick(&[2, 6, 6, 7, 7]),
        (_, _, 0) => rng.pick(&[2, 4, 7, 7, 7, 7]),
        _ => rng.pick(&[2, 7, 7, 7]),
    };
    let any_kind = rng.between(1, 7);
    let kind = if node.live == 0 && !rng.once_in(4) {
        1
    } else {
        match (leads, node.phase) {
            (true, 1 | 2) => rng.pick(&[1, 3, 3, 3, 3, 3, follower_kind, follower_kind, any_kind]),
            (true, 3) => rng.pick(&[1, 5, 5, 5, 5, 5, follower_kind, follower_kind, any_kind]),
            _ => rng.pick(&[1, 1, follower_kind, follower_kind, follower_kind, follower_kind, follower_kind, any_kind]),
        }
    };
    let epoch = epoch_near(rng, node.epoch);
    let from_leader = if leader == 0 || rng.once_in(16) { rng.between(1, n as u64) as u8 } else { leader };
    let anyone = rng.between(1, n as u64) as u8;
    match kind {
        1 => {
            let x = match rng.below(8) {
                0 => node.epoch.saturating_add(1),
                1 => node.highest_sent,
                2 => node.highest_sent.saturating_add(rng.below(5) as u32),
                3 => epoch,
                4 => rng.pick(&node.heard),
                5 => node.epoch.saturating_add(n as u32),
                _ => node.epoch.saturating_add(1 + rng.below(3) as u32),
            };
            (anyone, Message::NewEpoch { epoch: x }, 0)
        }
        2 => {
            let round = match rng.below(10) {
                0 => node.config.r_max,
                1 => node.config.r_max.saturating_add(1),
                2 => rng.byte(),
                3 => node.round,
                4 => node.round.saturating_add(2),
                _ => node.round.saturating_add(1),
            };
            (from_leader, Message::ObserveReq { epoch, round }, 0)
        }
        3 => {
            let round = round_near(rng, node.leader_round);
            let sender = unset(rng, &node.observed, n);
            (sender, Message::Observe { epoch, round, value: value(rng), signature: rng.signature() }, 1)
        }
        4 => {
            let round = round_near(rng, node.round);
            let mut list = Vec::new();
            for entry in entries(rng, n, f) {
                list.push(SignedObserved { member: entry.member, value: entry.value, signature: rng.signature() });
            }
            let count = list.len();
            (from_leader, Message::ReportReq { epoch, round, list }, count)
        }
        5 => {
            let round = round_near(rng, node.leader_round);
            let mut list = if n == node.config.n { sorted_list(node) } else { list(&[(1, 1)]) };
            match rng.below(12) {
                0 => list = entries(rng, n, f),
                1 => {
                    list.pop();
                }
                2 if list.len() > 1 => {
                    let i = rng.below(list.len() as u64 - 1) as usize;
                    list.swap(i, i + 1);
                }
                _ => {}
            }
            let sender = unset(rng, &node.reported, n);
            (sender, Message::Report { epoch, round, list, signature: rng.signature() }, 1)
        }
        _ => {
            let round = round_near(rng, node.round);
            let body = report(rng, n, f, epoch, round);
            let count = body.signers.len();
            if kind == 6 {
                (from_leader, Message::Final(body), count)
            } else {
                (unset(rng, &node.marks, n), Message::FinalEcho(body), count)
            }
        }
    }
}

/// Damage to a frame.
fn damage(rng: &mut Rng, frame: &mut Vec<u8>) {
    let end = frame.len();
    match rng.below(8) {
        0 => {
            let place = rng.below(end as u64) as usize;
            frame[place] ^= 1 << rng.below(8);
        }
        1 => frame[end - 16] = rng.byte(),
        2 => frame[end - 15] = rng.byte(),
        3 => {
            let place = end - 16 + rng.below(16) as usize;
            frame[place] = rng.byte();
        }
        4 => frame.truncate(rng.below(end as u64) as usize),
        5 => {
            let count = rng.between(1, 20.min(end as u64)) as usize;
            frame.drain(..count);
        }
        6 => {
            let place = rng.below(end as u64 - 15) as usize;
            frame.insert(place, rng.byte());
        }
        _ => {
            // A body of another length, and the trailer says so.
            let body = end - 16;
            let cut = rng.below(body as u64 + 1) as usize;
            frame.drain(cut..body);
            let place = frame.len() - 12;
            frame[place..place + 4].copy_from_slice(&(cut as u32).to_be_bytes());
        }
    }
}

fn position(rng: &mut Rng, outbox: usize) -> u64 {
    if outbox < OUTBOX || rng.once_in(50) {
        return rng.pick(&[0, 1, outbox as u64, outbox as u64 + 1, u64::MAX, u64::MAX - 2399, 1 << 63]);
    }
    rng.below((outbox - OUTBOX) as u64 + 1)
}

fn node_call(builder: &mut Builder, rng: &mut Rng) {
    let node = builder.machine.node.clone();
    let at = position(rng, builder.machine.lent.outbox.len());
    if (node.started == 0 && rng.once_in(2)) || rng.once_in(60) {
        builder.start(time(rng), at);
        return;
    }
    if rng.once_in(12) {
        let mut other = node;
        nudge(rng, &mut other);
        builder.node(&other);
        return;
    }
    if rng.once_in(5) {
        let timer = rng.pick(&[0, 1, 2, 2, 3, 3, 3]);
        builder.timer(timer, time(rng), at);
        return;
    }
    let (sender, message, count) = message(rng, &node);
    let mut frame = message.frame(sender, node.config.number);
    if rng.once_in(14) {
        damage(rng, &mut frame);
    }
    let arrival = Arrival {
        link: if rng.once_in(40) { rng.byte() % 34 } else { sender },
        time: time(rng),
        observation: value(rng),
        commit: commit_near(rng, node.epoch, node.round, 20_100),
        bits: bits(rng, count),
        at,
        frame,
    };
    builder.deliver(&arrival);
}

/// How many calls were STATE or ROOM so far; after some of them an episode ends.
fn hopeless(builder: &Builder) -> usize {
    builder.counts.iter().filter(|(key, _)| key.1 == 2 || key.1 == 3).map(|(_, count)| count).sum()
}

/// A state and some calls. `buffers`: one in so many sets the lent buffers anew.
fn node_episode(builder: &mut Builder, rng: &mut Rng, buffers: u64, calls: u64) {
    if rng.once_in(10) {
        let mut config = config(rng);
        if rng.once_in(4) {
            spoil_config(rng, &mut config);
        }
        if rng.once_in(2) {
            builder.fresh(&config);
        } else {
            let epoch = epoch_near(rng, 5);
            let highest = epoch_near(rng, epoch);
            builder.restore(&config, epoch, highest);
        }
    } else {
        let mut made = node(rng);
        let lent = &builder.machine.lent;
        if rng.once_in(buffers)
            || lent.kept.len() < SLOT
            || lent.outbox.len() < OUTBOX
            || lent.signatures.len() < SIGNATURES
        {
            set_buffers(builder, rng, buffers);
        }
        // A kept report stands in the kept buffer.
        let (n, f) = (made.config.n, made.config.f);
        let kept = &builder.machine.lent.kept;
        let stands = kept.len() >= SLOT && FinalBody::stored(&kept[..SLOT], n).is_some();
        if made.kept == 1 && !stands && !rng.once_in(8) {
            if rng.once_in(buffers) {
                let body = stored_report(rng, n, f, made.epoch, made.round);
                let length = if rng.once_in(5) { SLOT + rng.below(100) as usize } else { SLOT };
                builder.kept(&in_slot(rng, &body, length));
            } else {
                made.kept = 0;
            }
        }
        if rng.once_in(14) {
            spoil_node(rng, &mut made);
        }
        builder.node(&made);
    }
    let refused = hopeless(builder);
    for _ in 0..rng.between(calls / 2, calls) {
        node_call(builder, rng);
        if hopeless(builder) > refused + 4 {
            break;
        }
    }
}

fn set_buffers(builder: &mut Builder, rng: &mut Rng, buffers: u64) {
    let size = |rng: &mut Rng, full: usize, most: usize| match rng.below(30) {
        0 => full - 1,
        1 => rng.below(full as u64) as usize,
        2..=5 => full + 1 + rng.below(64) as usize,
        6 if buffers < 4 => rng.between(full as u64, most as u64) as usize,
        _ => full,
    };
    let outbox = size(rng, OUTBOX, 8192) + rng.pick(&[0, 0, 1, 33]);
    let kept = size(rng, SLOT, 4096);
    let signatures = size(rng, SIGNATURES, 8192);
    let filled = |rng: &mut Rng, length: usize| match rng.below(3) {
        0 => vec![0; length],
        1 => vec![rng.byte(); length],
        _ => rng.bytes(length),
    };
    let bytes = filled(rng, outbox.min(8192));
    builder.outbox(&bytes);
    let bytes = filled(rng, kept);
    builder.kept(&bytes);
    let bytes = filled(rng, signatures);
    builder.signatures(&bytes);
}

// The sender.

fn sender(builder: &Builder, rng: &mut Rng) -> Sender {
    let mut made = Sender { config: config(rng), ..Sender::default() };
    if !rng.once_in(4) {
        made.median = value(rng);
        made.epoch = 1 + rng.below(20) as u32;
        made.round = 1 + rng.below(250) as u8;
    }
    let slots = &builder.machine.slots;
    let often = rng.between(1, 4);
    for i in 0..SLOTS {
        let stands =
            slots.len() >= WAITING && FinalBody::stored(&slots[SLOT * i..SLOT * (i + 1)], made.config.n).is_some();
        if (stands || rng.once_in(60)) && (often == 1 || rng.once_in(often)) {
            made.taken[i] = 1;
            made.times[i] = if rng.once_in(30) { MAX_WAITING_TIME } else { 1_000_000 + 1_000 * rng.below(200) };
        } else if rng.once_in(20) {
            made.times[i] = rng.below(MAX_WAITING_TIME);
        }
    }
    if rng.once_in(14) {
        match rng.below(7) {
            0 => spoil_config(rng, &mut made.config),
            1 => made.round = 0,
            2 => made.epoch = 0,
            3 => made.taken[rng.below(16) as usize] = rng.byte(),
            4 => made.times[rng.below(16) as usize] = any_u64(rng),
            5 => made.times[rng.below(16) as usize] = MAX_WAITING_TIME + 1,
            _ => {
                let mut image = made.image();
                let place = rng.below(image.len() as u64) as usize;
                image[place] ^= 1 << rng.below(8);
                made = Sender::from_image(&image);
            }
        }
    }
    made
}

fn permutation(rng: &mut Rng, n: u8) -> Vec<u8> {
    let mut out = rng.members(n);
    match rng.below(60) {
        0 => out.push(n + 1),
        1 => {
            out.pop();
        }
        2 => out[0] = 0,
        3 => out[0] = n + 1,
        4 => out[n as usize - 1] = out[0],
        _ => {}
    }
    out
}

fn sender_call(builder: &mut Builder, rng: &mut Rng) {
    let sender = builder.machine.sender.clone();
    let (n, f) = (n_of(&sender.config), f_of(&sender.config));
    if rng.once_in(3) {
        let due = (0..SLOTS).filter(|i| sender.taken[*i] == 1).map(|i| sender.times[i]).min().unwrap_or(0);
        let now = match rng.below(6) {
            0 => time(rng),
            1 => due.saturating_sub(1),
            2 => due,
            _ => due.saturating_add(rng.below(50_000)),
        };
        let commit = commit_near(rng, sender.epoch, sender.round, sender.median);
        builder.timeout(now, &commit);
        return;
    }
    let (epoch, round) = match rng.below(8) {
        0 => (sender.epoch, sender.round),
        1 => (sender.epoch, sender.round.saturating_sub(1)),
        2 => (epoch_near(rng, sender.epoch), round_near(rng, sender.round)),
        3 => (sender.epoch.saturating_add(1), 1),
        _ if sender.round < 255 => (sender.epoch.max(1), sender.round + 1),
        _ => (sender.epoch.saturating_add(1), 1),
    };
    let mut body = report(rng, n, f, epoch, round);
    if rng.once_in(3) {
        for entry in body.list.iter_mut() {
            entry.value = sender.median;
        }
    }
    let mut bytes = body.write();
    match rng.below(40) {
        0 => {
            bytes.pop();
        }
        1 => bytes.push(0),
        2 => bytes.truncate(rng.below(bytes.len() as u64) as usize),
        3 => {
            let place = rng.below(bytes.len() as u64) as usize;
            bytes[place] = rng.byte();
        }
        _ => {}
    }
    let commit = match rng.below(3) {
        0 => commit(0, 0, 0, 0),
        1 => commit_near(rng, sender.epoch, sender.round, sender.median),
        _ => commit_near(rng, sender.epoch.saturating_sub(1), sender.round, sender.median),
    };
    builder.transmit(time(rng), &commit, &permutation(rng, n), &bytes);
}

fn sender_episode(builder: &mut Builder, rng: &mut Rng, buffers: u64, calls: u64) {
    if builder.machine.slots.is_empty() || (buffers < 4 && (rng.once_in(30) || builder.machine.slots.len() < WAITING)) {
        let length = match rng.below(8) {
            0 => WAITING - 1,
            1 => WAITING + 1 + rng.below(4000) as usize,
            _ => WAITING,
        };
        let mut slots = Vec::new();
        for _ in 0..SLOTS {
            let (epoch, round) = (1 + rng.below(9) as u32, 1 + rng.below(9) as u8);
            let n = rng.pick(&[1u8, 4, 4, 7, 31]);
            let body = stored_report(rng, n, (n - 1) / 3, epoch, round);
            slots.extend(in_slot(rng, &body, SLOT));
        }
        slots.resize(length, 0xCC);
        builder.slots(&slots);
    }
    if rng.once_in(6) {
        let mut config = config(rng);
        if rng.once_in(4) {
            spoil_config(rng, &mut config);
        }
        builder.fresh_sender(&config);
    } else {
        let made = sender(builder, rng);
        builder.sender(&made);
    }
    let refused = hopeless(builder);
    for _ in 0..rng.between(calls / 2, calls) {
        sender_call(builder, rng);
        if hopeless(builder) > refused + 3 {
            break;
        }
    }
}

// The contract.

fn contract(rng: &mut Rng) -> Contract {
    let terms = terms(rng);
    let mut made = Contract { terms, ..Contract::default() };
    made.fund = rng.pick(&[0, 100, 1_299, 1_000_000, 40_000_000_000, TWO_53 / 2]);
    let mut sum = made.fund;
    for j in 0..31 {
        if j < made.terms.n as usize || rng.once_in(4) {
            let account = Account { balance: rng.below(5_000), paid: rng.pick(&[0, 1, 77, 1_000_000_000_000]) };
            sum += account.balance + account.paid;
            made.accounts[j] = account;
        }
    }
    made.deposits = if rng.once_in(4) { TWO_53 } else { sum + rng.pick(&[0, 0, 0, 1, 12_345]) };
    if rng.once_in(2) {
        made.commit = commit(1 + rng.below(9) as u32, 1 + rng.below(254) as u8, value(rng), rng.below(TWO_53));
    }
    if rng.once_in(14) {
        match rng.below(8) {
            0 => made.terms.n = rng.pick(&[0, 32, 255]),
            1 => made.terms.f = rng.pick(&[11, 86, 255]),
            2 => made.terms.observation_fee = any_u64(rng),
            3 => made.terms.sending_fee = any_u64(rng),
            4 => made.deposits = sum - rng.below(sum.min(2) + 1),
            5 => made.accounts[rng.below(31) as usize].balance = any_u64(rng),
            6 => made.accounts[rng.below(31) as usize].paid = any_u64(rng),
            _ => made.commit.round = 0,
        }
    }
    made
}

fn contract_call(builder: &mut Builder, rng: &mut Rng) {
    let contract = builder.machine.contract.clone();
    let n = contract.terms.n.clamp(1, 31);
    let f = contract.terms.f.min(10);
    match rng.below(10) {
        0 => {
            let left = TWO_53.saturating_sub(contract.deposits);
            let amount = match rng.below(6) {
                0 => any_u64(rng),
                1 => left,
                2 => left.saturating_add(1),
                _ => rng.below(10_000),
            };
            builder.deposit(amount);
        }
        1 | 2 => {
            let member = if rng.once_in(10) { rng.byte() } else { rng.between(1, n as u64) as u8 };
            builder.withdraw(member);
        }
        _ => {
            let (last_epoch, last_round) = (contract.commit.epoch, contract.commit.round);
            let (epoch, round) = match rng.below(8) {
                0 => (epoch_near(rng, last_epoch), round_near(rng, last_round)),
                1 => (last_epoch, last_round),
                2 => (last_epoch.saturating_add(1), 1),
                _ if last_round < 255 => (last_epoch.max(1), last_round + 1),
                _ => (last_epoch.saturating_add(1), 1),
            };
            let body = report(rng, n, f, epoch, round);
            let count = body.signers.len();
            let mut bytes = body.write();
            match rng.below(40) {
                0 => {
                    bytes.pop();
                }
                1 => bytes.push(0),
                2 => bytes.truncate(rng.below(bytes.len() as u64) as usize),
                3 => {
                    let place = rng.below(bytes.len() as u64) as usize;
                    bytes[place] = rng.byte();
                }
                _ => {}
            }
            let transmitter = if rng.once_in(12) { rng.byte() } else { rng.between(1, n as u64) as u8 };
            builder.submit(transmitter, time(rng), bits(rng, count), &bytes);
        }
    }
}

fn contract_episode(builder: &mut Builder, rng: &mut Rng, calls: u64) {
    if rng.once_in(5) {
        let mut terms = terms(rng);
        match rng.below(12) {
            0 => terms.n = rng.byte(),
            1 => terms.f = rng.byte(),
            2 => terms.observation_fee = any_u64(rng),
            3 => terms.sending_fee = any_u64(rng),
            _ => {}
        }
        builder.fresh_contract(&terms);
        builder.deposit(rng.pick(&[0, 1_300, 1_000_000, TWO_53]));
    } else {
        builder.contract(&contract(rng));
    }
    let refused = hopeless(builder);
    for _ in 0..rng.between(calls / 2, calls) {
        contract_call(builder, rng);
        if hopeless(builder) > refused + 3 {
            break;
        }
    }
}

/// One state and its calls, for a random script of any length.
pub fn episode(builder: &mut Builder, rng: &mut Rng) {
    match rng.below(10) {
        0..=5 => node_episode(builder, rng, 2, 60),
        6 | 7 => sender_episode(builder, rng, 2, 60),
        _ => contract_episode(builder, rng, 30),
    }
}

/// The gate's share: small, with the buffers seldom set.
pub fn gate_cases(builder: &mut Builder, rng: &mut Rng) {
    set_buffers(builder, rng, 20);
    let until = 1_495_000;
    while builder.script.len() < until {
        match rng.below(10) {
            0..=5 => node_episode(builder, rng, 12, 14),
            6 | 7 => sender_episode(builder, rng, 12, 12),
            _ => contract_episode(builder, rng, 10),
        }
    }
}
