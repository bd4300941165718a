//! Whole rounds among simulated members: NEWEPOCH exchange, OBSERVE-REQ to FINAL-ECHO, hand-out, transmission,
//! timeout, submission; several rounds up to r_max+1, the halt and the next epoch.
//!
//! The calls of the recorded members are in the script: their image is set before the call, and their kept
//! buffer and signatures where the call may read them. The other members run beside it.

use super::builder::{must, Builder};
use super::make::{config, lent, terms, LAST_EPOCH};
use super::rng::Rng;
use crate::bytes::{Reader, Writer};
use crate::config::Config;
use crate::frame::{row, FinalBody, GoesTo, SLOT};
use crate::node::{Node, T_GRACE, T_PROGRESS, T_RESEND, T_ROUND};
use crate::script::{Machine, Outcome};
use crate::Code;

struct Member {
    node: Node,
    kept: Vec<u8>,
    signatures: Vec<u8>,
    recorded: bool,
}

/// A frame under way.
#[derive(Clone)]
struct Mail {
    to: u8,
    from: u8,
    frame: Vec<u8>,
}

struct World<'a> {
    builder: &'a mut Builder,
    rng: &'a mut Rng,
    /// Where the calls of members that aren't recorded are made.
    beside: Machine,
    members: Vec<Member>,
    mail: Vec<Mail>,
    time: u64,
    /// The price that observations lie around.
    price: i64,
    /// One in so many deliveries is disturbed; 0 for none.
    trouble: u64,
    /// At most so many echoes are delivered to each member in a round.
    echoes: usize,
    /// The member whose sender is recorded.
    transmitter: u8,
    handed_out: usize,
    submitted: usize,
}

impl<'a> World<'a> {
    fn new(builder: &'a mut Builder, rng: &'a mut Rng, configs: Vec<Config>, recorded: &[u8]) -> World<'a> {
        let mut big = lent();
        big.outbox.resize(2464, 0xEE);
        builder.lent(&big);
        let members = configs
            .into_iter()
            .map(|config| Member {
                recorded: recorded.contains(&config.own),
                node: Node { config, ..Node::default() },
                kept: big.kept.clone(),
                signatures: big.signatures.clone(),
            })
            .collect();
        let beside = Machine { lent: big, ..Machine::default() };
        let transmitter = recorded[0];
        World {
            builder,
            rng,
            beside,
            members,
            mail: Vec::new(),
            time: 1_700_000_000_000,
            price: 20_000,
            trouble: 0,
            echoes: usize::MAX,
            transmitter,
            handed_out: 0,
            submitted: 0,
        }
    }

    fn member(&mut self, j: u8) -> &mut Member {
        &mut self.members[j as usize - 1]
    }

    /// Makes one member's call; gives its code, sends on what it wrote, hands on what it handed out.
    fn call(&mut self, j: u8, letter: u8, bytes: &[u8], at: usize, frame: &[u8]) -> Code {
        let member = &self.members[j as usize - 1];
        let leads = |node: &Node| node.leader() == node.config.own;
        let (code, line, machine) = if member.recorded {
            self.builder.node(&member.node);
            if member.node.kept == 1 {
                self.builder.kept(&member.kept);
            }
            if leads(&member.node) {
                self.builder.signatures(&member.signatures);
            }
            let code = match letter {
                b'D' => self.builder.call_delivery(bytes),
                b'T' => self.builder.call_timer(bytes),
                _ => self.builder.call(letter, bytes),
            };
            (code, self.builder.last.clone(), &self.builder.machine)
        } else {
            self.beside.node = member.node.clone();
            self.beside.lent.kept = member.kept.clone();
            self.beside.lent.signatures = member.signatures.clone();
            let Outcome::Call(code, line) = self.beside.run(letter, bytes) else { panic!("a call") };
            (code, line, &self.beside)
        };
        let node = machine.node.clone();
        let kept = machine.lent.kept.clone();
        let signatures = machine.lent.signatures.clone();
        let words: Vec<&str> = line.split_whitespace().collect();
        let written: usize = words[2].parse().unwrap();
        let mut sent = machine.lent.outbox[at..at + written].to_vec();
        let part = words[4];
        if code == Code::Done {
            let (of, range) = part.split_at(1);
            let (start, length) = range.split_once('+').unwrap();
            let start: usize = start.parse().unwrap();
            let length: usize = length.parse().unwrap();
            let from = if of == "k" { &kept } else { frame };
            if length > 0 {
                let body = from[start..start + length].to_vec();
                self.hand_out(j, &body);
            }
        }
        let member = self.member(j);
        if node.kept == 1 {
            member.kept = kept;
        }
        if leads(&node) {
            member.signatures = signatures;
        }
        let leader = node.leader();
        let n = node.config.n;
        member.node = node;
        // Trailers point back: the last frame first.
        let mut frames = Vec::new();
        while !sent.is_empty() {
            let end = sent.len();
            let length = Reader::new(&sent[end - 12..]).u32() as usize;
            frames.push(sent.split_off(end - 16 - length));
        }
        for mut frame in frames.into_iter().rev() {
            let kind = frame[frame.len() - 16];
            if kind == 3 || kind == 5 {
                // The host signs.
                let end = frame.len() - 16;
                let signature = self.rng.signature();
                frame[end - 64..end].copy_from_slice(&signature);
            }
            match row(kind).goes_to {
                GoesTo::Leader => self.mail.push(Mail { to: leader, from: j, frame }),
                GoesTo::All => {
                    for to in 1..=n {
                        self.mail.push(Mail { to, from: j, frame: frame.clone() });
                    }
                }
            }
        }
        code
    }

    fn start_all(&mut self) {
        for j in 1..=self.members.len() as u8 {
            self.start(j);
        }
    }

    fn start(&mut self, j: u8) {
        let at = self.rng.below(65) as usize;
        let mut writer = Writer::new();
        writer.u64(self.time).u64(at as u64);
        must(self.call(j, b'S', &writer.bytes, at, &[]), Code::Done, "start");
    }

    fn fire(&mut self, j: u8, timer: usize) -> Code {
        let at = self.rng.below(65) as usize;
        let mut writer = Writer::new();
        writer.u8(timer as u8).u64(self.time).u64(at as u64);
        self.call(j, b'T', &writer.bytes, at, &[])
    }

    fn deliver(&mut self, mail: &Mail, bits: u64) -> Code {
        let at = self.rng.below(65) as usize;
        let observation = self.price + self.rng.below(7) as i64 - 3;
        let mut writer = Writer::new();
        writer.u8(mail.from).u64(self.time).i64(observation);
        self.builder.machine.contract.commit.write(&mut writer);
        writer.u64(bits).u64(at as u64).put(&mail.frame);
        self.call(mail.to, b'D', &writer.bytes, at, &mail.frame)
    }

    /// The bits of good signatures; later bits are anything.
    fn good_bits(&mut self, frame: &[u8]) -> u64 {
        let kind = frame[frame.len() - 16];
        let count = match kind {
            4 => frame[5] as u64,
            3 | 5 => 1,
            6 | 7 => frame[6 + 9 * frame[5] as usize] as u64,
            _ => 0,
        };
        let needed = (1u64 << count) - 1;
        needed | (self.rng.next() & !needed)
    }

    /// Delivers in waves, member by member, until no frame is under way.
    fn settle(&mut self) {
        while !self.mail.is_empty() {
            let mut wave = std::mem::take(&mut self.mail);
            wave.sort_by_key(|mail| mail.to);
            let mut echoes = vec![0; self.members.len() + 1];
            for mail in wave {
                let kind = mail.frame[mail.frame.len() - 16];
                if kind == 7 {
                    echoes[mail.to as usize] += 1;
                    if echoes[mail.to as usize] > self.echoes {
                        continue;
                    }
                }
                let bits = self.good_bits(&mail.frame);
                if self.trouble > 0 && self.rng.once_in(self.trouble) {
                    match self.rng.below(4) {
                        0 => {
                            // Signatures that fail, then good ones.
                            self.deliver(&mail, bits & !1);
                        }
                        1 => {
                            // Twice.
                            self.deliver(&mail, bits);
                        }
                        2 => continue, // lost
                        _ => {
                            // Damaged first.
                            let mut damaged = mail.clone();
                            let place = self.rng.below(mail.frame.len() as u64) as usize;
                            damaged.frame[place] ^= 1 << self.rng.below(8);
                            self.deliver(&damaged, bits & !1);
                        }
                    }
                }
                self.deliver(&mail, bits);
            }
        }
    }

    /// A member's report goes to its sender; only one member's sender is recorded.
    fn hand_out(&mut self, j: u8, body: &[u8]) {
        self.handed_out += 1;
        if j != self.transmitter {
            return;
        }
        let n = self.members.len() as u8;
        let permutation = self.rng.members(n);
        let commit = self.builder.machine.contract.commit.clone();
        self.builder.transmit(self.time, &commit, &permutation, body);
        self.builder.timeout(self.time, &commit);
    }

    /// Time goes on; T_transmit fires when it is due, and what is handed out goes to the contract.
    fn pass(&mut self, milliseconds: u64) {
        let until = self.time + milliseconds;
        loop {
            let sender = &self.builder.machine.sender;
            let due = (0..16).filter(|i| sender.taken[*i] == 1).map(|i| sender.times[i]).min();
            let Some(due) = due else { break };
            if due > until {
                break;
            }
            self.time = self.time.max(due);
            let commit = self.builder.machine.contract.commit.clone();
            must(self.builder.timeout(self.time, &commit), Code::Done, "T_transmit");
            let last = self.builder.last.clone();
            let (start, length) = last.split_whitespace().nth(3).unwrap().split_once('+').unwrap();
            let start: usize = start.parse().unwrap();
            let length: usize = length.parse().unwrap();
            if length > 0 {
                let body = self.builder.machine.slots[start..start + length].to_vec();
                self.submit(self.transmitter, &body);
            }
        }
        self.time = until;
    }

    fn submit(&mut self, transmitter: u8, body: &[u8]) {
        self.submitted += 1;
        let report = FinalBody::read(body);
        let needed = (1u64 << report.signers.len()) - 1;
        let bits = needed | (self.rng.next() & !needed);
        self.builder.submit(transmitter, self.time, bits, body);
        self.builder.submit(transmitter, self.time + 1, bits, body);
    }

    fn armed(&self, timer: usize) -> Option<u8> {
        self.members
            .iter()
            .find(|member| match timer {
                T_RESEND => member.node.resend_armed == 1,
                T_PROGRESS => member.node.progress_armed == 1,
                T_ROUND => member.node.round_armed == 1 && member.node.leader() == member.node.config.own,
                _ => member.node.grace_armed == 1,
            })
            .map(|member| member.node.config.own)
    }

    /// From the requests under way to the end of the round.
    fn round(&mut self) {
        self.settle();
        if let Some(leader) = self.armed(T_GRACE) {
            self.pass(2_000);
            self.fire(leader, T_GRACE);
            self.settle();
        }
    }

    /// The leader's T_round.
    fn next_round(&mut self) {
        self.pass(13_000);
        if let Some(leader) = self.armed(T_ROUND) {
            self.fire(leader, T_ROUND);
        }
    }
}

fn configs(n: u8, f: u8, r_max: u8) -> Vec<Config> {
    (1..=n)
        .map(|own| {
            let mut config = config(n, f, own);
            config.r_max = r_max;
            config.delta_stage = 4_000;
            config.number = 0xC0FF_EE00_0000_0000 + n as u64;
            config
        })
        .collect()
}

/// A fresh sender for the recorded transmitter and a fresh contract with a fund.
fn begin(builder: &mut Builder, config: &Config, fund: u64) {
    if builder.machine.slots.len() < 16 * SLOT {
        builder.slots(&vec![0; 16 * SLOT]);
    }
    must(builder.fresh_sender(config), Code::Done, "fresh sender");
    must(builder.fresh_contract(&terms(config.n, config.f)), Code::Done, "fresh contract");
    must(builder.deposit(fund), Code::Done, "deposit");
}

fn withdraw_all(builder: &mut Builder, n: u8) {
    for member in 1..=n {
        must(builder.withdraw(member), Code::Done, "withdrawal");
    }
    must(builder.withdraw(1), Code::Done, "withdrawal of nothing");
    must(builder.withdraw(n + 1), Code::Sender, "withdrawal of no member");
}

pub fn cases(builder: &mut Builder, rng: &mut Rng) {
    // n = 1: each call of the only member; r_max 2, three epochs.
    let all = configs(1, 0, 2);
    begin(builder, &all[0], 1_000_000);
    let mut world = World::new(builder, rng, all, &[1]);
    world.start_all();
    for step in 0..8 {
        world.price += [0, 500, 1, 900, -30_000, 0, i64::MAX / 2, 0][step];
        world.round();
        world.next_round();
    }
    assert!(world.members[0].node.epoch >= 3 && world.handed_out >= 4 && world.submitted >= 4);
    withdraw_all(builder, 1);

    // n = 4, every member recorded, r_max 3: rounds with and without a report, the halt, the next leaders.
    let all = configs(4, 1, 3);
    begin(builder, &all[1], 1_000_000);
    let mut world = World::new(builder, rng, all, &[2, 1, 3, 4]);
    world.start_all();
    for step in 0..5 {
        world.price += [0, 5_000, 1, 5_000, 0][step];
        world.round();
        world.next_round();
    }
    assert!(world.members[0].node.epoch == 2 && world.handed_out >= 8 && world.submitted >= 1);
    // A member crashes and is restored; T_resend and T_progress of all lead to the next epoch.
    let saved = &world.members[3].node;
    let (config, epoch, highest) = (saved.config.clone(), saved.epoch, saved.highest_sent);
    must(world.builder.restore(&config, epoch, highest), Code::Done, "restore");
    world.members[3].node = world.builder.machine.node.clone();
    world.start(4);
    world.round();
    for j in 1..=4 {
        world.fire(j, T_RESEND);
        world.fire(j, T_PROGRESS);
    }
    world.round();
    assert!(world.members.iter().all(|member| member.node.epoch == 3 && member.node.live == 1));
    withdraw_all(builder, 4);

    // n = 4 with lost, doubled, damaged frames and failing signatures; one member recorded.
    let mut all = configs(4, 1, 5);
    all.iter_mut().for_each(|config| config.alpha = 0);
    begin(builder, &all[2], 3_000);
    let mut world = World::new(builder, rng, all, &[3]);
    world.trouble = 6;
    world.start_all();
    for _ in 0..7 {
        world.price -= 3_000;
        world.round();
        if world.armed(T_ROUND).is_none() || world.rng.once_in(4) {
            for j in 1..=4 {
                world.fire(j, T_RESEND);
                if world.rng.once_in(2) {
                    world.fire(j, T_PROGRESS);
                }
            }
        }
        world.next_round();
    }
    withdraw_all(builder, 4);

    // n = 7: the leader of the first epoch and one follower, r_max 1, then the next epoch.
    let all = configs(7, 2, 1);
    begin(builder, &all[4], 1 << 53);
    let mut world = World::new(builder, rng, all, &[5, 2]);
    world.start_all();
    for _ in 0..2 {
        world.price += 1_000;
        world.round();
        world.next_round();
    }
    assert!(world.members[0].node.epoch == 2 && world.handed_out >= 14);
    withdraw_all(builder, 7);

    // n = 31: the leader and one follower, one round and the request for the next.
    let all = configs(31, 10, 200);
    begin(builder, &all[16], 1_000_000);
    let mut world = World::new(builder, rng, all, &[17, 2]);
    world.echoes = 12;
    world.start_all();
    world.round();
    world.next_round();
    world.settle();
    assert!(world.handed_out == 31);
    withdraw_all(builder, 31);

    // n = 31 near the last epoch: restored members jump to it; led by member 4 of 31 (2^32 − 1 mod 31 is 3).
    let mut world = World::new(builder, rng, configs(31, 10, 200), &[4, 9]);
    for j in 1..=31u8 {
        let config = world.members[j as usize - 1].node.config.clone();
        let (code, node) = Node::restore(config, LAST_EPOCH - 2, LAST_EPOCH - (j % 3) as u32);
        must(code, Code::Done, "restore");
        world.members[j as usize - 1].node = node;
    }
    world.start_all();
    world.settle();
    for j in 1..=31 {
        world.fire(j, T_PROGRESS);
    }
    world.settle();
    for j in [4, 9] {
        world.fire(j, T_PROGRESS);
        world.fire(j, T_RESEND);
    }
}
