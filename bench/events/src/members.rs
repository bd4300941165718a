//! The node's events: a leader's and a follower's way through an epoch, and frames that are refused.

use crate::event::{Event, Named};
use crate::feed::{self, Values, FOLLOWER, LEADER, NOW, NUMBER};
use crate::member::Member;
use rules::config::Commit;
use rules::frame::Message;
use rules::node::{self, Arrival, T_GRACE, T_PROGRESS, T_RESEND, T_ROUND};
use rules::Code;

/// Where frames are written in the outbox, and how long it is.
const AT: u64 = 40;
const OUTBOX: usize = 2_500;

fn fresh(n: u8, own: u8) -> Member {
    let lent = node::Lent { outbox: vec![0xA5; OUTBOX], kept: vec![0; 2304], signatures: vec![0; 3968] };
    let mut member = Member { lent, observation: 20_001, ..Member::default() };
    member.fresh(feed::config(n, own)).gives(Code::Done);
    member
}

fn start(member: &mut Member) -> Event {
    member.start(NOW, AT).gives(Code::Done)
}

fn timer(member: &mut Member, timer: usize) -> Event {
    member.timer(timer as u8, NOW, AT).gives(Code::Done)
}

fn deliver(member: &mut Member, link: u8, bits: u64, frame: Vec<u8>) -> Event {
    let Member { commit, observation, .. } = member.clone();
    member.deliver(Arrival { link, time: NOW, observation, commit, bits, at: AT, frame })
}

/// A message that is taken, with every bit set.
fn take(member: &mut Member, link: u8, message: Message) -> Event {
    deliver(member, link, u64::MAX, message.frame(link, NUMBER)).gives(Code::Done)
}

/// In an epoch, after all members have sent it.
fn moved(n: u8, own: u8) -> Member {
    let mut member = fresh(n, own);
    start(&mut member);
    for j in 1..=n {
        take(&mut member, j, Message::NewEpoch { epoch: feed::epoch(n, 0) });
    }
    member
}

fn making(n: u8) -> Vec<Named> {
    let config = feed::config(n, LEADER);
    let busy = moved(n, LEADER);
    vec![
        busy.clone().fresh(config.clone()).named("node fresh"),
        busy.clone().restore(config, feed::epoch(n, 0), feed::epoch(n, 1)).named("node restore"),
    ]
}

fn epoch_timers(n: u8) -> Vec<Named> {
    let member = moved(n, FOLLOWER);
    vec![
        start(&mut fresh(n, LEADER)).named("start"),
        timer(&mut member.clone(), T_RESEND).named("T_resend"),
        timer(&mut member.clone(), T_PROGRESS).named("T_progress"),
    ]
}

/// The members send later epochs, a later member a later one.
fn pacing(n: u8) -> Vec<Named> {
    let f = feed::faulty(n);
    let mut events = Vec::new();
    let (mut leader, mut follower) = (moved(n, LEADER), moved(n, FOLLOWER));
    for j in 1..=2 * f + 1 {
        let epoch = feed::epoch(n, u32::from(j));
        let leads = take(&mut leader, j, Message::NewEpoch { epoch });
        let follows = take(&mut follower, j, Message::NewEpoch { epoch });
        if j == 1 {
            events.push(follows.named("NEWEPOCH, recorded"));
        } else if j == f + 1 {
            events.push(follows.named("NEWEPOCH, sent on"));
        } else if j == 2 * f + 1 {
            events.push(follows.named("NEWEPOCH, moved, follows"));
            events.push(leads.named("NEWEPOCH, moved, leads"));
        }
    }
    events
}

/// The leader in grace, all members' observations taken.
fn observed(n: u8, order: Values) -> (Member, Vec<Named>) {
    let mut leader = moved(n, LEADER);
    let epoch = leader.node.epoch;
    let mut events = Vec::new();
    for j in 1..=n {
        let event = take(&mut leader, j, feed::observe(n, j, epoch, order));
        if j == 1 {
            events.push(event.named("OBSERVE, taken"));
        } else if j == 2 * feed::faulty(n) + 1 {
            events.push(event.named("OBSERVE, grace starts"));
        }
    }
    (leader, events)
}

fn reporting(leader: &mut Member, n: u8, order: Values) -> Vec<Named> {
    let epoch = leader.node.epoch;
    let end = if order == Values::Falling { "falling" } else { "shuffled" };
    let mut events = vec![timer(leader, T_GRACE).named(&format!("T_grace, {end}"))];
    for j in 1..=feed::faulty(n) + 1 {
        let event = take(leader, j, feed::report_of(n, j, epoch, order));
        if j == 1 {
            events.push(event.named(&format!("REPORT, taken, {end}")));
        } else if j == feed::faulty(n) + 1 {
            events.push(event.named(&format!("REPORT, sends FINAL, {end}")));
        }
    }
    events
}

fn leading(n: u8) -> Vec<Named> {
    let (mut leader, mut events) = observed(n, Values::Falling);
    events.extend(reporting(&mut leader, n, Values::Falling));
    let (mut other, _) = observed(n, Values::Shuffled);
    events.extend(reporting(&mut other, n, Values::Shuffled));
    events.push(timer(&mut leader, T_ROUND).named("T_round"));
    events
}

/// A follower in round 1.
fn asked(n: u8) -> Member {
    let mut follower = moved(n, FOLLOWER);
    let epoch = follower.node.epoch;
    take(&mut follower, LEADER, Message::ObserveReq { epoch, round: 1 });
    follower
}

fn requested(n: u8) -> Vec<Named> {
    let mut follower = asked(n);
    let epoch = follower.node.epoch;
    let reported = take(&mut follower.clone(), LEADER, feed::report_req(n, epoch));
    let median = feed::list(n, Values::Falling)[n as usize / 2].value;
    follower.commit = Commit { median, time: NOW, epoch: epoch - 1, round: 1 };
    let completes = take(&mut follower, LEADER, feed::report_req(n, epoch));
    vec![reported.named("REPORT-REQ, reported"), completes.named("REPORT-REQ, completes")]
}

fn following(n: u8) -> Vec<Named> {
    let mut follower = asked(n);
    let epoch = follower.node.epoch;
    let report = feed::report(n, epoch, 1);
    let echo = Message::FinalEcho(report.clone());
    let mut events = vec![
        take(&mut follower.clone(), 1, echo.clone()).named("FINAL-ECHO, kept, echoed"),
        take(&mut follower, LEADER, Message::Final(report)).named("FINAL, kept, echoed"),
    ];
    for j in 1..=feed::faulty(n) + 1 {
        let event = take(&mut follower, j, echo.clone());
        if j == 1 {
            events.push(event.named("FINAL-ECHO, marked"));
        } else if j == feed::faulty(n) + 1 {
            events.push(event.named("FINAL-ECHO, handed out"));
        }
    }
    // the next round's request finds a kept report to clear
    events.push(take(&mut follower, LEADER, Message::ObserveReq { epoch, round: 2 }).named("OBSERVE-REQ"));
    events
}

fn refused(n: u8) -> Vec<Named> {
    let mut follower = asked(n);
    let report = feed::report(n, follower.node.epoch, 1);
    let end = report.length();
    let frame = Message::Final(report.clone()).frame(LEADER, NUMBER);
    let with = |place: usize, byte: u8| {
        let mut frame = frame.clone();
        frame[place] = byte;
        frame
    };
    let longer = [&[0], &frame[..]].concat();
    let (all, last_clear) = (u64::MAX, !(1 << feed::faulty(n)));
    let mut events = Vec::new();
    for (name, link, bits, frame, code) in [
        ("SHORT", LEADER, all, frame[end + 1..].to_vec(), Code::Short),
        ("VERSION", LEADER, all, with(end + 3, 9), Code::Version),
        ("KIND", LEADER, all, with(end, 8), Code::Kind),
        ("SENDER", FOLLOWER, all, frame.clone(), Code::Sender),
        ("LENGTH", LEADER, all, longer, Code::Length),
        ("RANGE", LEADER, all, with(end - 65, 0), Code::Range),
        ("PROOF", LEADER, last_clear, frame.clone(), Code::Proof),
    ] {
        let event = deliver(&mut follower, link, bits, frame).gives(code);
        events.push(event.named(&format!("FINAL, refused {name}")));
    }
    take(&mut follower, LEADER, Message::Final(report));
    let again = deliver(&mut follower, LEADER, all, frame).gives(Code::Ignored);
    events.push(again.named("FINAL, refused IGNORED"));
    events
}

pub fn events(n: u8) -> Vec<Named> {
    let parts = [making(n), epoch_timers(n), pacing(n), requested(n), following(n), leading(n), refused(n)];
    parts.into_iter().flatten().collect()
}
