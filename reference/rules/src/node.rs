//! The node: its state, its three calls (Start, delivery, timer) and what each answers.

use crate::bytes::{Reader, Writer};
use crate::config::{Commit, Config, MAX_TIME, MEMBERS};
use crate::frame::{read_frame, FinalBody, Message, SLOT};
use crate::Code;

/// "outbox at least 2,400 bytes from the given position".
pub const OUTBOX: usize = 2400;
/// "leader's signatures 3,968".
pub const SIGNATURES: usize = 3968;
/// The second half of them: "its REPORT signature at 1,984+64(j−1)".
pub const REPORT_SIGNATURES: usize = 1984;

/// The phases of a leader.
pub const NO_ROUND: u8 = 0;
pub const COLLECTING: u8 = 1;
pub const GRACE: u8 = 2;
pub const REPORTS: u8 = 3;
pub const FINISHED: u8 = 4;

/// The timers by number.
pub const T_RESEND: usize = 0;
pub const T_PROGRESS: usize = 1;
pub const T_ROUND: usize = 2;
pub const T_GRACE: usize = 3;

/// A node's state. Flags are bytes, so that a state of any bytes can be held; 1 is set.
#[derive(Clone, PartialEq, Eq, Debug, Default)]
pub struct Node {
    pub config: Config,
    // Pacemaker.
    pub epoch: u32,
    pub highest_sent: u32,
    pub heard: [u32; MEMBERS],
    pub started: u8,
    pub progress_armed: u8,
    pub resend_armed: u8,
    // Follower.
    pub live: u8,
    pub round: u8,
    pub signed: u8,
    pub completed: u8,
    pub kept: u8,
    pub marks: [u8; MEMBERS],
    // Leader.
    pub values: [i64; MEMBERS],
    pub observed: [u8; MEMBERS],
    pub reported: [u8; MEMBERS],
    pub phase: u8,
    pub leader_round: u8,
    pub round_armed: u8,
    pub grace_armed: u8,
}

/// The buffers lent to each call of a node. What lies past their sizes is not the node's.
#[derive(Clone, PartialEq, Eq, Debug, Default)]
pub struct Lent {
    pub outbox: Vec<u8>,
    pub kept: Vec<u8>,
    pub signatures: Vec<u8>,
}

/// What the host gives with a delivery.
#[derive(Clone, PartialEq, Eq, Debug)]
pub struct Arrival {
    pub link: u8,
    pub time: u64,
    pub observation: i64,
    pub commit: Commit,
    pub bits: u64,
    pub at: u64,
    pub frame: Vec<u8>,
}

#[derive(Clone, Copy, PartialEq, Eq, Debug)]
pub enum Action {
    Alone,
    Start,
    Stop,
}

#[derive(Clone, Copy, PartialEq, Eq, Debug)]
pub enum Of {
    Kept,
    Frame,
}

/// The report handed out, as a part of the kept buffer or of the arriving frame.
#[derive(Clone, Copy, PartialEq, Eq, Debug)]
pub struct Part {
    pub of: Of,
    pub start: usize,
    pub length: usize,
}

#[derive(Clone, PartialEq, Eq, Debug)]
pub struct Answer {
    pub code: Code,
    pub written: usize,
    pub timers: [Action; 4],
    pub part: Part,
}

/// A call under way: copies that the rules alter, given back only with DONE.
pub struct Run {
    pub node: Node,
    pub lent: Lent,
    at: usize,
    written: usize,
    timers: [Action; 4],
    handed_out: Option<Part>,
}

fn flag_good(flag: u8) -> bool {
    flag <= 1
}

fn flags_good(flags: &[u8]) -> bool {
    flags.iter().all(|flag| flag_good(*flag))
}

impl Node {
    pub const IMAGE: usize = 526;

    /// What the numbers make, refused or not: a restored node differs from a fresh one in its saved
    /// epoch, its leader (which follows from it) and highest sent.
    fn of_numbers(config: Config, epoch: u32, highest_sent: u32) -> Node {
        Node { config, epoch, highest_sent, ..Node::default() }
    }

    /// Making a fresh state: 12.
    pub fn fresh(config: Config) -> (Code, Node) {
        let code = if config.is_good() { Code::Done } else { Code::Config };
        (code, Node::of_numbers(config, 0, 0))
    }

    /// Restoring one: 12, then 2.
    pub fn restore(config: Config, epoch: u32, highest_sent: u32) -> (Code, Node) {
        let code = if !config.is_good() {
            Code::Config
        } else if highest_sent < epoch {
            Code::State
        } else {
            Code::Done
        };
        (code, Node::of_numbers(config, epoch, highest_sent))
    }

    /// The leader of the current epoch; 0 for none.
    pub fn leader(&self) -> u8 {
        self.config.leader(self.epoch)
    }

    /// Code 2 for a node. Flags and phase are tested over the whole tables; a kept body only in a buffer
    /// of full size, and only its RANGE.
    pub fn is_good(&self, kept_buffer: &[u8]) -> bool {
        self.config.is_good()
            && self.highest_sent >= self.epoch
            && flag_good(self.started)
            && flag_good(self.progress_armed)
            && flag_good(self.resend_armed)
            && flag_good(self.live)
            && flag_good(self.signed)
            && flag_good(self.completed)
            && flag_good(self.kept)
            && flags_good(&self.marks)
            && flags_good(&self.observed)
            && flags_good(&self.reported)
            && self.phase <= FINISHED
            && flag_good(self.round_armed)
            && flag_good(self.grace_armed)
            && (self.kept == 0
                || kept_buffer.len() < SLOT
                || FinalBody::stored(&kept_buffer[..SLOT], self.config.n).is_some())
    }

    pub fn read(reader: &mut Reader) -> Node {
        Node {
            config: Config::read(reader),
            epoch: reader.u32(),
            highest_sent: reader.u32(),
            heard: reader.u32s(),
            started: reader.u8(),
            progress_armed: reader.u8(),
            resend_armed: reader.u8(),
            live: reader.u8(),
            round: reader.u8(),
            signed: reader.u8(),
            completed: reader.u8(),
            kept: reader.u8(),
            marks: reader.bytes(),
            values: reader.i64s(),
            observed: reader.bytes(),
            reported: reader.bytes(),
            phase: reader.u8(),
            leader_round: reader.u8(),
            round_armed: reader.u8(),
            grace_armed: reader.u8(),
        }
    }

    pub fn from_image(image: &[u8]) -> Node {
        Node::read(&mut Reader::new(image))
    }

    pub fn image(&self) -> Vec<u8> {
        let mut writer = Writer::new();
        self.config.write(&mut writer);
        writer.u32(self.epoch).u32(self.highest_sent);
        for heard in self.heard {
            writer.u32(heard);
        }
        writer.u8(self.started).u8(self.progress_armed).u8(self.resend_armed);
        writer.u8(self.live).u8(self.round).u8(self.signed).u8(self.completed).u8(self.kept).put(&self.marks);
        for value in self.values {
            writer.i64(value);
        }
        writer.put(&self.observed).put(&self.reported);
        writer.u8(self.phase).u8(self.leader_round).u8(self.round_armed).u8(self.grace_armed);
        writer.bytes
    }
}

/// Code 3 for a node's call: "a buffer below its size, or a position past its end".
fn has_room(lent: &Lent, at: u64) -> bool {
    at <= lent.outbox.len() as u64
        && lent.outbox.len() as u64 - at >= OUTBOX as u64
        && lent.kept.len() >= SLOT
        && lent.signatures.len() >= SIGNATURES
}

impl Run {
    fn new(node: &Node, lent: &Lent, at: u64) -> Run {
        Run {
            node: node.clone(),
            lent: lent.clone(),
            at: at as usize,
            written: 0,
            timers: [Action::Alone; 4],
            handed_out: None,
        }
    }

    /// Writes a frame after what this call wrote already.
    pub fn send(&mut self, message: Message) {
        let frame = message.frame(self.node.config.own, self.node.config.number);
        let from = self.at + self.written;
        self.lent.outbox[from..from + frame.len()].copy_from_slice(&frame);
        self.written += frame.len();
    }

    fn arm(&mut self, timer: usize, armed: u8) {
        match timer {
            T_RESEND => self.node.resend_armed = armed,
            T_PROGRESS => self.node.progress_armed = armed,
            T_ROUND => self.node.round_armed = armed,
            _ => self.node.grace_armed = armed,
        }
    }

    /// Starts or restarts a timer. Of two actions in a call the last is reported.
    pub fn start_timer(&mut self, timer: usize) {
        self.arm(timer, 1);
        self.timers[timer] = Action::Start;
    }

    /// Stops a timer, armed or not.
    pub fn stop_timer(&mut self, timer: usize) {
        self.arm(timer, 0);
        self.timers[timer] = Action::Stop;
    }

    /// "one that fires with DONE no longer is [armed] unless its rule restarts it".
    fn fired(&mut self, timer: usize) {
        self.arm(timer, 0);
    }

    /// "Every rule needs the message's epoch to be current and the instance not halted."
    pub fn in_instance(&self, epoch: u32) -> bool {
        self.node.live == 1 && epoch == self.node.epoch
    }

    pub fn own_is_leader(&self) -> bool {
        self.node.config.own == self.node.leader()
    }

    pub fn hand_out(&mut self, part: Part) {
        self.handed_out = Some(part);
    }
}

/// Gives the copies back with DONE; a refusal changes and reports nothing.
fn finish(result: Result<Run, Code>, node: &mut Node, lent: &mut Lent, empty: Part) -> Answer {
    match result {
        Ok(run) => {
            *node = run.node;
            *lent = run.lent;
            let part = run.handed_out.unwrap_or(empty);
            Answer { code: Code::Done, written: run.written, timers: run.timers, part }
        }
        Err(code) => Answer { code, written: 0, timers: [Action::Alone; 4], part: empty },
    }
}

/// "with none handed out, an empty part": of the kept buffer if one is held as the call begins.
fn no_part(node: &Node) -> Part {
    let of = if node.kept == 1 { Of::Kept } else { Of::Frame };
    Part { of, start: 0, length: 0 }
}

/// The codes 2, 3, 9 of Start and timers.
fn check_timer(node: &Node, lent: &Lent, time: u64, at: u64) -> Result<(), Code> {
    if !node.is_good(&lent.kept) {
        return Err(Code::State);
    }
    if !has_room(lent, at) {
        return Err(Code::Room);
    }
    if time > MAX_TIME {
        return Err(Code::Range);
    }
    Ok(())
}

pub fn start(node: &mut Node, lent: &mut Lent, time: u64, at: u64) -> Answer {
    let result = try_start(node, lent, time, at);
    let part = no_part(node);
    finish(result, node, lent, part)
}

fn try_start(node: &Node, lent: &Lent, time: u64, at: u64) -> Result<Run, Code> {
    check_timer(node, lent, time, at)?;
    if node.started == 1 {
        return Err(Code::Ignored);
    }
    let mut run = Run::new(node, lent, at);
    run.pacemaker_start();
    Ok(run)
}

pub fn timer(node: &mut Node, lent: &mut Lent, timer: u8, time: u64, at: u64) -> Answer {
    let result = try_timer(node, lent, timer, time, at);
    let part = no_part(node);
    finish(result, node, lent, part)
}

fn try_timer(node: &Node, lent: &Lent, timer: u8, time: u64, at: u64) -> Result<Run, Code> {
    check_timer(node, lent, time, at)?;
    let timer = timer as usize;
    let armed = match timer {
        T_RESEND => node.resend_armed,
        T_PROGRESS => node.progress_armed,
        T_ROUND => node.round_armed,
        T_GRACE => node.grace_armed,
        _ => 0, // a number that names no timer is an unarmed timer
    };
    if node.started == 0 || armed == 0 {
        return Err(Code::Ignored);
    }
    let mut run = Run::new(node, lent, at);
    run.fired(timer);
    match timer {
        T_RESEND => run.resend()?,
        T_PROGRESS => run.change_leader()?,
        T_ROUND => run.round_fired()?,
        _ => run.grace_fired()?,
    }
    Ok(run)
}

pub fn deliver(node: &mut Node, lent: &mut Lent, arrival: &Arrival) -> Answer {
    // An empty part is one of the kept buffer if a report is held as the call begins, else of the frame.
    let of = if node.kept == 1 { Of::Kept } else { Of::Frame };
    let result = try_deliver(node, lent, arrival);
    finish(result, node, lent, Part { of, start: 0, length: 0 })
}

fn try_deliver(node: &Node, lent: &Lent, arrival: &Arrival) -> Result<Run, Code> {
    if !node.is_good(&lent.kept) {
        return Err(Code::State);
    }
    if !has_room(lent, arrival.at) {
        return Err(Code::Room);
    }
    let config = &node.config;
    let (sender, message, _) = read_frame(&arrival.frame, config.n, config.number, arrival.link)?;
    if !message.in_range(config.n) || arrival.time > MAX_TIME || !arrival.commit.in_range() {
        return Err(Code::Range);
    }
    if node.started == 0 {
        return Err(Code::Ignored);
    }
    let mut run = Run::new(node, lent, arrival.at);
    match message {
        Message::NewEpoch { epoch } => run.newepoch(sender, epoch),
        Message::ObserveReq { epoch, round } => run.observe_req(sender, epoch, round, arrival.observation)?,
        Message::Observe { epoch, round, value, signature } => {
            run.observe(sender, epoch, round, value, signature, arrival.bits)?
        }
        Message::ReportReq { epoch, round, list } => run.report_req(sender, epoch, round, &list, arrival)?,
        Message::Report { epoch, round, list, signature } => {
            run.report(sender, epoch, round, &list, signature, arrival.bits)?
        }
        Message::Final(body) => run.final_from_leader(sender, &body, arrival.bits)?,
        Message::FinalEcho(body) => run.final_echo(sender, &body, arrival.bits)?,
    }
    Ok(run)
}
