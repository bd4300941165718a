//! The calls of a host: checks first, then the rule, in place.

use crate::config::{ensure, Code, Commit, Config, KEPT, LAST_TIME, OUTBOX, SIGNATURES};
use crate::follower::{Arrival, Follower};
use crate::frame::{Attested, Message};
use crate::leader::Leader;
use crate::outbox::Outbox;
use crate::pacemaker::Pace;

pub const START: u8 = 1;
pub const STOP: u8 = 2;

#[repr(C)]
#[derive(Clone, Copy)]
pub struct Node {
    pub config: Config,
    pub pace: Pace,
    pub follower: Follower,
    pub leader: Leader,
}

#[repr(C)]
#[derive(Clone, Copy, Default)]
pub struct Outcome {
    pub written: usize,
    pub start: usize,
    pub len: usize,
    pub held: u8,
    pub resend: u8,
    pub progress: u8,
    pub round: u8,
    pub grace: u8,
    pub answer: u8,
}

#[repr(C)]
pub struct LentNode {
    pub node: Node,
    pub commit: Commit,
    pub observation: i64,
    pub outcome: Outcome,
}

/// A call whose checks of state and room have passed.
pub struct Call<'a> {
    pub node: &'a mut Node,
    pub outcome: &'a mut Outcome,
    pub outbox: Outbox<'a>,
}

impl Node {
    pub fn is_good(&self, kept: &[u8]) -> bool {
        self.config.is_good()
            && self.pace.is_good()
            && self.follower.is_good()
            && self.leader.is_good()
            && (self.follower.kept == 0 || self.keeps_a_body(kept))
    }

    /// A body that is kept is looked into in a buffer of full size only.
    fn keeps_a_body(&self, kept: &[u8]) -> bool {
        match kept.first_chunk() {
            Some(buffer) => Attested::kept(buffer, self.config.n).is_some(),
            None => true,
        }
    }

    pub fn leader(&self) -> u8 {
        self.config.leader(self.pace.epoch)
    }

    /// Whether an instance of this epoch runs.
    pub fn in_epoch(&self, epoch: u32) -> bool {
        self.follower.live == 1 && epoch == self.pace.epoch
    }

    /// Whether this node leads an instance that runs.
    pub fn leads(&self) -> bool {
        self.pace.started == 1 && self.follower.live == 1 && self.config.own == self.leader()
    }
}

impl LentNode {
    pub fn restore(&mut self, epoch: u32, highest: u32) -> Code {
        let code = if !self.node.config.is_good() {
            Code::Config
        } else if highest < epoch {
            Code::State
        } else {
            self.node.pace = Pace::restored(epoch, highest);
            self.node.follower = Follower::in_round(0, 0);
            self.node.leader = Leader::none();
            Code::Done
        };
        self.outcome = Outcome { answer: code as u8, ..Outcome::default() };
        code
    }

    pub fn start(&mut self, time: u64, outbox: &mut [u8], at: usize, kept: &[u8], signatures: &[u8]) -> Code {
        let result = self.begin(outbox, at, kept, signatures).and_then(|mut call| {
            ensure(time <= LAST_TIME, Code::Range)?;
            call.start()?;
            Ok(call.outbox.written())
        });
        self.finish(result)
    }

    pub fn deliver(
        &mut self,
        frame: &[u8],
        arrival: Arrival,
        outbox: &mut [u8],
        at: usize,
        kept: &mut [u8],
        signatures: &mut [u8],
    ) -> Code {
        let result = self.begin(outbox, at, kept, signatures).and_then(|mut call| {
            let kept = kept.first_chunk_mut().ok_or(Code::Room)?;
            let signatures = signatures.first_chunk_mut().ok_or(Code::Room)?;
            call.deliver(frame, &arrival, kept, signatures)?;
            Ok(call.outbox.written())
        });
        self.finish(result)
    }

    pub fn timer(
        &mut self,
        timer: u8,
        time: u64,
        outbox: &mut [u8],
        at: usize,
        kept: &[u8],
        signatures: &mut [u8],
    ) -> Code {
        let result = self.begin(outbox, at, kept, signatures).and_then(|mut call| {
            ensure(time <= LAST_TIME, Code::Range)?;
            call.timer(timer, signatures.first_chunk_mut().ok_or(Code::Room)?)?;
            Ok(call.outbox.written())
        });
        self.finish(result)
    }

    /// 2 and 3.
    fn begin<'a>(
        &'a mut self,
        outbox: &'a mut [u8],
        at: usize,
        kept: &[u8],
        signatures: &[u8],
    ) -> Result<Call<'a>, Code> {
        let LentNode { node, outcome, .. } = self;
        *outcome = Outcome { held: u8::from(node.follower.kept == 1), ..Outcome::default() };
        ensure(node.is_good(kept), Code::State)?;
        ensure(kept.len() >= KEPT && signatures.len() >= SIGNATURES, Code::Room)?;
        let rest = outbox.get_mut(at..).ok_or(Code::Room)?;
        ensure(rest.len() >= OUTBOX, Code::Room)?;
        Ok(Call { node, outcome, outbox: Outbox::new(rest) })
    }

    /// A rule that refuses has changed nothing.
    fn finish(&mut self, result: Result<usize, Code>) -> Code {
        let code = match result {
            Ok(written) => {
                self.outcome.written = written;
                Code::Done
            }
            Err(code) => code,
        };
        self.outcome.answer = code as u8;
        code
    }
}

impl Call<'_> {
    pub fn deliver(
        &mut self,
        frame: &[u8],
        arrival: &Arrival,
        kept: &mut [u8; KEPT],
        signatures: &mut [u8; SIGNATURES],
    ) -> Result<(), Code> {
        let message = Message::read(frame, &self.node.config, arrival.link)?;
        ensure(arrival.time <= LAST_TIME && arrival.commit.in_range(), Code::Range)?;
        ensure(self.node.pace.started == 1, Code::Ignored)?;
        match message {
            Message::NewEpoch(epoch) => {
                self.new_epoch(arrival.link, epoch, kept, signatures);
                Ok(())
            }
            Message::ObserveReq(head) => self.observe_req(head, arrival, kept),
            Message::Observe(head, value, signature) => self.observe(head, value, signature, arrival, signatures),
            Message::ReportReq(head, list) => self.report_req(head, list, arrival),
            Message::Report(head, list, signature) => self.report(head, list, signature, arrival, signatures),
            Message::Final(body) => self.final_report(&body, arrival, kept),
            Message::FinalEcho(body) => self.final_echo(&body, arrival, kept),
        }
    }

    pub fn timer(&mut self, timer: u8, signatures: &mut [u8; SIGNATURES]) -> Result<(), Code> {
        match timer {
            0 => self.resend(),
            1 => self.progress_fired(),
            2 => self.round_fired(signatures),
            3 => self.grace_fired(signatures),
            _ => Err(Code::Ignored),
        }
    }
}
