//! 01, "A round": the follower.

use crate::config::{count, ensure, flags, Code, Commit, KEPT, MEMBERS};
use crate::frame::{Attested, Head, List, SIGNED};
use crate::node::{Call, Node};
use crate::report::{check, check_list, clear_bit, is_due, keep};

#[repr(C)]
#[derive(Clone, Copy)]
pub struct Follower {
    pub live: u8,
    pub round: u8,
    pub signed: u8,
    pub completed: u8,
    pub kept: u8,
    pub marks: [u8; MEMBERS],
}

/// What the host gives with a delivery.
pub struct Arrival {
    pub link: u8,
    pub time: u64,
    pub bits: u64,
    pub observation: i64,
    pub commit: Commit,
}

impl Follower {
    pub fn in_round(live: u8, round: u8) -> Follower {
        Follower { live, round, signed: 0, completed: 0, kept: 0, marks: [0; MEMBERS] }
    }

    pub fn is_good(&self) -> bool {
        self.live <= 1 && self.signed <= 1 && self.completed <= 1 && self.kept <= 1 && flags(&self.marks)
    }
}

impl Node {
    /// Whether a message of this epoch and round is of the one that runs.
    fn in_round(&self, head: Head) -> bool {
        self.in_epoch(head.epoch) && head.round == self.follower.round
    }
}

impl Call<'_> {
    pub fn observe_req(&mut self, head: Head, arrival: &Arrival, kept: &mut [u8; KEPT]) -> Result<(), Code> {
        let node = &mut *self.node;
        ensure(
            node.in_epoch(head.epoch) && arrival.link == node.leader() && head.round > node.follower.round,
            Code::Ignored,
        )?;
        let halts = head.round > node.config.r_max;
        ensure(!halts || node.pace.epoch < u32::MAX, Code::End)?;
        node.follower = Follower::in_round(u8::from(!halts), head.round);
        kept.fill(0);
        if halts {
            self.change_leader();
        } else {
            self.outbox.observe(&node.config, head, arrival.observation);
        }
        Ok(())
    }

    pub fn report_req(&mut self, head: Head, list: List<SIGNED>, arrival: &Arrival) -> Result<(), Code> {
        let node = &mut *self.node;
        ensure(
            node.in_round(head)
                && arrival.link == node.leader()
                && node.follower.signed == 0
                && node.follower.completed == 0,
            Code::Ignored,
        )?;
        ensure(
            check_list(list, node.config.faulty()).is_ok() && clear_bit(arrival.bits, list.len()).is_none(),
            Code::Proof,
        )?;
        if is_due(&node.config, &arrival.commit, arrival.time, list.median()) {
            node.follower.signed = 1;
            self.outbox.report(&node.config, head, list);
        } else {
            self.complete();
        }
        Ok(())
    }

    fn complete(&mut self) {
        self.node.follower.completed = 1;
        self.progress();
    }

    fn keep_and_echo(&mut self, body: &Attested, kept: &mut [u8; KEPT]) {
        keep(kept, body.bytes);
        self.node.follower.kept = 1;
        self.outbox.echo(&self.node.config, body);
    }

    pub fn final_report(&mut self, body: &Attested, arrival: &Arrival, kept: &mut [u8; KEPT]) -> Result<(), Code> {
        let node = &*self.node;
        ensure(node.in_round(body.head) && arrival.link == node.leader() && node.follower.kept == 0, Code::Ignored)?;
        ensure(check(body, node.config.faulty(), arrival.bits).is_ok(), Code::Proof)?;
        self.keep_and_echo(body, kept);
        Ok(())
    }

    pub fn final_echo(&mut self, body: &Attested, arrival: &Arrival, kept: &mut [u8; KEPT]) -> Result<(), Code> {
        let node = &mut *self.node;
        let place = usize::from(arrival.link - 1);
        ensure(
            node.in_round(body.head) && node.follower.marks[place] == 0 && node.follower.completed == 0,
            Code::Ignored,
        )?;
        ensure(check(body, node.config.faulty(), arrival.bits).is_ok(), Code::Proof)?;
        node.follower.marks[place] = 1;
        let enough = count(&node.follower.marks[..node.config.members()]) > node.config.faulty();
        let length = if node.follower.kept == 1 {
            Attested::length(kept)
        } else {
            self.keep_and_echo(body, kept);
            body.bytes.len()
        };
        if enough {
            self.outcome.len = length;
            self.complete();
        }
        Ok(())
    }
}
