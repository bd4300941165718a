//! 01, "A round": the follower (000, Algorithms 2 and 3).

use crate::frame::{FinalBody, Message, Observed, SignedObserved, SIGNATURE, SLOT};
use crate::node::{Arrival, Of, Part, Run};
use crate::report::{all_bits, attested, falls, median, members_of, should_report, twice};
use crate::Code;

impl Run {
    /// The follower's half of a fresh report instance.
    pub fn fresh_follower(&mut self) {
        self.node.live = 1;
        self.node.round = 0;
        self.clear_round();
    }

    /// "clear the round's marks and kept report": signed, completed, echoes, kept.
    fn clear_round(&mut self) {
        self.node.signed = 0;
        self.node.completed = 0;
        self.node.kept = 0;
        self.node.marks.fill(0);
        self.lent.kept[..SLOT].fill(0);
    }

    /// "OBSERVE-REQ from the leader with a higher round".
    pub fn observe_req(&mut self, sender: u8, epoch: u32, round: u8, observation: i64) -> Result<(), Code> {
        if !(self.in_instance(epoch) && sender == self.node.leader() && round > self.node.round) {
            return Err(Code::Ignored);
        }
        self.node.round = round;
        self.clear_round();
        if round > self.node.config.r_max {
            self.node.live = 0;
            self.change_leader()?;
        } else {
            self.send(Message::Observe { epoch, round, value: observation, signature: [0; SIGNATURE] });
        }
        Ok(())
    }

    /// "REPORT-REQ from the leader, this round, none signed, not completed".
    pub fn report_req(
        &mut self,
        sender: u8,
        epoch: u32,
        round: u8,
        signed_list: &[SignedObserved],
        arrival: &Arrival,
    ) -> Result<(), Code> {
        if !(self.in_instance(epoch)
            && sender == self.node.leader()
            && round == self.node.round
            && self.node.signed == 0
            && self.node.completed == 0)
        {
            return Err(Code::Ignored);
        }
        let mut list = Vec::new();
        for entry in signed_list {
            list.push(Observed { member: entry.member, value: entry.value });
        }
        // "m > 2f, members distinct, values not falling, all bits set, else PROOF"
        if !(list.len() > 2 * self.node.config.f as usize
            && !twice(&members_of(&list))
            && !falls(&list)
            && all_bits(arrival.bits, list.len()))
        {
            return Err(Code::Proof);
        }
        if should_report(&self.node.config, &arrival.commit, arrival.time, median(&list)) {
            self.node.signed = 1;
            self.send(Message::Report { epoch, round, list, signature: [0; SIGNATURE] });
        } else {
            self.complete_round();
        }
        Ok(())
    }

    /// "complete the round, which raises progress".
    fn complete_round(&mut self) {
        self.node.completed = 1;
        self.progress();
    }

    /// "keep and echo it".
    fn keep_and_echo(&mut self, body: &FinalBody) {
        let bytes = body.write();
        self.node.kept = 1;
        self.lent.kept[..SLOT].fill(0);
        self.lent.kept[..bytes.len()].copy_from_slice(&bytes);
        self.send(Message::FinalEcho(body.clone()));
    }

    /// "FINAL from the leader, this round, nothing kept".
    pub fn final_from_leader(&mut self, sender: u8, body: &FinalBody, bits: u64) -> Result<(), Code> {
        if !(self.in_instance(body.epoch)
            && sender == self.node.leader()
            && body.round == self.node.round
            && self.node.kept == 0)
        {
            return Err(Code::Ignored);
        }
        // "apply checks 14 to 17, any failure being PROOF"
        if attested(body, self.node.config.f, bits).is_err() {
            return Err(Code::Proof);
        }
        self.keep_and_echo(body);
        Ok(())
    }

    /// "FINAL-ECHO from j, this round, none from j yet, not completed".
    pub fn final_echo(&mut self, sender: u8, body: &FinalBody, bits: u64) -> Result<(), Code> {
        let n = self.node.config.n as usize;
        let f = self.node.config.f as usize;
        let j = sender as usize - 1;
        if !(self.in_instance(body.epoch)
            && body.round == self.node.round
            && self.node.marks[j] == 0
            && self.node.completed == 0)
        {
            return Err(Code::Ignored);
        }
        if attested(body, self.node.config.f, bits).is_err() {
            return Err(Code::Proof);
        }
        self.node.marks[j] = 1;

        let held_as_the_call_begins = self.node.kept == 1;
        let part = if held_as_the_call_begins {
            let kept = FinalBody::stored(&self.lent.kept[..SLOT], self.node.config.n).expect("code 2 is past");
            Part { of: Of::Kept, start: 0, length: kept.length() }
        } else {
            self.keep_and_echo(body);
            Part { of: Of::Frame, start: 0, length: body.length() }
        };

        // "With more than f marked: hand out the kept report, complete the round."
        let marked = self.node.marks[..n].iter().filter(|mark| **mark == 1).count();
        if marked > f {
            self.hand_out(part);
            self.complete_round();
        }
        Ok(())
    }
}
