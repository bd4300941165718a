//! 01, "A round": the leader (000, Algorithm 4).

use crate::frame::{FinalBody, Message, Observed, Signature, SignedObserved, Signer, SIGNATURE};
use crate::node::{
    Node, Run, COLLECTING, FINISHED, GRACE, NO_ROUND, REPORTS, REPORT_SIGNATURES, SIGNATURES, T_GRACE, T_ROUND,
};
use crate::report::bit;
use crate::Code;

/// "member j's OBSERVE signature at 64(j−1)".
pub fn observe_place(member: u8) -> usize {
    SIGNATURE * (member as usize - 1)
}

/// "its REPORT signature at 1,984+64(j−1)".
pub fn report_place(member: u8) -> usize {
    REPORT_SIGNATURES + SIGNATURE * (member as usize - 1)
}

fn signature_at(signatures: &[u8], place: usize) -> Signature {
    let mut signature = [0; SIGNATURE];
    signature.copy_from_slice(&signatures[place..place + SIGNATURE]);
    signature
}

/// The observations of the members 1 to n: "sort by value, then by member".
pub fn sorted_list(node: &Node) -> Vec<Observed> {
    let mut list = Vec::new();
    for member in 1..=node.config.n {
        if node.observed[member as usize - 1] == 1 {
            list.push(Observed { member, value: node.values[member as usize - 1] });
        }
    }
    list.sort_by(|a, b| a.value.cmp(&b.value).then(a.member.cmp(&b.member)));
    list
}

impl Run {
    /// The leader's half of a fresh report instance.
    pub fn fresh_leader(&mut self) {
        self.node.leader_round = 0;
        self.node.phase = NO_ROUND;
        self.reset_tables();
    }

    fn reset_tables(&mut self) {
        self.node.values.fill(0);
        self.node.observed.fill(0);
        self.node.reported.fill(0);
        self.lent.signatures[..SIGNATURES].fill(0);
    }

    /// "A round (the leader's own count) resets its tables, stops T_grace, sends OBSERVE-REQ, restarts
    /// T_round, except that the request for r_max+1 stops T_round."
    pub fn start_round(&mut self, round: u8) {
        self.node.leader_round = round;
        self.node.phase = COLLECTING;
        self.reset_tables();
        self.stop_timer(T_GRACE);
        self.send(Message::ObserveReq { epoch: self.node.epoch, round });
        if round as u32 == self.node.config.r_max as u32 + 1 {
            self.stop_timer(T_ROUND);
        } else {
            self.start_timer(T_ROUND);
        }
    }

    /// "T_round starts the next round", if this node leads and is not halted.
    pub fn round_fired(&mut self) -> Result<(), Code> {
        if !(self.node.live == 1 && self.own_is_leader()) {
            return Err(Code::Ignored);
        }
        if self.node.leader_round == 255 {
            return Err(Code::End);
        }
        self.start_round(self.node.leader_round + 1);
        Ok(())
    }

    /// "OBSERVE while collecting or in grace, this round, none from j: bit set, else PROOF".
    pub fn observe(
        &mut self,
        sender: u8,
        epoch: u32,
        round: u8,
        value: i64,
        signature: Signature,
        bits: u64,
    ) -> Result<(), Code> {
        let n = self.node.config.n as usize;
        let f = self.node.config.f as usize;
        let j = sender as usize - 1;
        if !(self.in_instance(epoch)
            && self.own_is_leader()
            && (self.node.phase == COLLECTING || self.node.phase == GRACE)
            && round == self.node.leader_round
            && self.node.observed[j] == 0)
        {
            return Err(Code::Ignored);
        }
        if !bit(bits, 0) {
            return Err(Code::Proof);
        }
        self.node.observed[j] = 1;
        self.node.values[j] = value;
        let place = observe_place(sender);
        self.lent.signatures[place..place + SIGNATURE].copy_from_slice(&signature);

        // "the entry making more than 2f starts T_grace"
        let m = self.node.observed[..n].iter().filter(|flag| **flag == 1).count();
        if m == 2 * f + 1 {
            self.node.phase = GRACE;
            self.start_timer(T_GRACE);
        }
        Ok(())
    }

    /// "T_grace, with m > 2f: sort by value, then by member; send REPORT-REQ."
    pub fn grace_fired(&mut self) -> Result<(), Code> {
        let list = sorted_list(&self.node);
        if !(self.node.live == 1
            && self.own_is_leader()
            && self.node.phase == GRACE
            && list.len() > 2 * self.node.config.f as usize
            && self.node.leader_round != 0)
        {
            return Err(Code::Ignored);
        }
        let mut signed_list = Vec::new();
        for entry in list {
            signed_list.push(SignedObserved {
                member: entry.member,
                value: entry.value,
                signature: signature_at(&self.lent.signatures, observe_place(entry.member)),
            });
        }
        self.node.phase = REPORTS;
        self.send(Message::ReportReq { epoch: self.node.epoch, round: self.node.leader_round, list: signed_list });
        Ok(())
    }

    /// "REPORT after that, none from j: same list and bit set, else PROOF".
    pub fn report(
        &mut self,
        sender: u8,
        epoch: u32,
        round: u8,
        list: &[Observed],
        signature: Signature,
        bits: u64,
    ) -> Result<(), Code> {
        let n = self.node.config.n;
        let f = self.node.config.f as usize;
        let j = sender as usize - 1;
        if !(self.in_instance(epoch)
            && self.own_is_leader()
            && self.node.phase == REPORTS
            && round == self.node.leader_round
            && self.node.reported[j] == 0)
        {
            return Err(Code::Ignored);
        }
        let own_list = sorted_list(&self.node);
        if !(list == own_list && bit(bits, 0)) {
            return Err(Code::Proof);
        }
        self.node.reported[j] = 1;
        let place = report_place(sender);
        self.lent.signatures[place..place + SIGNATURE].copy_from_slice(&signature);

        // "with more than f, send FINAL with the lowest f+1 signers in member order and take no more
        // reports this round"
        let mut signers = Vec::new();
        for member in 1..=n {
            if self.node.reported[member as usize - 1] == 1 {
                let signature = signature_at(&self.lent.signatures, report_place(member));
                signers.push(Signer { member, signature });
            }
        }
        if signers.len() > f {
            signers.truncate(f + 1);
            self.node.phase = FINISHED;
            self.send(Message::Final(FinalBody { epoch, round, list: own_list, signers }));
        }
        Ok(())
    }
}
