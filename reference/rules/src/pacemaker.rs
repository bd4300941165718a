//! 01, "Pacemaker" (000, Algorithm 1).

use crate::frame::Message;
use crate::node::{Run, T_GRACE, T_PROGRESS, T_RESEND, T_ROUND};
use crate::Code;

/// How many of the numbers are above x.
fn above(heard: &[u32], x: u32) -> usize {
    heard.iter().filter(|number| **number > x).count()
}

/// The largest number that more than `count` entries reach; it is one of the entries.
fn largest_reached(heard: &[u32], count: usize) -> u32 {
    let mut largest = 0;
    for candidate in heard {
        let reach = heard.iter().filter(|number| *number >= candidate).count();
        if reach > count && *candidate > largest {
            largest = *candidate;
        }
    }
    largest
}

impl Run {
    /// "Sending x: write NEWEPOCH x, highest sent becomes x, restart T_resend."
    fn send_newepoch(&mut self, x: u32) {
        self.send(Message::NewEpoch { epoch: x });
        self.node.highest_sent = x;
        self.start_timer(T_RESEND);
    }

    /// "Start: send max(1, highest sent); start T_progress."
    pub fn pacemaker_start(&mut self) {
        self.node.started = 1;
        self.send_newepoch(self.node.highest_sent.max(1));
        self.start_timer(T_PROGRESS);
    }

    /// "T_resend: send highest sent." No frame says epoch 0.
    pub fn resend(&mut self) -> Result<(), Code> {
        if self.node.highest_sent == 0 {
            return Err(Code::Ignored);
        }
        self.send_newepoch(self.node.highest_sent);
        Ok(())
    }

    /// "T_progress or changeleader: stop T_progress, send max(epoch+1, highest sent)."
    pub fn change_leader(&mut self) -> Result<(), Code> {
        let wanted = (self.node.epoch as u64 + 1).max(self.node.highest_sent as u64);
        if wanted > u32::MAX as u64 {
            return Err(Code::End);
        }
        self.stop_timer(T_PROGRESS);
        self.send_newepoch(wanted as u32);
        Ok(())
    }

    /// "Progress: restart T_progress."
    pub fn progress(&mut self) {
        self.start_timer(T_PROGRESS);
    }

    /// "NEWEPOCH x from j".
    pub fn newepoch(&mut self, j: u8, x: u32) {
        let n = self.node.config.n as usize;
        let f = self.node.config.f as usize;
        let entry = &mut self.node.heard[j as usize - 1];
        *entry = (*entry).max(x);
        let heard = self.node.heard[..n].to_vec();

        // "if more than f entries exceed highest sent, send the largest number that more than f reach"
        if above(&heard, self.node.highest_sent) > f {
            self.send_newepoch(largest_reached(&heard, f));
        }
        // "if more than 2f entries exceed the epoch, move to the largest number that more than 2f reach"
        if above(&heard, self.node.epoch) > 2 * f {
            self.move_to(largest_reached(&heard, 2 * f));
        }
    }

    /// "highest sent is raised to it if lower; a fresh report instance begins with its lent buffers zeroed
    /// and its timers stopped; restart T_progress; the leader starts round 1".
    fn move_to(&mut self, epoch: u32) {
        self.node.epoch = epoch;
        if self.node.highest_sent < epoch {
            self.node.highest_sent = epoch;
        }
        self.fresh_follower();
        self.fresh_leader();
        self.stop_timer(T_ROUND);
        self.stop_timer(T_GRACE);
        self.start_timer(T_PROGRESS);
        if self.own_is_leader() {
            self.start_round(1);
        }
    }
}
