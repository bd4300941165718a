//! 01, "Pacemaker".

use crate::config::{ensure, Code, KEPT, MEMBERS, SIGNATURES};
use crate::follower::Follower;
use crate::leader::Leader;
use crate::node::{Call, START, STOP};

#[repr(C)]
#[derive(Clone, Copy)]
pub struct Pace {
    pub epoch: u32,
    pub highest: u32,
    pub heard: [u32; MEMBERS],
    pub started: u8,
    pub progress: u8,
    pub resend: u8,
}

impl Pace {
    pub fn restored(epoch: u32, highest: u32) -> Pace {
        Pace { epoch, highest, heard: [0; MEMBERS], started: 0, progress: 0, resend: 0 }
    }

    pub fn is_good(&self) -> bool {
        self.epoch <= self.highest && self.started <= 1 && self.progress <= 1 && self.resend <= 1
    }
}

fn above(heard: &[u32], x: u32) -> usize {
    heard.iter().filter(|number| **number > x).count()
}

/// The largest number that more than `many` entries reach.
fn reached(heard: &[u32], many: usize) -> u32 {
    let mut numbers = [0; MEMBERS];
    let numbers = &mut numbers[..heard.len()];
    numbers.copy_from_slice(heard);
    *numbers.select_nth_unstable(heard.len() - 1 - many).1
}

impl Call<'_> {
    fn send(&mut self, x: u32) {
        self.outbox.new_epoch(&self.node.config, x);
        self.node.pace.highest = x;
        self.node.pace.resend = 1;
        self.outcome.resend = START;
    }

    pub fn start(&mut self) -> Result<(), Code> {
        ensure(self.node.pace.started == 0, Code::Ignored)?;
        self.node.pace.started = 1;
        self.send(self.node.pace.highest.max(1));
        self.progress();
        Ok(())
    }

    pub fn resend(&mut self) -> Result<(), Code> {
        let pace = &self.node.pace;
        ensure(pace.started == 1 && pace.resend == 1 && pace.highest > 0, Code::Ignored)?;
        self.send(pace.highest);
        Ok(())
    }

    pub fn progress_fired(&mut self) -> Result<(), Code> {
        let pace = &self.node.pace;
        ensure(pace.started == 1 && pace.progress == 1, Code::Ignored)?;
        ensure(pace.epoch < u32::MAX, Code::End)?;
        self.change_leader();
        Ok(())
    }

    /// The caller has seen that a further epoch is left.
    pub fn change_leader(&mut self) {
        let pace = &mut self.node.pace;
        pace.progress = 0;
        let x = pace.highest.max(pace.epoch + 1);
        self.outcome.progress = STOP;
        self.send(x);
    }

    pub fn progress(&mut self) {
        self.node.pace.progress = 1;
        self.outcome.progress = START;
    }

    pub fn new_epoch(&mut self, j: u8, x: u32, kept: &mut [u8; KEPT], signatures: &mut [u8; SIGNATURES]) {
        let n = self.node.config.members();
        let f = self.node.config.faulty();
        let entry = &mut self.node.pace.heard[usize::from(j - 1)];
        *entry = x.max(*entry);
        let heard = &self.node.pace.heard[..n];
        if above(heard, self.node.pace.highest) > f {
            self.send(reached(heard, f));
        }
        let heard = &self.node.pace.heard[..n];
        if above(heard, self.node.pace.epoch) > 2 * f {
            self.move_to(reached(heard, 2 * f), kept, signatures);
        }
    }

    fn move_to(&mut self, epoch: u32, kept: &mut [u8; KEPT], signatures: &mut [u8; SIGNATURES]) {
        self.node.pace.epoch = epoch;
        self.node.pace.highest = self.node.pace.highest.max(epoch);
        self.node.follower = Follower::in_round(1, 0);
        self.node.leader = Leader::none();
        kept.fill(0);
        signatures.fill(0);
        self.outcome.round = STOP;
        self.outcome.grace = STOP;
        self.progress();
        if self.node.leads() {
            self.begin_round(1);
        }
    }
}
