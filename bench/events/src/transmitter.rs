//! Calls of a sender, each made by `reference/rules` and turned into an event.

use crate::event::{Call, Event, Lent};
use crate::layout::{sender_after, sender_before};
use rules::config::{Commit, Config};
use rules::sender::{self, Answer, Sender, Transmit};
use rules::Code;

/// A sender with all that its host lends.
#[derive(Clone, Default)]
pub struct Transmitter {
    pub sender: Sender,
    pub waiting: Vec<u8>,
    pub commit: Commit,
}

fn event(call: Call, before: &Transmitter, after: &Transmitter, answer: &Answer) -> Event {
    Event {
        n: before.sender.config.n,
        call,
        numbers: Vec::new(),
        read: Vec::new(),
        lent: vec![
            Lent {
                before: sender_before(&before.sender, &before.commit),
                after: sender_after(&after.sender, &after.commit, answer),
            },
            Lent { before: before.waiting.clone(), after: after.waiting.clone() },
        ],
        code: answer.code,
    }
}

impl Transmitter {
    /// The boundary makes a sender of the configuration that is lent, and leaves it where that is refused.
    pub fn fresh(&mut self, config: Config) -> Event {
        self.sender.config = config.clone();
        let before = self.clone();
        let (code, made) = Sender::fresh(config);
        if code == Code::Done {
            self.sender = made;
        }
        let answer = Answer { code, transmit: Transmit::Alone, part: (0, 0) };
        let mut event = event(Call::SenderFresh, &before, self, &answer);
        event.lent.truncate(1);
        event
    }

    pub fn transmit(&mut self, time: u64, permutation: &[u8], body: &[u8]) -> Event {
        let before = self.clone();
        let Transmitter { sender, waiting, commit } = self;
        let answer = sender::transmit(sender, waiting, time, commit, permutation, body);
        let event = event(Call::SenderTransmit, &before, self, &answer);
        Event { numbers: vec![time], read: vec![body.to_vec(), permutation.to_vec()], ..event }
    }

    pub fn timeout(&mut self, time: u64) -> Event {
        let before = self.clone();
        let answer = sender::timeout(&mut self.sender, &self.waiting, time, &self.commit);
        Event { numbers: vec![time], ..event(Call::SenderTimeout, &before, self, &answer) }
    }
}
