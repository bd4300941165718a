//! Calls of a node, each made by `reference/rules` and turned into an event.

use crate::event::{Call, Event, Lent};
use crate::layout::{node_after, node_before, node_made};
use rules::config::{Commit, Config};
use rules::node::{self, Answer, Arrival, Node};
use rules::Code;

/// A node with all that its host lends.
#[derive(Clone, Default)]
pub struct Member {
    pub node: Node,
    pub lent: node::Lent,
    pub commit: Commit,
    pub observation: i64,
}

fn part(before: &[u8], after: &[u8]) -> Lent {
    Lent { before: before.to_vec(), after: after.to_vec() }
}

/// What a call leaves that is compared: the struct and its buffers.
fn event(call: Call, before: &Member, after: &Member, answer: &Answer) -> Event {
    Event {
        n: before.node.config.n,
        call,
        numbers: Vec::new(),
        read: Vec::new(),
        lent: vec![
            Lent {
                before: node_before(&before.node, &before.commit, before.observation),
                after: node_after(&after.node, &after.commit, after.observation, answer),
            },
            part(&before.lent.outbox, &after.lent.outbox),
            part(&before.lent.kept, &after.lent.kept),
            part(&before.lent.signatures, &after.lent.signatures),
        ],
        code: answer.code,
    }
}

impl Member {
    pub fn start(&mut self, time: u64, at: u64) -> Event {
        let before = self.clone();
        let answer = node::start(&mut self.node, &mut self.lent, time, at);
        Event { numbers: vec![time, at], ..event(Call::NodeStart, &before, self, &answer) }
    }

    pub fn timer(&mut self, timer: u8, time: u64, at: u64) -> Event {
        let before = self.clone();
        let answer = node::timer(&mut self.node, &mut self.lent, timer, time, at);
        Event { numbers: vec![u64::from(timer), time, at], ..event(Call::NodeTimer, &before, self, &answer) }
    }

    /// The commit and the observation are those of the arrival.
    pub fn deliver(&mut self, arrival: Arrival) -> Event {
        self.commit = arrival.commit.clone();
        self.observation = arrival.observation;
        let before = self.clone();
        let answer = node::deliver(&mut self.node, &mut self.lent, &arrival);
        let event = event(Call::NodeDeliver, &before, self, &answer);
        let numbers = vec![u64::from(arrival.link), arrival.time, arrival.bits, arrival.at];
        Event { numbers, read: vec![arrival.frame], ..event }
    }

    pub fn fresh(&mut self, config: Config) -> Event {
        let made = Node::fresh(config);
        Event { call: Call::NodeFresh, numbers: Vec::new(), ..self.made(made, 0, 0) }
    }

    pub fn restore(&mut self, config: Config, epoch: u32, highest: u32) -> Event {
        let made = Node::restore(config, epoch, highest);
        self.made(made, epoch, highest)
    }

    /// The boundary makes a node of the configuration that is lent, and leaves it where the numbers are refused.
    fn made(&mut self, (code, made): (Code, Node), epoch: u32, highest: u32) -> Event {
        self.node.config = made.config.clone();
        let before = node_before(&self.node, &self.commit, self.observation);
        if code == Code::Done {
            self.node = made;
        }
        let after = node_made(&self.node, &self.commit, self.observation, code);
        Event {
            n: self.node.config.n,
            call: Call::NodeRestore,
            numbers: vec![u64::from(epoch), u64::from(highest)],
            read: Vec::new(),
            lent: vec![Lent { before, after }],
            code,
        }
    }
}
