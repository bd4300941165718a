//! The sender's events.

use crate::event::{Event, Named};
use crate::feed::{self, FOLLOWER, NOW};
use crate::transmitter::Transmitter;
use rules::frame::FinalBody;
use rules::sender::{SLOTS, WAITING};
use rules::Code;

fn fresh(n: u8) -> Transmitter {
    let mut transmitter = Transmitter { waiting: vec![0; WAITING], ..Transmitter::default() };
    transmitter.fresh(feed::config(n, FOLLOWER)).gives(Code::Done);
    transmitter
}

/// The k-th report, whose median deviates from the one before it.
fn differing(n: u8, k: usize) -> FinalBody {
    let mut report = feed::report(n, 5, k as u8 + 1);
    for entry in report.list.iter_mut() {
        entry.value += 1_000 * k as i64;
    }
    report
}

/// The own number's place is in the last stage.
fn transmit(transmitter: &mut Transmitter, report: &FinalBody) -> Event {
    let config = &transmitter.sender.config;
    let last: u8 = config.schedule.iter().sum();
    let mut permutation: Vec<u8> = (1..=config.n).collect();
    permutation.swap(FOLLOWER as usize - 1, last as usize - 1);
    transmitter.transmit(NOW, &permutation, &report.write())
}

/// With so many reports waiting.
fn with_waiting(n: u8, many: usize) -> Transmitter {
    let mut transmitter = fresh(n);
    for k in 0..many {
        transmit(&mut transmitter, &differing(n, k)).gives(Code::Done);
    }
    transmitter
}

/// The clock shows a time when every report is due.
fn timeout(transmitter: &mut Transmitter) -> Event {
    transmitter.timeout(NOW + 1_000_000).gives(Code::Done)
}

pub fn events(n: u8) -> Vec<Named> {
    let mut one = with_waiting(n, 1);
    let similar = FinalBody { round: 9, ..differing(n, 0) };
    let sixteenth = transmit(&mut with_waiting(n, SLOTS - 1), &differing(n, SLOTS - 1));
    vec![
        one.clone().fresh(feed::config(n, FOLLOWER)).named("sender fresh"),
        transmit(&mut fresh(n), &differing(n, 0)).gives(Code::Done).named("transmit, queued"),
        sixteenth.gives(Code::Done).named("transmit, queued as the 16th"),
        transmit(&mut one, &similar).gives(Code::Similar).named("transmit, refused SIMILAR"),
        transmit(&mut one, &differing(n, 0)).gives(Code::Old).named("transmit, refused OLD"),
        timeout(&mut one).named("timeout, 1 waiting"),
        timeout(&mut with_waiting(n, SLOTS)).named("timeout, 16 waiting"),
    ]
}
