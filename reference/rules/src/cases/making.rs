//! Making and restoring, with every field of a configuration at its bounds; and states that hold such a
//! configuration.

use super::builder::{must, Builder};
use super::make::{config, lent, no_commit, terms, LAST_EPOCH, TWO_53};
use crate::config::{Config, Terms};
use crate::contract::Contract;
use crate::node::Node;
use crate::sender::Sender;
use crate::Code;

fn edited(base: &Config, edit: impl Fn(&mut Config)) -> Config {
    let mut config = base.clone();
    edit(&mut config);
    config
}

/// Configurations, each with whether it is good.
fn configurations() -> Vec<(bool, Config)> {
    let base = config(4, 1, 2);
    let mut out = vec![(true, base.clone())];
    let mut add = |good: bool, config: Config| out.push((good, config));

    // n with f 0 and one stage of 1.
    for n in [0, 1, 2, 3, 4, 30, 31, 32, 33, 127, 128, 255] {
        let good = 1 <= n && n <= 31;
        add(
            good,
            edited(&base, |c| {
                c.n = n;
                c.f = 0;
                c.own = 1;
                c.stages = 1;
                c.schedule[0] = 1;
            }),
        );
    }
    // 3f < n.
    for (n, f, good) in [
        (1, 0, true),
        (1, 1, false),
        (2, 0, true),
        (2, 1, false),
        (3, 0, true),
        (3, 1, false),
        (4, 1, true),
        (4, 2, false),
        (6, 1, true),
        (6, 2, false),
        (7, 2, true),
        (7, 3, false),
        (30, 9, true),
        (30, 10, false),
        (31, 10, true),
        (31, 11, false),
        (31, 85, false),
        (31, 86, false),
        (31, 255, false),
        (4, 86, false),
    ] {
        add(
            good,
            edited(&base, |c| {
                c.n = n;
                c.f = f;
                c.own = 1;
                c.stages = 1;
                c.schedule[0] = n;
            }),
        );
    }
    for (own, good) in [(0, false), (1, true), (4, true), (5, false), (31, false), (32, false), (255, false)] {
        add(good, edited(&base, |c| c.own = own));
    }
    for (r_max, good) in [(0, false), (1, true), (2, true), (253, true), (254, true), (255, false)] {
        add(good, edited(&base, |c| c.r_max = r_max));
    }
    for (alpha, good) in [
        (0, true),
        (1, true),
        (999_999_999, true),
        (1_000_000_000, true),
        (1_000_000_001, false),
        (1 << 31, false),
        (u32::MAX, false),
    ] {
        add(good, edited(&base, |c| c.alpha = alpha));
    }
    for (time, good) in [
        (0, true),
        (1, true),
        (u32::MAX as u64, true),
        (1 << 32, true),
        (TWO_53 - 1, true),
        (TWO_53, true),
        (TWO_53 + 1, false),
        (1 << 63, false),
        (u64::MAX, false),
    ] {
        add(good, edited(&base, |c| c.delta_c = time));
    }
    for (time, good) in [
        (0, true),
        (1, true),
        (86_399_999, true),
        (86_400_000, true),
        (86_400_001, false),
        (1 << 32, false),
        (TWO_53, false),
        (1 << 63, false),
        (u64::MAX, false),
    ] {
        add(good, edited(&base, |c| c.delta_stage = time));
    }
    for number in [0, 1, u32::MAX as u64, TWO_53 + 1, 1 << 63, u64::MAX] {
        add(true, edited(&base, |c| c.number = number));
    }
    // The schedule: n = 10, f = 3.
    let ten = config(10, 3, 10);
    for (stages, schedule, good) in [
        (0, [4, 1, 1, 1, 1, 1, 1, 0], false),
        (1, [4, 0, 0, 0, 0, 0, 0, 0], true),
        (1, [3, 0, 0, 0, 0, 0, 0, 0], false),
        (1, [3, 7, 1, 1, 1, 1, 1, 1], false),
        (1, [10, 0, 0, 0, 0, 0, 0, 0], true),
        (1, [11, 0, 0, 0, 0, 0, 0, 0], false),
        (1, [4, 255, 255, 0, 255, 255, 255, 255], true),
        (2, [3, 1, 0, 0, 0, 0, 0, 0], true),
        (2, [1, 2, 0, 0, 0, 0, 0, 0], false),
        (2, [0, 4, 0, 0, 0, 0, 0, 0], false),
        (2, [4, 0, 0, 0, 0, 0, 0, 0], false),
        (3, [4, 0, 4, 0, 0, 0, 0, 0], false),
        (3, [3, 3, 4, 9, 9, 9, 9, 9], true),
        (3, [3, 3, 5, 0, 0, 0, 0, 0], false),
        (7, [1, 1, 1, 1, 1, 1, 1, 0], true),
        (8, [1, 1, 1, 1, 1, 1, 1, 0], false),
        (8, [1, 1, 1, 1, 1, 1, 1, 1], true),
        (8, [1, 1, 1, 1, 1, 1, 1, 3], true),
        (8, [1, 1, 1, 1, 1, 1, 1, 4], false),
        (8, [3, 1, 1, 1, 1, 1, 1, 1], true),
        (8, [255, 255, 255, 255, 255, 255, 255, 255], false),
        (8, [32, 32, 32, 32, 32, 32, 32, 38], false), // 262, 6 past 256
        (2, [255, 6, 0, 0, 0, 0, 0, 0], false),       // 261, 5 past 256
        (9, [1, 1, 1, 1, 1, 1, 1, 1], false),
        (255, [1, 1, 1, 1, 1, 1, 1, 1], false),
    ] {
        add(
            good,
            edited(&ten, |c| {
                c.stages = stages;
                c.schedule = schedule;
            }),
        );
    }
    add(false, Config::default());
    out
}

fn all_terms() -> Vec<(bool, Terms)> {
    let base = terms(4, 1);
    let mut out = vec![(true, base.clone())];
    for (n, f, good) in [
        (0, 0, false),
        (1, 0, true),
        (1, 1, false),
        (3, 1, false),
        (4, 1, true),
        (4, 2, false),
        (31, 10, true),
        (31, 11, false),
        (32, 0, false),
        (32, 10, false),
        (255, 1, false),
        (31, 86, false),
        (7, 255, false),
    ] {
        out.push((good, Terms { n, f, ..base.clone() }));
    }
    for (fee, good) in [
        (0, true),
        (1, true),
        (1_000_000_000, true),
        (1_000_000_001, false),
        (u32::MAX as u64, false),
        (TWO_53, false),
        (1 << 63, false),
        (u64::MAX, false),
    ] {
        out.push((good, Terms { observation_fee: fee, ..base.clone() }));
        out.push((good, Terms { sending_fee: fee, ..base.clone() }));
    }
    out.push((false, Terms::default()));
    out
}

pub fn cases(builder: &mut Builder) {
    // Calls before anything is set: all images zero, all buffers empty.
    must(builder.start(0, 0), Code::State, "zero node");
    must(builder.timer(0, 0, 0), Code::State, "zero node");
    must(builder.timeout(0, &no_commit()), Code::State, "zero sender");
    must(builder.withdraw(1), Code::State, "zero contract");
    must(builder.deposit(1), Code::State, "zero contract");
    must(builder.fresh(&config(4, 1, 3)), Code::Done, "fresh");
    must(builder.start(0, 0), Code::Room, "empty buffers");
    must(builder.fresh_sender(&config(4, 1, 3)), Code::Done, "fresh");
    must(builder.timeout(0, &no_commit()), Code::Room, "empty buffers");

    for (good, config) in configurations() {
        let code = if good { Code::Done } else { Code::Config };
        must(builder.fresh(&config), code, "fresh");
        must(builder.start(0, 0), if good { Code::Room } else { Code::State }, "a state of such numbers");
        must(builder.fresh_sender(&config), code, "fresh sender");
        must(builder.timeout(0, &no_commit()), if good { Code::Room } else { Code::State }, "such numbers");
    }
    for (good, terms) in all_terms() {
        must(builder.fresh_contract(&terms), if good { Code::Done } else { Code::Config }, "fresh contract");
        must(builder.deposit(5), if good { Code::Done } else { Code::State }, "a state of such numbers");
    }

    // Restoring: 12, then 2.
    builder.lent(&lent());
    let good = config(4, 1, 3);
    for (epoch, highest_sent) in [
        (0, 0),
        (0, 1),
        (1, 1),
        (5, 5),
        (5, 6),
        (5, 1000),
        (LAST_EPOCH - 1, LAST_EPOCH),
        (LAST_EPOCH, LAST_EPOCH),
        (0, LAST_EPOCH),
        (1, 0),
        (5, 4),
        (LAST_EPOCH, LAST_EPOCH - 1),
        (LAST_EPOCH, 0),
        (256, 255),
        (65536, 1),
    ] {
        let kept = highest_sent >= epoch;
        must(builder.restore(&good, epoch, highest_sent), if kept { Code::Done } else { Code::State }, "restore");
        must(builder.start(7, 0), if kept { Code::Done } else { Code::State }, "start of a restored node");
    }
    for edit in [|c: &mut Config| c.n = 32, |c: &mut Config| c.alpha = u32::MAX, |c: &mut Config| c.stages = 9] {
        let bad = edited(&good, edit);
        must(builder.restore(&bad, 3, 4), Code::Config, "restore with a bad configuration");
        must(builder.restore(&bad, 4, 3), Code::Config, "12 before 2");
    }

    // A fresh node takes the place of one in the midst of a round; so do sender and contract.
    let mut busy = Node::from_image(&vec![1; Node::IMAGE]);
    busy.config = good.clone();
    builder.node(&busy);
    must(builder.fresh(&good), Code::Done, "fresh over a busy node");
    builder.node(&busy);
    must(builder.restore(&good, 2, 9), Code::Done, "restored over a busy node");
    builder.node(&Node::from_image(&vec![0xFF; Node::IMAGE]));
    must(builder.fresh(&edited(&good, |c| c.own = 0)), Code::Config, "refused over any bytes");
    builder.node(&Node::from_image(&vec![0xAA; Node::IMAGE]));
    must(builder.restore(&good, 2, 1), Code::State, "refused over any bytes");
    builder.sender(&Sender::from_image(&vec![0xFF; Sender::IMAGE]));
    must(builder.fresh_sender(&good), Code::Done, "fresh sender over any bytes");
    builder.sender(&Sender::from_image(&vec![0x55; Sender::IMAGE]));
    must(builder.fresh_sender(&edited(&good, |c| c.own = 5)), Code::Config, "refused over any bytes");
    builder.contract(&Contract::from_image(&vec![0xFF; Contract::IMAGE]));
    must(builder.fresh_contract(&terms(31, 10)), Code::Done, "fresh contract over any bytes");
    builder.contract(&Contract::from_image(&vec![0x33; Contract::IMAGE]));
    must(builder.fresh_contract(&terms(31, 11)), Code::Config, "refused over any bytes");
}
