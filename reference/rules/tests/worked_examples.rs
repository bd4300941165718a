//! 01's worked examples: three medians, seven deviations, three leaders, the epoch program's run.

use rules::cases::make::{config, final_body, lent, list, no_commit, terms, ALL};
use rules::cases::rng::Rng;
use rules::contract::{deposit, submit, Contract};
use rules::frame::Message;
use rules::node::{deliver, start, timer, Arrival, Lent, Node};
use rules::report::{attested, deviates, median};
use rules::Code;

#[test]
fn three_medians() {
    let mut rng = Rng::new(1);
    assert_eq!(median(&list(&[(1, 100), (2, 105), (3, 9000)])), 105);
    assert_eq!(median(&list(&[(1, 100), (2, 105), (3, 107), (4, 9000)])), 107);
    let few = final_body(&mut rng, 1, 1, &[(1, 100), (2, 9000)], &[1, 2]);
    assert_eq!(attested(&few, 1, ALL), Err(Code::Few));
    // The same through the contract.
    for (entries, code, committed) in [
        (vec![(1, 100), (2, 105), (3, 9000)], Code::Done, 105),
        (vec![(1, 100), (2, 105), (3, 107), (4, 9000)], Code::Done, 107),
        (vec![(1, 100), (2, 9000)], Code::Few, 0),
    ] {
        let (_, mut contract) = Contract::fresh(terms(4, 1));
        assert_eq!(deposit(&mut contract, 100_000), Code::Done);
        let body = final_body(&mut rng, 1, 1, &entries, &[1, 2]).write();
        assert_eq!(submit(&mut contract, 1, 5, ALL, &body), code);
        assert_eq!(contract.commit.median, committed);
    }
}

#[test]
fn seven_deviations() {
    let alpha = 5_000_000;
    assert!(!deviates(alpha, 20_000, 20_100));
    assert!(deviates(alpha, 20_000, 20_101));
    assert!(!deviates(alpha, -200, -201));
    assert!(deviates(alpha, -200, -202));
    assert!(!deviates(alpha, 0, 0));
    assert!(deviates(alpha, 0, 1));
    assert!(deviates(alpha, i64::MIN, i64::MAX));
    // Beyond them: |old| stands on the right side.
    assert!(!deviates(1_000_000_000, 1, 0));
}

#[test]
fn three_leaders() {
    let config = config(4, 1, 3);
    assert_eq!(config.leader(1), 2);
    assert_eq!(config.leader(3), 4);
    assert_eq!(config.leader(4), 1);
    assert_eq!(config.leader(0), 0);
}

fn newepoch(node: &mut Node, lent: &mut Lent, member: u8, epoch: u32) -> Code {
    let arrival = Arrival {
        link: member,
        time: 0,
        observation: 0,
        commit: no_commit(),
        bits: 0,
        at: 0,
        frame: Message::NewEpoch { epoch }.frame(member, node.config.number),
    };
    deliver(node, lent, &arrival).code
}

fn line(code: Code, node: &Node) -> String {
    format!("{} {} {} {}", code.number(), node.epoch, node.leader(), node.highest_sent)
}

#[test]
fn epoch_program() {
    let (code, mut node) = Node::fresh(config(4, 1, 3));
    assert_eq!(code, Code::Done);
    let mut lent = lent();
    let mut printed = Vec::new();
    let code = start(&mut node, &mut lent, 0, 0).code;
    printed.push(line(code, &node));
    for (member, epoch) in [(2, 7), (4, 6), (3, 5)] {
        let code = newepoch(&mut node, &mut lent, member, epoch);
        printed.push(line(code, &node));
    }
    let code = timer(&mut node, &mut lent, 1, 0, 0).code;
    printed.push(line(code, &node));
    assert_eq!(printed, ["0 0 0 1", "0 0 0 1", "0 0 0 6", "0 5 2 6", "0 5 2 6"]);
}
