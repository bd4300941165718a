//! Rules that 01 states outright, and the cases themselves.

use rules::cases::builder::Builder;
use rules::cases::make::{config, final_body, lent, no_commit};
use rules::cases::random;
use rules::cases::rng::Rng;
use rules::cases::{self};
use rules::config::Config;
use rules::contract::Contract;
use rules::frame::{row, FinalBody, Message, Signer, TABLE};
use rules::leader::{observe_place, report_place};
use rules::node::{deliver, start, Arrival, Node};
use rules::script::{record, replay};
use rules::sender::Sender;
use rules::Code;

/// The lengths of 01's table, by kind.
#[test]
fn lengths() {
    let length = |kind: u8, m: usize, s: usize| row(kind).base + row(kind).per_m * m + row(kind).per_s * s;
    assert_eq!(TABLE.iter().map(|row| row.kind).collect::<Vec<u8>>(), [1, 2, 3, 4, 5, 6, 7]);
    for m in 1..=31 {
        for s in 1..=31 {
            assert_eq!(length(1, m, s), 4);
            assert_eq!(length(2, m, s), 5);
            assert_eq!(length(3, m, s), 77);
            assert_eq!(length(4, m, s), 6 + 73 * m);
            assert_eq!(length(5, m, s), 70 + 9 * m);
            assert_eq!(length(6, m, s), 7 + 9 * m + 65 * s);
            assert_eq!(length(7, m, s), 7 + 9 * m + 65 * s);
        }
    }
    assert!(length(6, 31, 31) <= 2304 && length(6, 31, 31) + 16 <= 2400 && length(4, 31, 0) + 16 <= 2400);
    assert_eq!(observe_place(31) + 64, 1984);
    assert_eq!((report_place(1), report_place(31) + 64), (1984, 3968));
}

/// An image of any bytes is given back as it was read.
#[test]
fn images() {
    let mut rng = Rng::new(5);
    for _ in 0..50 {
        let node = rng.bytes(Node::IMAGE);
        assert_eq!(Node::from_image(&node).image(), node);
        let sender = rng.bytes(Sender::IMAGE);
        assert_eq!(Sender::from_image(&sender).image(), sender);
        let contract = rng.bytes(Contract::IMAGE);
        assert_eq!(Contract::from_image(&contract).image(), contract);
    }
    assert_eq!(config(4, 1, 2).image().len(), Config::IMAGE);
}

/// A frame by its bytes: the body, then kind, sender, version, body length, configuration number.
#[test]
fn frame_bytes() {
    let frame = Message::ObserveReq { epoch: 0x0102_0304, round: 9 }.frame(7, 0x1112_1314_1516_1718);
    let wanted = [1, 2, 3, 4, 9, 2, 7, 0, 1, 0, 0, 0, 5, 0x11, 0x12, 0x13, 0x14, 0x15, 0x16, 0x17, 0x18];
    assert_eq!(frame, wanted);
    let body = FinalBody { epoch: 1, round: 2, list: vec![], signers: vec![Signer { member: 3, signature: [4; 64] }] };
    let mut wanted = vec![0, 0, 0, 1, 2, 0, 1, 3];
    wanted.extend([4; 64]);
    assert_eq!(body.write(), wanted);
}

/// "heard[j] is the largest of what it was and what j sent; highest sent is the larger of what it was and the
/// largest number that more than f entries of heard reach; the epoch likewise with 2f."
#[test]
fn after_any_list_of_newepoch() {
    let mut rng = Rng::new(11);
    for _ in 0..300 {
        let n = 1 + rng.below(31) as u8;
        let f = rng.below((n as u64 - 1) / 3 + 1) as u8;
        let (_, mut node) = Node::fresh(config(n, f, 1 + rng.below(n as u64) as u8));
        let mut lent = lent();
        assert_eq!(start(&mut node, &mut lent, 0, 0).code, Code::Done);
        let mut heard = vec![0u32; n as usize];
        for _ in 0..60 {
            let member = 1 + rng.below(n as u64) as u8;
            let epoch = 1 + rng.below(12) as u32;
            let arrival = Arrival {
                link: member,
                time: 0,
                observation: 0,
                commit: no_commit(),
                bits: 0,
                at: 0,
                frame: Message::NewEpoch { epoch }.frame(member, node.config.number),
            };
            assert_eq!(deliver(&mut node, &mut lent, &arrival).code, Code::Done);
            heard[member as usize - 1] = heard[member as usize - 1].max(epoch);
            let mut sorted = heard.clone();
            sorted.sort();
            sorted.reverse();
            assert_eq!(node.heard[..n as usize], heard[..]);
            assert_eq!(node.highest_sent, sorted[f as usize].max(1));
            assert_eq!(node.epoch, sorted[2 * f as usize]);
        }
    }
}

/// Only code 0 changes anything, and a record of another letter or length ends the run.
#[test]
fn the_gate() {
    let gate = cases::gate();
    assert!(gate.script.len() <= 1_500_000);
    assert_eq!(replay(&gate.script), gate.output);
    assert_eq!(cases::gate().script, gate.script);
    for line in gate.output.lines() {
        let words: Vec<&str> = line.split(' ').collect();
        let refused = match words[0] {
            "S" | "D" | "T" => words[1] != "0" && (words.len() != 5 || words[2] != "0" || words[3] != "----"),
            "X" => words[1] != "0" && (words.len() != 3 || words[2] != "-"),
            "O" => words[1] != "0" && (words.len() != 4 || words[2] != "-" || words[3] != "0+0"),
            "B" | "P" => words[1] != "0" && words.len() != 2,
            "W" => words[1] != "0" && (words.len() != 3 || words[2] != "0"),
            _ => false,
        };
        assert!(!refused, "{line}");
    }
    // Every code of every call's list (Start can't reach 11: it sends at most 2^32 − 1).
    for (letter, codes) in [
        ('F', vec![0, 12]),
        ('R', vec![0, 12, 2]),
        ('S', vec![0, 2, 3, 9, 1]),
        ('D', vec![0, 2, 3, 4, 5, 6, 7, 8, 9, 1, 10, 11]),
        ('T', vec![0, 2, 3, 9, 1, 11]),
        ('f', vec![0, 12]),
        ('X', vec![0, 2, 3, 8, 9, 12, 13, 19, 20]),
        ('O', vec![0, 2, 3, 9, 1]),
        ('m', vec![0, 12]),
        ('B', vec![0, 2, 8, 9, 13, 14, 15, 16, 17, 7, 18]),
        ('P', vec![0, 2, 9]),
        ('W', vec![0, 2, 7]),
    ] {
        let mut hit: Vec<u8> = gate.counts.keys().filter(|key| key.0 == letter as u8).map(|key| key.1).collect();
        let mut wanted = codes.clone();
        hit.sort();
        wanted.sort();
        assert_eq!(hit, wanted, "{letter}");
    }
}

#[test]
fn ends_of_a_run() {
    let good = record(b'W', &[1]);
    let twice = [good.clone(), good.clone()].concat();
    assert_eq!(replay(&twice), "W 2 0\nW 2 0\n");
    for bad in
        [record(b'W', &[]), record(b'W', &[1, 2]), record(b'Z', &[]), record(b'D', &[0; 53]), vec![b'W', 0, 0, 0, 2, 1]]
    {
        assert_eq!(replay(&[good.clone(), bad, good.clone()].concat()), "W 2 0\n");
    }
    assert_eq!(replay(&[good.clone(), vec![b'W', 0, 0]].concat()), "W 2 0\n");
}

#[test]
fn random_scripts() {
    for seed in 0..5 {
        let mut builder = Builder::new();
        let mut rng = Rng::new(seed);
        while builder.calls < 2_000 {
            random::episode(&mut builder, &mut rng);
        }
        assert_eq!(replay(&builder.script), builder.output);
    }
    // A body kept by RANGE alone.
    let mut rng = Rng::new(1);
    let body = final_body(&mut rng, 9, 9, &[(2, 5), (2, 1)], &[1]).write();
    let mut slot = body.clone();
    slot.resize(2304, 0xFF);
    assert_eq!(FinalBody::stored(&slot, 4).unwrap().write(), body);
    assert!(FinalBody::stored(&slot, 1).is_none());
}
