//! Published listings with their tables: each passes with its own counts as limits, is over a limit that is one less, and is
//! found out where one gate is changed.

use allpawasi::{Limits, Verdict};
use compare::calls::Call;
use compare::met::VERDICTS;
use compare::pair::Pair;
use compare::vectors::unhex;
use reference::circuit::{read, write};
use reference::examine::Target;

/// What a paper says, where it does: the definition's own count decides for the listings whose figures do not hold as printed.
const MISPRINTED: [&str; 3] = ["000-L14", "000-L15", "000-L19"];

fn check(pair: &mut Pair, name: &str, bytes: &[u8], table: &[u8], claims: &[&str]) {
    let none = Limits { gates: 255, depth: 255, and_depth: 255 };
    let target = Target::Table(table.to_vec());
    pair.open(bytes, &target, none);
    pair.look();
    let found = pair.ours.report().expect("it is open");
    assert_eq!(found.verdict, Verdict::Pass, "{name}");
    let figures = [found.gates, found.nonlinear, found.depth, found.and_depth];
    if !MISPRINTED.contains(&name) {
        for (figure, claim) in figures.iter().zip(claims) {
            assert!(*claim == "-" || *claim == figure.to_string(), "{name}: {claim} in the paper, {figure} here");
        }
    }
    let exact = Limits { gates: figures[0] as u8, depth: figures[2] as u8, and_depth: figures[3] as u8 };
    for (limits, expected) in [
        (Limits { gates: exact.gates - 1, ..none }, Verdict::OverGates),
        (Limits { depth: exact.depth - 1, ..exact }, Verdict::OverDepth),
        (Limits { and_depth: exact.and_depth - 1, ..exact }, Verdict::OverAndDepth),
        (exact, Verdict::Pass),
    ] {
        pair.set_limits(limits);
        pair.look();
        assert_eq!(pair.ours.report().expect("it is open").verdict, expected, "{name} under {limits:?}");
    }
    change_each_gate(pair, bytes);
}

/// Each gate made another kind and put back: both programs agree all the way, and the end is a pass again.
fn change_each_gate(pair: &mut Pair, bytes: &[u8]) {
    let c = read(bytes, false).expect("sound");
    for (k, g) in c.gates.iter().enumerate() {
        let [kind, a, b] = [g.kind, g.a, g.b].map(usize::from);
        pair.make(&Call::Gate([k, (kind + 1) % 6, a, b]));
        pair.look();
        pair.make(&Call::Gate([k, kind, a, b]));
    }
    pair.look();
    assert_eq!(pair.ours.report().expect("it is open").verdict, Verdict::Pass);
    let mut room = [0; 1341];
    let count = pair.ours.store(&mut room).expect("it fits");
    assert_eq!(&room[..count], write(&c), "stored as it came");
}

#[test]
fn published_circuits() {
    let (mut seen, mut pair) = (0, Pair::default());
    for line in include_str!("../../vectors/circuits.txt").lines() {
        let words: Vec<&str> = line.split(' ').collect();
        pair.clear();
        check(&mut pair, words[0], &unhex(words[1]), &unhex(words[2]), &words[3..]);
        seen += 1;
    }
    assert_eq!(seen, 46);
    pair.met.show("published circuits");
    pair.met.said("report", &VERDICTS);
}
