//! The bench after random sequences of calls: every answer, every report, and what is held for every line.

use allpawasi::{distance, Limits, Report, Verdict};
use compare::calls::{call, Call};
use compare::circuits::with_trial_gates;
use compare::depths::{play, pointings};
use compare::found::OF_A_SET;
use compare::hints::{as_query, hints};
use compare::met::{APPENDED, HINTED, LEFT_OUT};
use compare::pair::{Pair, SHAPELESS};
use compare::sweeps::morning;
use compare::targets::{near_limits, target_met};
use reference::circuit::{write, Circuit, Gate, AND, NOT, OR, XOR};
use reference::examine::{work, Target};
use reference::rng::Rng;

#[test]
fn random_sequences() {
    let mut rng = Rng::new(5);
    let mut pair = Pair::default();
    for _ in 0..20_000 {
        pair.clear();
        for _ in 0..rng.between(2, 25) {
            let call = call(&mut rng, pair.theirs.present.as_ref());
            pair.make(&call);
            pair.look();
        }
    }
    pair.met.show("random sequences of calls");
    pair.met.whole_bench();
    pair.met.refused(SHAPELESS, &[2, 3]);
    pair.met.said_at_least("left out of a report", &LEFT_OUT, 1_000);
    pair.met.sweeps(50);
    pair.met.said_at_least("an append", &APPENDED[..5], 50);
    pair.met.hints(4, 40);
    pair.met.constants(200);
}

fn limits(gates: u8, depth: u8, and_depth: u8) -> Limits {
    Limits { gates, depth, and_depth }
}

fn report(pair: &mut Pair) -> Report {
    pair.look();
    pair.ours.report().expect("something is open")
}

/// K8, K9 and K10: one AND, made NAND, and the table set to that.
#[test]
fn an_and_made_nand() {
    let mut pair = Pair::default();
    let bytes = [0x53, 0x48, 2, 1, 1, 0x47, 0x54, 2, 0, 1, 0x4F, 0x50, 2];
    pair.open(&bytes, &Target::Table(vec![0, 0, 0, 1]), limits(1, 1, 1));
    let opened = report(&mut pair);
    assert_eq!((opened.verdict, opened.depth, opened.and_depth), (Verdict::Pass, 1, 1));
    assert_eq!(pair.replace_gate([0, 3, 0, 1]), Ok(vec![2]));
    assert_eq!(report(&mut pair).verdict, Verdict::Wrong { input: 0, output: 0 });
    for (i, value) in [1, 1, 1, 0].into_iter().enumerate() {
        assert_ne!(report(&mut pair).verdict, Verdict::Pass);
        assert_eq!(pair.change_entry([i, value, 0]), Ok(vec![]));
    }
    assert_eq!(report(&mut pair).verdict, Verdict::Pass);
}

/// K11 and K12: a gate that feeds nothing is no deeper than the circuit; then an output names it, which is wrong there.
#[test]
fn a_gate_that_feeds_nothing() {
    let mut pair = Pair::default();
    let bytes = [0x53, 0x48, 2, 1, 2, 0x47, 0x54, 0, 0, 1, 0x47, 0x54, 0, 0, 2, 0x4F, 0x50, 2];
    pair.open(&bytes, &Target::sums(&[3]), limits(2, 1, 0));
    let opened = report(&mut pair);
    assert_eq!((opened.verdict, opened.depth), (Verdict::Pass, 1));
    assert_eq!(pair.point_output(0, 3), Ok(vec![]));
    let pointed = report(&mut pair);
    assert_eq!((pointed.verdict, pointed.depth), (Verdict::Wrong { input: 1, output: 0 }, 2));
}

/// Circuits with lines deeper than those that outputs name, in gates or in ANDs: each passes with its own numbers as limits, and
/// is over a limit that is one less.
#[test]
fn trial_gates() {
    let (mut rng, mut pair) = (Rng::new(6), Pair::default());
    for round in 0..3_000 {
        let matrix = round % 2 == 0;
        let c = with_trial_gates(&mut rng, matrix);
        let lines = work(&c);
        let own = limits(c.gates.len() as u8, lines.depth(&c.outs), lines.and_depth(&c.outs));
        pair.open(&write(&c), &target_met(&c, matrix), own);
        assert_eq!(report(&mut pair).verdict, Verdict::Pass);
        pair.set_limits(Limits { depth: 255, ..own });
        assert_eq!(report(&mut pair).verdict, Verdict::Pass);
        if own.depth > 0 {
            pair.set_limits(Limits { depth: own.depth - 1, ..own });
            assert_eq!(report(&mut pair).verdict, Verdict::OverDepth);
        }
        if own.and_depth > 0 {
            pair.set_limits(Limits { and_depth: own.and_depth - 1, ..own });
            assert_eq!(report(&mut pair).verdict, Verdict::OverAndDepth);
        }
        pair.set_limits(near_limits(&mut rng, &c));
        pair.look();
    }
    pair.met.show("trial gates");
    pair.met.said_at_least("left out of a report", &LEFT_OUT, 500);
}

/// Outputs pointed at deeper copies and back, one, two or three at a time, on a bench that had other circuits before.
#[test]
fn outputs_to_and_fro() {
    let (mut rng, mut pair) = (Rng::new(7), Pair::default());
    for round in 0..1_000 {
        pointings(&mut rng, round % 3 == 0).iter().for_each(|call| play(&mut pair, call));
    }
    pair.met.show("outputs pointed to and fro");
    pair.met.said_at_least("pointed: depth", &["greater", "less", "kept by another output", "the same"], 500);
    pair.met.said_at_least("pointed: AND depth", &["greater", "less", "kept by another output", "the same"], 500);
    pair.met.said_at_least("pointed: verdict", &["pass to over-depth", "over-depth to pass"], 500);
    pair.met.said_at_least("pointed: verdict", &["pass to over-anddepth", "over-anddepth to pass"], 500);
    pair.met.said_at_least("pointed", &["at a line that another output names", "at an input", "every output at an input"], 500);
}

/// Circuits with trial gates and copies, swept again and again between appends and pointings.
#[test]
fn sweeps_and_appends() {
    let (mut rng, mut pair) = (Rng::new(8), Pair::default());
    for round in 0..1_200 {
        for call in morning(&mut rng, round % 3 == 0) {
            pair.make(&call);
            pair.look();
        }
    }
    pair.met.show("sweeps and appends");
    pair.met.sweeps(200);
    pair.met.said_at_least("an append", &APPENDED, 5);
}

/// A circuit of these gates; its outputs name the last line and these.
fn listed(n: u8, gates: &[[u8; 3]], outs: &[u8]) -> Circuit {
    let gates: Vec<Gate> = gates.iter().map(|&[kind, a, b]| Gate { kind, a, b }).collect();
    let outs = [&[n + (gates.len() - 1) as u8], outs].concat();
    Circuit { n, gates, outs }
}

/// Full lists of one kind of gate, and how many gates a sweep keeps: one gate all the way, in turn crossed; two chains of equal
/// gates one after the other, and the two in turn, so that each merge needs the one before it; one chain alone.
fn full_lists(kind: u8) -> Vec<(Circuit, usize)> {
    let b = |line: u8| if kind == NOT { 0 } else { line };
    let crossed = |k: u8| if k % 2 == 0 || kind == NOT { [kind, 6, b(7)] } else { [kind, 7, 6] };
    let link = |before: u8| if before % 2 == 0 || kind == NOT { [kind, before, b(0)] } else { [kind, 0, before] };
    let after = |k: u8| link(if k % 124 == 0 { 1 } else { 7 + k });
    let in_turn = |k: u8| link(if k < 2 { 1 } else { 6 + k });
    let list = |gate: &dyn Fn(u8) -> [u8; 3], outs: &[u8]| listed(8, &(0..248).map(gate).collect::<Vec<_>>(), outs);
    vec![
        (list(&crossed, &[8, 100]), 1),
        (list(&after, &[131, 3]), 124),
        (list(&in_turn, &[254]), 124),
        (list(&|k| link(7 + k), &[]), 248),
    ]
}

/// Each full list is swept; then the freed gates are appended again, and not one more, whatever its numbers are.
#[test]
fn full_lists_swept() {
    for kind in XOR..=NOT {
        for (c, kept) in full_lists(kind) {
            let (mut pair, table) = (Pair::default(), Target::Table(vec![0; 256]));
            pair.open(&write(&c), &table, limits(248, 255, 255));
            assert_eq!(pair.sweep(), Ok((8..8 + kept as u16).collect()), "{c:?}");
            pair.look();
            for (k, gate) in (kept..).zip(&c.gates[kept..]) {
                assert_eq!(pair.append_gate([gate.kind, gate.a, gate.b].map(usize::from)), Ok(vec![8 + k as u16]));
            }
            for numbers in [[0, 0, 1], [7, 0, 0], [0, 256, 0], [6, 0, 1], [usize::MAX; 3]] {
                assert_eq!(pair.append_gate(numbers), Err(18));
            }
            pair.look();
            pair.sweep().expect("it is open");
            pair.look();
        }
    }
}

/// A chain of so many ORs without copies, and one more gate; outputs name that and the end of the chain. The lines that a sweep
/// keeps, and the lines of both outputs after it.
fn one_more_swept(pair: &mut Pair, links: u8, more: [u8; 3]) -> (Vec<u16>, Vec<u8>) {
    let gates: Vec<[u8; 3]> = (0..links).map(|k| [OR, 7 + k, 0]).chain([more]).collect();
    pair.open(&write(&listed(8, &gates, &[7 + links])), &Target::Table(vec![0; 256]), limits(248, 255, 255));
    let kept = pair.sweep().expect("it is open");
    let outs = pair.theirs.present.as_ref().map(|(c, _, _)| c.outs.clone());
    (kept, outs.expect("it is open"))
}

/// A copy is found at each place of the longest list, and at the last and a middle place of a list of each length; a gate whose kind
/// and operands are all 0 is found in none.
#[test]
fn a_copy_at_each_place() {
    let mut pair = Pair::default();
    let places = (1..=247).flat_map(|links| [(links, links - 1), (links, links / 2)]).chain((0..247).map(|k| (247, k)));
    for (links, k) in places {
        let kept = (8..8 + u16::from(links)).collect();
        assert_eq!(one_more_swept(&mut pair, links, [OR, 0, 7 + k]), (kept, vec![8 + k, 7 + links]), "{links} and gate {k}");
    }
    for links in 1..=247 {
        let kept = (8..9 + u16::from(links)).collect();
        assert_eq!(one_more_swept(&mut pair, links, [XOR, 0, 0]), (kept, vec![8 + links, 7 + links]), "{links} and a new one");
    }
}

/// What is there to refuse is refused in this order: 13, 18, 4, 5, 7.
#[test]
fn appends_are_refused_in_order() {
    let mut pair = Pair::default();
    let worst = [usize::MAX; 3];
    assert_eq!((pair.append_gate(worst), pair.sweep()), (Err(13), Err(13)));
    let c = listed(8, &[[XOR, 6, 7]; 247], &[]);
    pair.open(&write(&c), &Target::sums(&[192]), limits(0, 0, 0));
    assert_eq!(pair.append_gate(worst), Err(4));
    assert_eq!(pair.append_gate([7, 0, 0]), Err(4));
    assert_eq!(pair.append_gate([AND.into(), 255, 0]), Err(5));
    assert_eq!(pair.append_gate([NOT.into(), 0, 1]), Err(5));
    assert_eq!(pair.append_gate([AND.into(), 254, 254]), Err(7));
    assert_eq!(pair.append_gate([XOR.into(), 254, 254]), Ok(vec![255]));
    assert_eq!(pair.append_gate(worst), Err(18));
    assert_eq!(report(&mut pair).verdict, Verdict::OverGates);
    assert_eq!(pair.sweep(), Ok(vec![8]));
    assert_eq!((report(&mut pair).gates, report(&mut pair).verdict), (1, Verdict::OverGates));
    assert_eq!(pair.append_gate([XOR.into(), 8, 8]), Ok(vec![9]));
    assert_eq!(report(&mut pair).gates, 2);
}

/// Programs with lines too deep for a base before shallow ones. Each hint is the query on what our bench holds, and finds the same
/// set, by the numbers of its lines in the circuit.
#[test]
fn hints_past_deep_lines() {
    let (mut rng, mut pair) = (Rng::new(9), Pair::default());
    for _ in 0..1_500 {
        for call in hints(&mut rng, 30) {
            match call {
                Call::Hint(numbers) => hint(&mut pair, numbers),
                _ => pair.make(&call),
            }
        }
        pair.look();
    }
    pair.met.show("hints past deep lines");
    pair.met.said_at_least("a hint", &HINTED[1..6], 300);
    pair.met.said_at_least("a hint", &HINTED[6..], 15);
    pair.met.said_at_least("a hint", &["none", "0", "1", "2", "3", "4", "5"], 100);
    pair.met.said_at_least("a set", &OF_A_SET, 80);
    pair.met.refused("hint", &[8, 9, 12]);
}

/// A hint, and the query that it is; what is remarkable about the set that both find is counted.
fn hint(pair: &mut Pair, [j, d]: [usize; 2]) {
    let Ok(found) = pair.hint([j, d]) else { return };
    let (query, base) = as_query(pair, j, d);
    let by_query = query.ours().expect("a hint is not refused where it is the query");
    if let Some(found) = &by_query {
        query.remark(&mut pair.met, found);
    }
    let numbered = by_query.map(|(gates, places)| (gates, places.iter().map(|&place| base[place as usize]).collect()));
    assert_eq!(found, numbered, "{query:?} with the lines {base:?}");
    if base.len() == pair.ours.held().0.len() {
        let same = distance(query.n, &query.masks, &query.depths, query.target, d);
        assert_eq!(pair.ours.hint(j, d), same, "the numbers past the lines");
    }
}

/// A chain that adds the first input to the last one, and at its end the second: no line but that end has its mask. It is found
/// within its own depth and deeper, up to 15; otherwise the row is two lines near the chain's beginning.
#[test]
fn hints_around_the_deepest_line() {
    let mut pair = Pair::default();
    for depth in 1..=20 {
        let gates: Vec<[u8; 3]> = (1..=depth).map(|link| [XOR, 6 + link, (link == depth).into()]).collect();
        let odd = depth % 2 == 1;
        pair.open(&write(&listed(8, &gates, &[])), &Target::sums(&[if odd { 130 } else { 131 }]), limits(0, 0, 0));
        for d in 0..=15 {
            let expected = match d {
                _ if depth <= d => Some((0, vec![u16::from(7 + depth)])),
                1.. if odd => Some((1, vec![1, 7])),
                2.. => Some((1, vec![1, 8])),
                _ => None,
            };
            assert_eq!(pair.hint([0, d.into()]), Ok(expected), "depth {depth} within {d}");
        }
    }
}

/// The longest chain but for one gate, the only one that sums the first two inputs: at each line it is found by its own number,
/// however many lines before it are too deep.
#[test]
fn a_hint_at_each_line() {
    let mut pair = Pair::default();
    for at in 8..=255u8 {
        let before = |line: u8| if line - 1 == at { line - 2 } else { line - 1 };
        let gates: Vec<[u8; 3]> = (8..=255).map(|line| if line == at { [XOR, 0, 1] } else { [XOR, before(line), 7] }).collect();
        pair.open(&write(&listed(8, &gates, &[0])), &Target::sums(&[3, 7]), limits(248, 255, 0));
        let (alone, with_input) = (Ok(Some((0, vec![at.into()]))), Ok(Some((1, vec![2, at.into()]))));
        assert_eq!([0, 1, 15].map(|d| pair.hint([0, d])), [Ok(None), alone.clone(), alone], "line {at}");
        assert_eq!([1, 2, 15].map(|d| pair.hint([1, d])), [Ok(None), with_input.clone(), with_input], "line {at}");
    }
    pair.met.show("a hint at each line of a chain");
}

/// What is there to refuse is refused in this order: 13, 12, 8, 9; whatever the numbers are, on a bench of zeros too.
#[test]
fn hints_are_refused_in_order() {
    let mut pair = Pair::default();
    let wide = [0, 1, 2, 15, 16, 255, 256, 1 << 32, usize::MAX];
    let all = |pair: &mut Pair, expected: &dyn Fn(usize, usize) -> Option<usize>| {
        for (j, d) in wide.iter().flat_map(|&j| wide.iter().map(move |&d| (j, d))) {
            assert_eq!(pair.hint([j, d]).err(), expected(j, d), "row {j} within {d}");
        }
    };
    all(&mut pair, &|_, _| Some(13));
    pair.open(&write(&listed(2, &[[AND, 0, 1]], &[])), &Target::Table(vec![0, 0, 0, 1]), limits(9, 9, 9));
    all(&mut pair, &|_, _| Some(12));
    let two = write(&listed(2, &[[XOR, 0, 1]], &[0]));
    pair.open(&two, &Target::sums(&[3, 1]), limits(9, 9, 9));
    all(&mut pair, &|j, d| if j > 1 { Some(12) } else { (d > 15).then_some(9) });
    for constants in [[0, 0], [0, 1], [1, 0], [1, 1]] {
        pair.open(&two, &Target::Matrix { masks: vec![3, 0], constants: constants.to_vec() }, limits(9, 9, 9));
        all(&mut pair, &|j, d| [(d > 15).then_some(9), Some(8)].get(j).copied().unwrap_or(Some(12)));
    }
}

/// A chain of 248 gates, each of which reads the line before it: the depth of gate k is k + 1.
fn chain(matrix: bool) -> Circuit {
    let gate = |before| if matrix { Gate { kind: XOR, a: before, b: 0 } } else { Gate { kind: AND, a: before, b: before } };
    Circuit { n: 8, gates: (7..255).map(gate).collect(), outs: vec![7; if matrix { 32 } else { 8 }] }
}

/// The first, a middle and the last output pointed at each line of the longest chain, to and fro, while another names a line half
/// way down. Every second line of the XOR chain has another value, and the depth is given all the same.
#[test]
fn an_output_at_each_line() {
    for matrix in [true, false] {
        let (c, mut pair) = (chain(matrix), Pair::default());
        let depth = |line: usize| line.saturating_sub(7);
        pair.open(&write(&c), &target_met(&c, matrix), limits(248, 200, 255));
        for (j, other) in [0, c.outs.len() / 2, c.outs.len() - 1].into_iter().zip([1, 0, 2]) {
            play(&mut pair, &Call::Output([other, 121]));
            for line in (0..256).map(|i| i * 77 % 256) {
                play(&mut pair, &Call::Output([j, line]));
                let found = report(&mut pair);
                assert_eq!(found.depth, depth(line).max(depth(121)));
                assert_eq!(found.and_depth, if matrix { 0 } else { found.depth });
            }
            [j, other].into_iter().for_each(|j| play(&mut pair, &Call::Output([j, 7])));
        }
        pair.met.show("an output at each line of a chain");
    }
}

/// The edges: 248 gates open, 249 do not (1); a table for nine outputs breaks its rule (8), and so does a table a byte too long.
#[test]
fn the_edges() {
    let mut pair = Pair::default();
    let mut largest = vec![0x53, 0x48, 8, 1, 248];
    (0..248).for_each(|_| largest.extend([0x47, 0x54, 0, 0, 1]));
    largest.extend([0x4F, 0x50, 255]);
    pair.open(&largest, &Target::sums(&[3]), limits(248, 1, 0));
    assert_eq!(report(&mut pair).verdict, Verdict::Pass);
    let mut more = largest.clone();
    more[4] = 249;
    more.splice(5..5, [0x47, 0x54, 0, 0, 1]);
    assert_eq!(pair.ours.open_matrix(&more, &[3, 0], limits(255, 255, 255)), Err(1));
    let nine = [&[0x53, 0x48, 1, 9, 0][..], &[0x4F, 0x50, 0].repeat(9)].concat();
    assert_eq!(pair.ours.open_table(&nine, &[0, 1], limits(0, 0, 0)), Err(8));
    let eight = [&[0x53, 0x48, 1, 8, 0][..], &[0x4F, 0x50, 0].repeat(8)].concat();
    assert_eq!(pair.ours.open_table(&eight, &[0, 255, 0], limits(0, 0, 0)), Err(8));
    assert_eq!(report(&mut pair).verdict, Verdict::Pass);
    pair.open(&eight, &Target::Table(vec![0, 255]), limits(0, 0, 0));
    assert_eq!(report(&mut pair).verdict, Verdict::Pass);
}
