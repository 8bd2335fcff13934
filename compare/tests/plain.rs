//! The library beside the plain ways of the independent program, which keep no table and hold no words: both builds, distances and
//! hints by every set of lines, the distance by every program, circuits worked input value by input value, sweeps by classes of
//! lines, and equation files by splitting their text.

use allpawasi::Limits;
use compare::calls::{concerning, Call};
use compare::circuits::circuit;
use compare::depths::{play, pointings, trials, LOOSE};
use compare::files::{damaged, file};
use compare::found::{of_set, Query, OF_A_SET};
use compare::hints::hints;
use compare::late::{remark, sound, OF_A_PROGRAM};
use compare::met::{gates, Kind, Met, HINTED, LEFT_OUT};
use compare::pair::{our_report, value, Pair};
use compare::sweeps::morning;
use compare::targets::{near_limits, near_target, target_met};
use reference::circuit::{write, Circuit};
use reference::examine::Target;
use reference::plain::{bench, builder, equations};
use reference::rng::Rng;

/// Matrices of 8 inputs and 16 to 32 rows, at every depth at which each row is in reach, byte for byte.
#[test]
fn matrices_of_eight_inputs() {
    let (mut rng, mut met) = (Rng::new(21), Met::default());
    for round in 0..130 {
        let (m, d) = (rng.between(16, 32), 3 + round % 13);
        let rows = rng.rows(8, m);
        let mut room = [0; 1341];
        let count = allpawasi::build(8, &rows, d, &mut room);
        let plain = builder::build(8, &rows, d as u64).map_err(usize::from);
        met.answer("build", &count, |_| Kind::Done);
        assert_eq!(count.map(|count| room[..count].to_vec()), plain.map(|c| write(&c)), "rows {rows:?} D {d}");
    }
    met.ends("plain builds", "build", &[]);
}

/// Late signals, byte for byte; too shallow by what can be made at each depth.
#[test]
fn late_signals() {
    let (mut rng, mut met) = (Rng::new(28), Met::default());
    for round in 0..600 {
        let (n, m) = (if round % 3 == 0 { 8 } else { 4 + round % 4 }, rng.between(2, 16) as usize);
        let mut late = sound(&mut rng, n, m);
        if rng.once_in(8) {
            late.limits[m - 1] = late.limits[m - 1].saturating_sub(1);
        }
        let mut room = [0; 1341];
        let count = allpawasi::build_late(n, &late.arrivals, &late.rows, &late.limits, &mut room);
        let plain = builder::build_late(n as u64, &late.arrivals, &late.rows, &late.limits).map_err(usize::from);
        met.answer("late", &count, |_| Kind::Done);
        if let Ok(c) = &plain {
            remark(&mut met, &late, c);
        }
        assert_eq!(count.map(|count| room[..count].to_vec()), plain.map(|c| write(&c)), "{late:?}");
    }
    met.ends_often("plain late builds", "late", &[10], 20);
    met.said_at_least("a program", &OF_A_PROGRAM, 15);
}

/// A query on a base of up to so many lines.
fn query(rng: &mut Rng, lines: u64) -> Query {
    let (n, lines) = (rng.between(1, 8), rng.between(1, lines));
    let masks = (0..lines).map(|_| rng.below(1 << n) as u8).collect();
    let depths = (0..lines).map(|_| rng.below(4) as u8).collect();
    Query { n: n as usize, masks, depths, target: rng.between(1, (1 << n) - 1) as usize, d: rng.below(7) as usize }
}

#[test]
fn distances_by_every_set() {
    let (mut rng, mut met) = (Rng::new(22), Met::default());
    for _ in 0..4_000 {
        let query = query(&mut rng, 14);
        let ours = query.ours();
        let plain = builder::smallest_set(&builder::lines_of(&query.masks, &query.depths), query.target as u8, query.d as u8);
        assert_eq!(ours, Ok(plain.map(of_set)), "{query:?}");
        met.answer("distance", &ours, gates);
        if let Ok(Some(found)) = &ours {
            query.remark(&mut met, found);
        }
    }
    met.ends("distances by every set", "distance", &[]);
    met.said("distance", &["none", "0", "1", "2", "3", "4", "5"]);
    met.said_at_least("a set", &OF_A_SET, 30);
}

/// The definition itself, as far as three gates.
#[test]
fn distances_by_every_program() {
    let (mut rng, mut met) = (Rng::new(23), Met::default());
    for _ in 0..2_000 {
        let query = query(&mut rng, 5);
        let ours = query.ours().map(|found| found.filter(|found| found.0 <= 3));
        let base = builder::lines_of(&query.masks, &query.depths);
        let plain = builder::distance_by_programs(&base, query.target as u8, query.d as u8, 3);
        assert_eq!(ours.as_ref().map(|found| found.as_ref().map(|found| found.0 as u64)), Ok(plain), "{query:?}");
        met.answer("distance", &ours, gates);
    }
    met.ends("distances by every program", "distance", &[]);
    met.said("distance", &["none", "0", "1", "2", "3"]);
}

/// Hints on programs with lines too deep for a base, which here stand in it, too deep for any set: no line is numbered anew.
#[test]
fn hints_by_every_set() {
    let (mut rng, mut pair) = (Rng::new(29), Pair::default());
    for _ in 0..400 {
        for call in hints(&mut rng, 18) {
            match call {
                Call::Hint(numbers) => hint(&mut pair, numbers),
                _ => pair.make(&call),
            }
        }
    }
    pair.met.show("hints by every set");
    pair.met.said_at_least("a hint", &HINTED[1..6], 100);
    pair.met.said_at_least("a hint", &["none", "0", "1", "2", "3", "4"], 50);
}

fn hint(pair: &mut Pair, [j, d]: [usize; 2]) {
    let Ok(found) = pair.hint([j, d]) else { return };
    let Some((c, Target::Matrix { masks: rows, .. }, _)) = &pair.theirs.present else { panic!("a hint was given, and there are no rows") };
    assert_eq!(found, bench::hint(c, rows[j], d as u8).map(of_set), "{c:?} row {} D {d}", rows[j]);
}

/// What is held and reported of what is present, worked input value by input value.
fn as_worked_plainly(pair: &Pair) {
    let Some((c, target, limits)) = &pair.theirs.present else { return };
    let (depths, and_depths, words) = pair.ours.held();
    assert_eq!(builder::lines_of(depths, and_depths), bench::depths(c));
    for x in 0..1 << c.n {
        assert!(words.iter().map(|line| value(line, x)).eq(bench::values(c, x)), "values on {x} of {c:?}");
    }
    assert_eq!(pair.ours.report(), Ok(our_report(bench::examine(c, target, limits))));
}

/// A call, and where it replaced a gate its list of lines, where it swept the circuit too.
fn make(pair: &mut Pair, call: &Call) {
    match call {
        Call::Gate(numbers) => replace(pair, *numbers),
        Call::Sweep => sweep(pair),
        _ => pair.make(call),
    }
}

fn replace(pair: &mut Pair, numbers: [usize; 4]) {
    if let Ok(reworked) = pair.replace_gate(numbers) {
        let (c, _, _) = pair.theirs.present.as_ref().expect("a gate was replaced");
        let readers = bench::readers(c, numbers[0]);
        assert!(reworked.into_iter().map(usize::from).eq(readers), "readers of gate {} of {c:?}", numbers[0]);
    }
}

fn sweep(pair: &mut Pair) {
    let (before, _, _) = pair.theirs.present.clone().expect("something is open");
    let (reworked, plain) = (pair.sweep().expect("something is open"), bench::sweep(&before));
    assert!(reworked.into_iter().map(usize::from).eq(plain.n.into()..plain.lines()), "lines kept of {before:?}");
    let mut room = [0; 1341];
    let count = pair.ours.store(&mut room).expect("there is room");
    assert_eq!(room[..count], write(&plain), "sweep of {before:?}");
}

/// Limits that the outputs keep, the AND depth just so: lines that no output names are mostly over it.
fn kept_by_outputs(c: &Circuit) -> Limits {
    Limits { and_depth: bench::circuit_depths(c).1, ..LOOSE }
}

/// Circuits of 8 inputs, 248 gates and 8 outputs, opened and edited. Every fifth passes at first by its outputs' AND depth.
#[test]
fn circuits_of_the_most_gates() {
    let (mut rng, mut pair) = (Rng::new(24), Pair::default());
    for round in 0..120 {
        let matrix = round % 5 < 2;
        let c = circuit(&mut rng, 8, 248, 8, matrix);
        assert_eq!(target_met(&c, matrix), bench::target_met(&c, matrix), "what is met by {c:?}");
        let mut call = match round % 5 {
            4 => Call::Open(write(&c), target_met(&c, matrix), kept_by_outputs(&c)),
            _ => Call::Open(write(&c), near_target(&mut rng, &c, matrix), near_limits(&mut rng, &c)),
        };
        for _ in 0..8 {
            make(&mut pair, &call);
            pair.look();
            as_worked_plainly(&pair);
            let (c, target, _) = pair.theirs.present.as_ref().expect("the first open is sound");
            call = concerning(&mut rng, c, target.linear_only());
        }
    }
    pair.met.show("circuits of 248 gates");
    pair.met.verdicts();
    pair.met.said_at_least("left out of a report", &LEFT_OUT, 20);
}

/// Circuits with trial gates, and outputs pointed to and fro between deep lines and shallow ones.
#[test]
fn depths_that_end_at_outputs() {
    let (mut rng, mut pair) = (Rng::new(26), Pair::default());
    for round in 0..240 {
        let matrix = round % 3 == 0;
        for call in trials(&mut rng, matrix).iter().chain(&pointings(&mut rng, matrix)) {
            play(&mut pair, call);
            as_worked_plainly(&pair);
        }
    }
    pair.met.show("depths that end at outputs");
    pair.met.said_at_least("left out of a report", &LEFT_OUT, 100);
    pair.met.said_at_least("pointed: depth", &["greater", "less", "kept by another output"], 100);
    pair.met.said_at_least("pointed: AND depth", &["greater", "less", "kept by another output"], 100);
}

/// Mornings of sweeps, appends and pointings; sweeps by classes of lines that nothing tells apart.
#[test]
fn sweeps_by_classes() {
    let (mut rng, mut pair) = (Rng::new(27), Pair::default());
    for round in 0..200 {
        for call in morning(&mut rng, round % 3 == 0) {
            make(&mut pair, &call);
            as_worked_plainly(&pair);
        }
    }
    pair.met.show("sweeps by classes");
    pair.met.sweeps(5);
}

/// Equation files of up to 2,000 bytes, as they are and damaged.
#[test]
fn equation_files_by_splitting() {
    let (mut rng, mut met) = (Rng::new(25), Met::default());
    for round in 0..6_000 {
        let sound = file(&mut rng);
        let text = if round % 2 == 0 { damaged(&mut rng, &sound) } else { sound };
        if text.len() > 2_000 {
            continue;
        }
        let mut room = [0; 1341];
        let ours = allpawasi::equations(&text, &mut room);
        let plain = equations::read(&text).map(|c| write(&c));
        let stored = ours.map(|count| room[..count].to_vec()).map_err(|not_read| (not_read.refusal, not_read.place));
        assert_eq!(stored, plain.map_err(|no| (no.number.into(), no.place)), "{:?}", String::from_utf8_lossy(&text));
        met.answer("equations", &ours.map_err(|not_read| not_read.refusal), |_| Kind::Done);
    }
    met.ends_often("equation files by splitting", "equations", &[1, 15, 16, 17], 100);
}
