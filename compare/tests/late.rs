//! The build with late signals: refusals in their order, and the stored program byte for byte, with the room after it.

use allpawasi::{build, build_late};
use compare::circuits::xor_program as program;
use compare::late::{arrivals, binding, causes, just_enough, least, load, other_length, remark, sound, spoiled, theirs};
use compare::late::{Late, OF_A_PROGRAM};
use compare::met::{Kind, Met};
use compare::vectors::{matrices, Matrix};
use reference::builder::build_late_into;
use reference::plain::builder::within_reach;
use reference::rng::Rng;

fn say(met: &mut Met, of: &'static str, words: impl Into<String>) {
    met.count(of, Kind::Says(words.into()));
}

/// Both on the same lists and rooms of the same length: what stands first in the room, or the refusal.
fn compare(met: &mut Met, late: &Late) -> Result<Vec<u8>, usize> {
    let Late { n, arrivals, rows, limits, room: length } = late;
    let (mut room, mut other) = (vec![0xC3; *length], vec![0xC3; *length]);
    let ours = build_late(*n, arrivals, rows, limits, &mut room);
    let theirs = build_late_into(*n as u64, arrivals, rows, limits, &mut other).map_err(usize::from);
    assert_eq!(ours, theirs, "{late:?}");
    assert_eq!(room, other, "room for {late:?}");
    met.answer("late", &ours, |_| Kind::Done);
    ours.map(|count| room[..count].to_vec())
}

/// Builds with a limit too low now and then, or a room too short; what is remarkable about a program is counted.
#[test]
fn random_builds() {
    let (mut rng, mut met) = (Rng::new(41), Met::default());
    for round in 0..20_000 {
        let m = if rng.once_in(12) { 32 } else { rng.between(1, 12) as usize };
        let mut late = sound(&mut rng, 1 + round % 8, m);
        if rng.once_in(10) {
            let at = rng.below(m as u64) as usize;
            late.limits[at] = late.limits[at].saturating_sub(rng.between(1, 3) as u8);
        }
        late.room = if rng.once_in(10) { rng.below(150) as usize } else { 1341 };
        if compare(&mut met, &late).is_ok() {
            remark(&mut met, &late, &theirs(&late).expect("it was built"));
        }
    }
    met.ends_often("random late builds", "late", &[10, 11], 500);
    met.said_at_least("a program", &OF_A_PROGRAM, 200);
}

/// Rows of which the limit of one alone changes the program, and that of another does not.
#[test]
fn limits_that_bind_one_row() {
    let (mut rng, mut met) = (Rng::new(42), Met::default());
    for round in 0..3_000 {
        let m = rng.between(3, 9) as usize;
        let late = sound(&mut rng, 4 + round % 5, m);
        compare(&mut met, &late).expect("it is sound");
        let binds = binding(&late, &theirs(&late).expect("it was built"));
        let words = match (binds.contains(&true), binds.contains(&false)) {
            (true, true) => "bind one row and not another",
            (true, false) => "bind",
            _ => "do not bind",
        };
        say(&mut met, "limits", words);
    }
    met.ends("limits that bind one row", "late", &[]);
    met.said_at_least("limits", &["bind one row and not another", "do not bind"], 500);
}

/// A row whose load is 2^limit, and the same row with one input more that comes at once.
#[test]
fn just_enough_and_one_too_much() {
    let (mut rng, mut met) = (Rng::new(43), Met::default());
    for _ in 0..3_000 {
        let mut late = just_enough(&mut rng);
        let last = late.rows.len() - 1;
        let room = 1u64 << late.limits[last];
        assert_eq!(load(&late.arrivals, late.rows[last]), room);
        assert!(compare(&mut met, &late).is_ok(), "{late:?}");
        late.rows[last] |= 1 << (late.n - 1);
        assert_eq!(load(&late.arrivals, late.rows[last]), room + 1);
        assert_eq!(compare(&mut met, &late), Err(10), "{late:?}");
        if late.limits[last] < 15 {
            late.limits[last] += 1;
            assert!(compare(&mut met, &late).is_ok(), "{late:?}");
            say(&mut met, "a limit more", "is enough");
        }
    }
    met.ends_often("just enough and one too much", "late", &[10], 3_000);
    met.said_at_least("a limit more", &["is enough"], 1_000);
}

/// Too shallow is answered exactly where no program makes some row, by all masks that can be made at each depth.
#[test]
fn too_shallow_is_no_program() {
    let (mut rng, mut met) = (Rng::new(44), Met::default());
    for round in 0..2_000 {
        let (n, m) = (1 + round % 6, rng.between(1, 4) as usize);
        let arrivals = arrivals(&mut rng, n);
        let rows = rng.rows(n as u64, m as u64);
        let near = |rng: &mut Rng, row: u8| (load(&arrivals, row).ilog2() as u64 + rng.below(3)).min(15) as u8;
        let limits: Vec<u8> = rows.iter().map(|&row| near(&mut rng, row)).collect();
        let made = within_reach(&arrivals, 15);
        let all = rows.iter().zip(&limits).all(|(&row, &limit)| made[limit as usize][row as usize]);
        let answer = compare(&mut met, &Late { n, arrivals, rows, limits, room: 1341 });
        assert_eq!(answer.map(|_| ()), if all { Ok(()) } else { Err(10) });
    }
    met.ends_often("too shallow is no program", "late", &[10], 400);
}

/// Where all inputs are as late and all limits as much greater, nothing changes.
#[test]
fn all_inputs_as_late() {
    let (mut rng, mut met) = (Rng::new(45), Met::default());
    for round in 0..1_500 {
        let m = rng.between(1, 10) as usize;
        let mut late = sound(&mut rng, 1 + round % 8, m);
        late.arrivals.fill(0);
        let spare = 15 - late.limits.iter().copied().max().expect("there is a row");
        let first = compare(&mut met, &late);
        for by in [1, 2, 5, 9, 12].into_iter().filter(|by| *by <= spare) {
            late.arrivals.fill(by);
            let limits = late.limits.iter().map(|limit| limit + by).collect();
            let answer = compare(&mut met, &Late { limits, ..late.clone() });
            assert_eq!(answer, first, "{late:?} later by {by}");
            say(&mut met, "later by", by.to_string());
        }
    }
    met.ends("all inputs as late", "late", &[]);
    met.said_at_least("later by", &["1", "2", "5", "9", "12"], 100);
}

/// No input late and one limit for all: what the old build answers, refusals too.
#[test]
fn as_the_old_build() {
    let (mut rng, mut met) = (Rng::new(46), Met::default());
    for _ in 0..4_000 {
        let n = if rng.once_in(15) { [0, 9, 16][rng.below(3) as usize] } else { rng.between(1, 8) as usize };
        let m = [0, 32, 33][rng.below(3) as usize];
        let m = if rng.once_in(15) { m } else { rng.between(1, 12) as usize };
        let bound = if rng.once_in(15) { 256 } else { 1 << n.clamp(1, 8) };
        let rows: Vec<u8> = (0..m).map(|_| rng.between(1, bound - 1) as u8).collect();
        let d = if rng.once_in(15) { [16, 255][rng.below(2) as usize] } else { rng.below(16) as u8 };
        let length = if rng.once_in(10) { rng.below(100) as usize } else { 1341 };
        let late = Late { n, arrivals: vec![0; n], rows, limits: vec![d; m], room: length };
        let mut room = vec![0xC3; length];
        let old = build(n, &late.rows, d.into(), &mut room).map(|count| room[..count].to_vec());
        assert_eq!(compare(&mut met, &late), old, "{late:?}");
    }
    met.ends_often("as the old build", "late", &[1, 8, 9, 10, 11], 100);
}

/// Lists of another length, one at a time and both.
#[test]
fn lists_of_another_length() {
    let (mut rng, mut met) = (Rng::new(47), Met::default());
    for round in 0..3_000 {
        let m = rng.between(1, 32) as usize;
        let mut late = sound(&mut rng, 1 + round % 8, m);
        if round % 3 != 0 {
            let words = other_length(&mut rng, &mut late.arrivals);
            say(&mut met, if round % 3 == 1 { "arrivals" } else { "arrivals, and limits too" }, words);
        }
        if round % 3 != 1 {
            let words = other_length(&mut rng, &mut late.limits);
            say(&mut met, if round % 3 == 0 { "limits" } else { "limits, and arrivals too" }, words);
        }
        assert_eq!(compare(&mut met, &late), Err(2), "{late:?}");
    }
    met.show("lists of another length");
    for list in ["arrivals", "limits", "arrivals, and limits too", "limits, and arrivals too"] {
        met.said_at_least(list, &["one less", "one more", "none", "256 more", "many"], 100);
    }
}

/// One depth over 15 in one list: 16, 255 or between, also of an input that no row needs.
#[test]
fn one_depth_over_fifteen() {
    let (mut rng, mut met) = (Rng::new(48), Met::default());
    for round in 0..4_000 {
        let m = rng.between(1, 6) as usize;
        let mut late = sound(&mut rng, 1 + round % 8, m);
        let (over, arrival) = ([16, 16, 17, 31, 32, 47, 64, 255][rng.below(8) as usize], rng.once_in(2));
        let list = if arrival { &mut late.arrivals } else { &mut late.limits };
        let at = rng.below(list.len() as u64) as usize;
        list[at] = over;
        let needed = late.rows.iter().any(|row| row >> at & 1 == 1);
        let words = [["limit"; 2], ["arrival that no row needs", "arrival"]][arrival as usize][needed as usize];
        say(&mut met, if over == 16 { "16" } else { "over 16" }, words);
        assert_eq!(compare(&mut met, &late), Err(9), "{late:?}");
    }
    met.show("one depth over fifteen");
    ["16", "over 16"].iter().for_each(|of| met.said_at_least(of, &["limit", "arrival", "arrival that no row needs"], 50));
}

/// The first cause is answered, whichever others there are: each of them stands before each later one often.
#[test]
fn refusals_in_their_order() {
    let (mut rng, mut met) = (Rng::new(49), Met::default());
    for _ in 0..20_000 {
        let late = spoiled(&mut rng);
        let (answer, causes) = (compare(&mut met, &late), causes(&late));
        match causes.first() {
            Some(first) => assert_eq!(answer, Err(*first), "{late:?}: {causes:?}"),
            None => assert!(matches!(answer, Ok(_) | Err(11)), "{late:?}"),
        }
        causes.iter().skip(1).for_each(|later| say(&mut met, "first of two", format!("{} before {later}", causes[0])));
    }
    met.ends_often("refusals of a late build", "late", &[1, 2, 8, 9, 10, 11], 300);
    let numbers = [1, 2, 8, 9, 10, 11];
    for (i, first) in numbers.iter().enumerate() {
        let pairs: Vec<String> = numbers[i + 1..].iter().map(|later| format!("{first} before {later}")).collect();
        met.said_at_least("first of two", &pairs.iter().map(String::as_str).collect::<Vec<_>>(), 50);
    }
}

fn built(arrivals: &[u8], rows: &[u8], limits: &[u8]) -> Result<Vec<u8>, usize> {
    let mut room = [0; 1341];
    build_late(arrivals.len(), arrivals, rows, limits, &mut room).map(|count| room[..count].to_vec())
}

/// Programs worked out by hand.
#[test]
fn small_examples() {
    assert_eq!(built(&[0; 3], &[7], &[3]), Ok(program(3, &[[0, 1], [2, 3]], &[4])));
    assert_eq!(built(&[2, 0, 0], &[7], &[3]), Ok(program(3, &[[1, 2], [0, 3]], &[4])));
    assert_eq!(built(&[2, 0, 0], &[7], &[2]), Err(10));
    assert_eq!(built(&[2, 0, 0], &[3, 7, 6], &[3, 3, 1]), Ok(program(3, &[[0, 1], [1, 2], [0, 4]], &[3, 5, 4])));
    assert_eq!(built(&[0; 3], &[3, 7, 6, 6], &[2, 3, 3, 1]), Ok(program(3, &[[0, 1], [2, 3], [0, 4], [1, 2]], &[3, 4, 5, 6])));
    assert_eq!(built(&[0; 3], &[3, 7, 6, 6], &[2, 3, 1, 3]), Ok(program(3, &[[0, 1], [2, 3], [1, 2]], &[3, 4, 5, 5])));
    assert_eq!(built(&[15], &[1], &[15]), Ok(program(1, &[], &[0])));
    assert_eq!(built(&[0, 15], &[1], &[0]), Ok(program(2, &[], &[0])));
    assert_eq!(built(&[14, 14, 15], &[3, 4], &[15; 2]), Ok(program(3, &[[0, 1]], &[3, 2])));
    assert_eq!(built(&[15, 15], &[3], &[15]), Err(10));
    assert_eq!(built(&[15; 8], &[255], &[15]), Err(10));
    assert_eq!(built(&[12; 8], &[255; 32], &[15; 32]).map(|bytes| bytes.len()), Ok(5 + 5 * 7 + 3 * 32));
}

/// The published matrices with the inputs late in several ways, and limits that are just enough or one more.
#[test]
fn published_matrices() {
    let (mut rng, mut met) = (Rng::new(50), Met::default());
    for Matrix { n, rows, .. } in matrices() {
        for round in 0..12 {
            let arrivals: Vec<u8> = (0..n).map(|_| rng.below(1 + round % 6) as u8).collect();
            let more = |row: &u8| least(&arrivals, *row) + (round / 6) as u8;
            let limits = rows.iter().map(more).collect();
            compare(&mut met, &Late { n, arrivals, rows: rows.clone(), limits, room: 1341 }).expect("each limit is enough");
        }
    }
    met.ends("published matrices", "late", &[]);
}
