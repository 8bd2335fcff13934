//! Builds with late signals: inputs that arrive at any depth, limits near what each row needs, and what is remarkable about a call
//! and about the program that is built for it.

use crate::met::{Kind, Met};
use reference::builder::build_late;
use reference::circuit::Circuit;
use reference::rng::Rng;

/// A build with its numbers and lists as they are given, and the length of the room.
#[derive(Clone, Debug)]
pub struct Late {
    pub n: usize,
    pub arrivals: Vec<u8>,
    pub rows: Vec<u8>,
    pub limits: Vec<u8>,
    pub room: usize,
}

/// The inputs of a row, of which there are so many in all.
fn inputs(row: u8, n: usize) -> impl Iterator<Item = usize> {
    (0..n.min(8)).filter(move |i| row >> i & 1 == 1)
}

/// The sum of 2^arrival over a row's inputs.
pub fn load(arrivals: &[u8], row: u8) -> u64 {
    inputs(row, arrivals.len()).map(|i| 1 << arrivals[i].min(32)).sum()
}

/// The least limit that a row has a program for, 16 and more where there is none.
pub fn least(arrivals: &[u8], row: u8) -> u8 {
    load(arrivals, row).next_power_of_two().ilog2() as u8
}

/// Arrivals of one kind: none late, all as late, a little late, one input in three late, any.
pub fn arrivals(rng: &mut Rng, n: usize) -> Vec<u8> {
    let (kind, one) = (rng.below(6), rng.below(16) as u8);
    let arrival = |rng: &mut Rng| match kind {
        0 => 0,
        1 => one,
        2 => rng.below(4) as u8,
        3 => rng.below(9) as u8,
        4 if !rng.once_in(3) => 0,
        _ => rng.below(16) as u8,
    };
    (0..n).map(|_| arrival(rng)).collect()
}

/// The row without its latest inputs, as many as are too late for any limit.
fn in_reach(arrivals: &[u8], mut row: u8) -> u8 {
    while least(arrivals, row) > 15 {
        let latest = inputs(row, arrivals.len()).max_by_key(|&i| arrivals[i]).expect("a row has inputs");
        row ^= 1 << latest;
    }
    row
}

/// Rows of one kind that can be made: any, all inputs, few inputs, and again and again the same ones.
fn rows(rng: &mut Rng, arrivals: &[u8], m: usize) -> Vec<u8> {
    let (n, kind) = (arrivals.len() as u64, rng.below(5));
    let all = ((1_usize << n) - 1) as u8;
    let mut list: Vec<u8> = Vec::new();
    for _ in 0..m {
        let row = match kind {
            0 if rng.once_in(2) => all,
            1 => 1 << rng.below(n) | 1 << rng.below(n),
            2 | 3 if !list.is_empty() && rng.once_in(2) => list[rng.below(list.len() as u64) as usize],
            _ => rng.between(1, all.into()) as u8,
        };
        list.push(in_reach(arrivals, row));
    }
    list
}

/// Limits of one kind that are no lower than they must be: just enough, a little more, any, the greatest for all.
fn limits(rng: &mut Rng, arrivals: &[u8], rows: &[u8]) -> Vec<u8> {
    let enough: Vec<u8> = rows.iter().map(|&row| least(arrivals, row)).collect();
    let (kind, most) = (rng.below(6), enough.iter().copied().max().unwrap_or(0));
    let limit = |rng: &mut Rng, enough: u8| match kind {
        0 => enough,
        1..=3 => (enough + rng.below(4) as u8).min(15),
        4 => rng.between(enough.into(), 15) as u8,
        _ => most,
    };
    enough.iter().map(|&enough| limit(rng, enough)).collect()
}

/// A build that is not refused, in room for any.
pub fn sound(rng: &mut Rng, n: usize, m: usize) -> Late {
    let arrivals = arrivals(rng, n);
    let rows = rows(rng, &arrivals, m);
    let limits = limits(rng, &arrivals, &rows);
    Late { n, arrivals, rows, limits, room: 1341 }
}

/// So many arrivals whose sum of 2^arrival is 2^limit: one is taken for two that are one less, again and again.
fn that_fill(rng: &mut Rng, count: usize, limit: u8) -> Vec<u8> {
    let mut list = vec![limit];
    while list.len() < count {
        let late: Vec<usize> = (0..list.len()).filter(|&i| list[i] > 0).collect();
        let at = late[rng.below(late.len() as u64) as usize];
        list[at] -= 1;
        list.push(list[at]);
    }
    list
}

/// A build of which the last row takes just as much as its limit leaves: its load is 2^limit. An input more, which comes at once, is
/// left for another row.
pub fn just_enough(rng: &mut Rng) -> Late {
    let count = rng.between(1, 7) as usize;
    let limit = rng.between((count as u64).next_power_of_two().ilog2().into(), 15) as u8;
    let mut arrivals = that_fill(rng, count, limit);
    arrivals.push(0);
    let m = rng.below(8) as usize;
    let mut rows = rows(rng, &arrivals, m);
    let mut limits = limits(rng, &arrivals, &rows);
    rows.push((1 << count) - 1);
    limits.push(limit);
    Late { n: count + 1, arrivals, rows, limits, room: 1341 }
}

/// A list with an entry less or more, with none, or with many.
pub fn other_length(rng: &mut Rng, list: &mut Vec<u8>) -> &'static str {
    match rng.below(5) {
        0 => {
            list.pop();
            "one less"
        }
        1 => {
            list.push(0);
            "one more"
        }
        2 => {
            list.clear();
            "none"
        }
        3 => {
            list.resize(list.len() + 256, 0);
            "256 more"
        }
        _ => {
            list.resize([33, 64, 1_000][rng.below(3) as usize], 0);
            "many"
        }
    }
}

/// Any entry of a list.
fn any<'a>(rng: &mut Rng, list: &'a mut [u8]) -> &'a mut u8 {
    &mut list[rng.below(list.len() as u64) as usize]
}

/// The arrivals or the limits.
fn one_list<'a>(rng: &mut Rng, late: &'a mut Late) -> &'a mut Vec<u8> {
    if rng.once_in(2) {
        &mut late.arrivals
    } else {
        &mut late.limits
    }
}

/// A build with several causes of a refusal, and now and then with none.
pub fn spoiled(rng: &mut Rng) -> Late {
    let (n, m) = (rng.between(1, 8) as usize, rng.between(1, 6) as usize);
    let mut late = sound(rng, n, m);
    if rng.once_in(3) {
        late.room = rng.below(12) as usize;
    }
    if rng.once_in(3) {
        let limit = any(rng, &mut late.limits);
        *limit = limit.saturating_sub(3);
    }
    if rng.once_in(3) {
        let list = one_list(rng, &mut late);
        *any(rng, list) = rng.between(16, 40) as u8;
    }
    if rng.once_in(3) {
        *any(rng, &mut late.rows) = if rng.once_in(2) || n == 8 { 0 } else { 1 << n };
    }
    if rng.once_in(3) {
        let list = one_list(rng, &mut late);
        other_length(rng, list);
    }
    if rng.once_in(5) {
        late.n = [0, 9, 10, 255, 256, 257, 1 << 32, usize::MAX][rng.below(8) as usize];
    }
    if rng.once_in(8) {
        late.rows.resize([0, 33, 40, 256, 257][rng.below(5) as usize], 1);
    }
    late
}

/// The independent program's circuit for a build.
pub fn theirs(late: &Late) -> Result<Circuit, u8> {
    build_late(late.n as u64, &late.arrivals, &late.rows, &late.limits)
}

/// The causes of a refusal that a build has, whichever is given: each is looked for as far as the lists go. A room is too short here
/// where it would be for any program.
pub fn causes(late: &Late) -> Vec<usize> {
    let Late { n, arrivals, rows, limits, room } = late;
    let (shape, fits) = ((1..=8).contains(n) && (1..=32).contains(&rows.len()), |row: &u8| *n >= 8 || (*row as usize) < 1 << n);
    let shallow = |(&row, &limit): (&u8, &u8)| load(arrivals, row) > 1 << limit.min(40);
    let found = [
        (1, !shape),
        (2, arrivals.len() != *n || limits.len() != rows.len()),
        (8, !rows.iter().all(|row| *row != 0 && fits(row))),
        (9, arrivals.iter().chain(limits).any(|&depth| depth > 15)),
        (10, rows.iter().zip(limits).any(shallow)),
        (11, *room < 5 + 3 * rows.len()),
    ];
    found.into_iter().filter(|cause| cause.1).map(|cause| cause.0).collect()
}

/// The mask and the depth of each line.
fn lines(late: &Late, c: &Circuit) -> Vec<(u8, u8)> {
    let mut lines: Vec<(u8, u8)> = late.arrivals.iter().enumerate().map(|(i, &arrival)| (1 << i, arrival)).collect();
    for gate in &c.gates {
        let (a, b) = (lines[gate.a as usize], lines[gate.b as usize]);
        lines.push((a.0 ^ b.0, a.1.max(b.1) + 1));
    }
    lines
}

/// What may be remarkable about a program.
pub const OF_A_PROGRAM: [&str; 8] = [
    "another if no input were late",
    "another if each row had the greatest limit",
    "an output past a line that is too deep",
    "an output before a shallower line",
    "one row, two lines",
    "a gate too deep for a row",
    "an input too late for a row",
    "an input too late for every row",
];

/// Counts each that is so of the program for a build.
pub fn remark(met: &mut Met, late: &Late, c: &Circuit) {
    let so = OF_A_PROGRAM.iter().zip(remarks(late, c)).filter(|remark| remark.1);
    so.for_each(|(words, _)| met.count("a program", Kind::Says(words.to_string())));
}

/// Whether each is so of the program for a build.
fn remarks(late: &Late, c: &Circuit) -> [bool; 8] {
    let (lines, most) = (lines(late, c), late.limits.iter().copied().max().unwrap_or(0));
    let other = |arrivals: Vec<u8>, limits: Vec<u8>| theirs(&Late { arrivals, limits, ..late.clone() }).as_ref() != Ok(c);
    let each = || c.outs.iter().map(|&line| line as usize).zip(&late.rows).zip(&late.limits);
    let too_late = |arrival: &u8| late.limits.iter().any(|limit| arrival > limit);
    [
        other(vec![0; late.n], late.limits.clone()),
        other(late.arrivals.clone(), vec![most; late.limits.len()]),
        each().any(|((out, row), _)| lines[..out].iter().any(|line| line.0 == *row)),
        each().any(|((out, row), _)| lines[out..].iter().any(|line| line.0 == *row && line.1 < lines[out].1)),
        each().any(|((out, row), _)| each().any(|((other, same), _)| row == same && out != other)),
        each().any(|(_, limit)| lines[late.n..].iter().any(|line| line.1 > *limit)),
        late.arrivals.iter().any(too_late),
        late.arrivals.iter().any(|&arrival| arrival > most),
    ]
}

/// For each row whose limit is not the greatest, whether the program is another where its limit alone is.
pub fn binding(late: &Late, c: &Circuit) -> Vec<bool> {
    let most = late.limits.iter().copied().max().unwrap_or(0);
    let raised = |j: usize| {
        let mut limits = late.limits.clone();
        limits[j] = most;
        theirs(&Late { limits, ..late.clone() }).as_ref() != Ok(c)
    };
    (0..late.limits.len()).filter(|&j| late.limits[j] < most).map(raised).collect()
}
