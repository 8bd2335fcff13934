//! The distance by every set of lines and by every XOR program, and the builder by every pair.

use crate::builder::check;
use crate::circuit::{Circuit, Gate, XOR};

/// A line of a base: its mask and its depth.
pub type Line = (u8, u8);

/// The lines of a base from the lists of their masks and depths.
pub fn lines_of(masks: &[u8], depths: &[u8]) -> Vec<Line> {
    masks.iter().copied().zip(depths.iter().copied()).collect()
}

/// The first set of so many lines, in lexicographic order, that sums to the mask, with 2^depth summing to
/// no more than the room.
fn first_set(base: &[Line], from: usize, size: usize, mask: u8, room: u32) -> Option<Vec<usize>> {
    if size == 0 {
        return (mask == 0).then(Vec::new);
    }
    (from..base.len()).find_map(|line| {
        let rest = room.checked_sub(1 << base[line].1)?;
        let mut set = first_set(base, line + 1, size - 1, mask ^ base[line].0, rest)?;
        set.insert(0, line);
        Some(set)
    })
}

/// The smallest set that makes a mask within depth D, and of these the first.
pub fn smallest_set(base: &[Line], mask: u8, d: u8) -> Option<Vec<usize>> {
    (1..=base.len()).find_map(|size| first_set(base, 0, size, mask, 1 << d))
}

/// The distance by sets of lines.
pub fn distance(base: &[Line], mask: u8, d: u8) -> Option<u64> {
    smallest_set(base, mask, d).map(|set| set.len() as u64 - 1)
}

/// Whether some XOR program of so many gates makes the mask.
fn makes(base: &mut Vec<Line>, gates: u64, mask: u8, d: u8) -> bool {
    if base.iter().any(|line| line.0 == mask && line.1 <= d) {
        return true;
    }
    if gates == 0 {
        return false;
    }
    let mut pairs = (0..base.len()).flat_map(|i| (0..=i).map(move |j| (i, j)));
    pairs.any(|(i, j)| {
        base.push(sum(base[i], base[j]));
        let made = makes(base, gates - 1, mask, d);
        base.pop();
        made
    })
}

/// The distance by XOR programs, where it is at most so many gates: the definition itself.
pub fn distance_by_programs(base: &[Line], mask: u8, d: u8, most: u64) -> Option<u64> {
    (0..=most).find(|&gates| makes(&mut base.to_vec(), gates, mask, d))
}

/// The line that an XOR of two lines makes.
fn sum(a: Line, b: Line) -> Line {
    (a.0 ^ b.0, a.1.max(b.1) + 1)
}

/// The masks that some XOR program makes within each depth up to the deepest: inputs that have arrived, what was
/// made before, and each sum of two of these.
pub fn within_reach(arrivals: &[u8], deepest: u8) -> Vec<[bool; 256]> {
    let (mut now, mut made) = ([false; 256], Vec::new());
    for depth in 0..=deepest {
        let before: Vec<usize> = (0..256).filter(|&mask| now[mask]).collect();
        for (a, b) in before.iter().flat_map(|a| before.iter().map(move |b| (a, b))) {
            now[a ^ b] = true;
        }
        for (i, &arrival) in arrivals.iter().enumerate() {
            now[1 << i] |= arrival <= depth;
        }
        made.push(now);
    }
    made
}

/// Refusals 1, 2, 8, 9, 10 in that order; 10 where no program makes some row within its limit.
fn check_late(n: u64, arrivals: &[u8], rows: &[u8], limits: &[u8]) -> Result<(), u8> {
    if n == 0 || n > 8 || rows.is_empty() || rows.len() > 32 {
        return Err(1);
    }
    if arrivals.len() != n as usize || limits.len() != rows.len() {
        return Err(2);
    }
    if rows.iter().any(|&row| row == 0 || row as u64 >= 1 << n) {
        return Err(8);
    }
    if arrivals.iter().any(|&arrival| arrival > 15) || limits.iter().any(|&limit| limit > 15) {
        return Err(9);
    }
    let made = within_reach(arrivals, limits.iter().copied().max().unwrap_or(0));
    let in_reach = |(&row, &limit): (&u8, &u8)| made[limit as usize][row as usize];
    rows.iter().zip(limits).all(in_reach).then_some(()).ok_or(10)
}

/// Builds by the greedy rule; refusals 1, 8, 9, 10 in that order.
pub fn build(n: u64, rows: &[u8], d: u64) -> Result<Circuit, u8> {
    check(n, rows, d)?;
    let row = |&row: &u8| Row { mask: row, limit: d as u8 };
    Ok(greedy((0..n).map(|i| (1 << i, 0)).collect(), &rows.iter().map(row).collect::<Vec<_>>()))
}

/// Builds from inputs that arrive at depths of their own, each row within its own limit; refusals 1, 2, 8, 9,
/// 10 in that order.
pub fn build_late(n: u64, arrivals: &[u8], rows: &[u8], limits: &[u8]) -> Result<Circuit, u8> {
    check_late(n, arrivals, rows, limits)?;
    let rows: Vec<Row> = rows.iter().zip(limits).map(|(&mask, &limit)| Row { mask, limit }).collect();
    Ok(greedy(arrivals.iter().enumerate().map(|(i, &arrival)| (1 << i, arrival)).collect(), &rows))
}

/// A row to be made, and the depth within which it is.
struct Row {
    mask: u8,
    limit: u8,
}

impl Row {
    fn made_by(&self, line: Line) -> bool {
        line.0 == self.mask && line.1 <= self.limit
    }
}

/// The greedy rule from these inputs on: a pair at a time, and last the lowest line of each row.
fn greedy(mut base: Vec<Line>, rows: &[Row]) -> Circuit {
    let (n, mut gates) = (base.len() as u8, Vec::new());
    while let Some((i, j)) = next_pair(&base, rows) {
        base.push(sum(base[i], base[j]));
        gates.push(Gate { kind: XOR, a: i as u8, b: j as u8 });
    }
    let lowest =
        |row: &Row| base.iter().position(|&line| row.made_by(line)).expect("every row is made") as u8;
    Circuit { n, gates, outs: rows.iter().map(lowest).collect() }
}

/// The pair to take next, or none where every row is made.
fn next_pair(base: &[Line], rows: &[Row]) -> Option<(usize, usize)> {
    let distances = distances(base, rows);
    if distances.iter().all(|&distance| distance == 0) {
        return None;
    }
    let greatest = rows.iter().map(|row| row.limit).max()?;
    let mut pairs = (0..base.len())
        .flat_map(|i| (i + 1..base.len()).map(move |j| (i, j)))
        .filter(|&(i, j)| sum(base[i], base[j]).1 <= greatest);
    match distances.iter().position(|&distance| distance == 1) {
        Some(near) => pairs.find(|&(i, j)| rows[near].made_by(sum(base[i], base[j]))),
        None => best_pair(base, rows, pairs),
    }
}

/// The pair with the smallest sum of distances afterwards, then the largest sum of squares, then the first.
fn best_pair(
    base: &[Line],
    rows: &[Row],
    pairs: impl Iterator<Item = (usize, usize)>,
) -> Option<(usize, usize)> {
    let mut best = None;
    for (i, j) in pairs {
        let after = distances(&[base, &[sum(base[i], base[j])]].concat(), rows);
        let total: u64 = after.iter().sum();
        let squares: u64 = after.iter().map(|distance| distance * distance).sum();
        let better = match best {
            None => true,
            Some((least, most, _)) => total < least || total == least && squares > most,
        };
        if better {
            best = Some((total, squares, (i, j)));
        }
    }
    best.map(|(_, _, pair)| pair)
}

/// The distance of each row within its own limit.
fn distances(base: &[Line], rows: &[Row]) -> Vec<u64> {
    rows.iter().map(|row| distance(base, row.mask, row.limit).expect("a row stays in reach")).collect()
}
