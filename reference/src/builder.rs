//! The greedy builder from a matrix and a depth limit, or from the inputs' arrival depths and a limit for each
//! row, to an XOR program. It keeps a table of least sums of 2^depth; `plain::builder` is the one straight from
//! the definition.

use crate::circuit::{self, Circuit, Gate, XOR};

/// Refusal 1: n, and the number of rows.
fn check_shape(n: u64, rows: &[u8]) -> Result<(), u8> {
    let fits = (1..=8).contains(&n) && (1..=32).contains(&rows.len());
    fits.then_some(()).ok_or(1)
}

/// Refusal 8: each row sums some inputs, and no others than there are.
fn check_rows(n: u64, rows: &[u8]) -> Result<(), u8> {
    let sound = rows.iter().all(|&row| row != 0 && (row as u64) < 1 << n);
    sound.then_some(()).ok_or(8)
}

/// Refusals 1, 8, 9, 10 in that order.
pub(crate) fn check(n: u64, rows: &[u8], d: u64) -> Result<(), u8> {
    check_shape(n, rows)?;
    check_rows(n, rows)?;
    if d > 15 {
        return Err(9);
    }
    if rows.iter().any(|row| row.count_ones() > 1 << d) {
        return Err(10);
    }
    Ok(())
}

/// Refusals 1, 2, 8, 9, 10 in that order.
pub(crate) fn check_late(n: u64, arrivals: &[u8], rows: &[u8], limits: &[u8]) -> Result<(), u8> {
    check_shape(n, rows)?;
    if arrivals.len() as u64 != n || limits.len() != rows.len() {
        return Err(2);
    }
    check_rows(n, rows)?;
    if arrivals.iter().chain(limits).any(|&depth| depth > 15) {
        return Err(9);
    }
    if rows.iter().zip(limits).any(|(&row, &limit)| load(arrivals, row) > 1 << limit) {
        return Err(10);
    }
    Ok(())
}

/// The sum of 2^arrival over a row's inputs.
fn load(arrivals: &[u8], row: u8) -> u32 {
    let inputs = arrivals.iter().enumerate().filter(|&(i, _)| row >> i & 1 == 1);
    inputs.map(|(_, &arrival)| 1 << arrival).sum()
}

/// Builds by the greedy rule; refusals 1, 8, 9, 10 in that order.
pub fn build(n: u64, rows: &[u8], d: u64) -> Result<Circuit, u8> {
    check(n, rows, d)?;
    Ok(search::<true>(&[0; 8][..n as usize], rows, &[d as u8; 32][..rows.len()]))
}

/// Builds into lent room, answering the length; a room too short is refused 11, last.
pub fn build_into(n: u64, rows: &[u8], d: u64, room: &mut [u8]) -> Result<usize, u8> {
    circuit::store(&build(n, rows, d)?, room)
}

/// Builds from inputs that arrive at depths of their own, each row within its own limit; refusals 1, 2, 8, 9,
/// 10 in that order.
pub fn build_late(n: u64, arrivals: &[u8], rows: &[u8], limits: &[u8]) -> Result<Circuit, u8> {
    check_late(n, arrivals, rows, limits)?;
    Ok(search::<false>(arrivals, rows, limits))
}

/// The same into lent room, answering the length; a room too short is refused 11, last.
pub fn build_late_into(
    n: u64,
    arrivals: &[u8],
    rows: &[u8],
    limits: &[u8],
    room: &mut [u8],
) -> Result<usize, u8> {
    circuit::store(&build_late(n, arrivals, rows, limits)?, room)
}

/// The search from its first line to its last output, for a build already checked.
fn search<const EQUAL: bool>(arrivals: &[u8], rows: &[u8], limits: &[u8]) -> Circuit {
    let mut search = Search::<EQUAL>::new(arrivals, rows, limits);
    while let Some(pair) = search.next_pair() {
        search.take(pair);
    }
    let outs = rows.iter().zip(limits).map(|(&row, &limit)| search.lowest(row, limit)).collect();
    let gates = search.pairs.iter().map(|&(a, b)| Gate { kind: XOR, a, b }).collect();
    Circuit { n: arrivals.len() as u8, gates, outs }
}

/// No set, or one too deep: above 2^D whatever D is.
const NONE: u16 = u16::MAX;

/// A row still to be made: the table's place for its mask among the sets of `distance - 1` lines.
struct Goal {
    place: u16,
    distance: u8,
    limit: u8,
}

/// The state of the fast builder. Where all limits are equal, that is known when it is compiled: what a set may
/// cost beside a pair's line is then worked out once for all rows.
///
/// A pair's line replaces the two lines it is made of, and is at least as costly, so it lowers a
/// distance by at most one; and it does so for a row at distance k exactly when k - 1 lines of
/// the base sum to the rest of the row at fitting cost.
struct Search<const EQUAL: bool> {
    /// The greatest limit of a row.
    d: u8,
    masks: Vec<u8>,
    depths: Vec<u8>,
    pairs: Vec<(u8, u8)>,
    goals: Vec<Goal>,
    /// Least sum of 2^depth at 256 * size + mask; a sum that passes u16 stays at its top.
    sums: [u16; 2048],
    /// By mask, the set of depths at which some pair makes it within D.
    made_at: [u16; 256],
    /// By mask and depth, the first such pair as 256 * i + j.
    first: [[u16; 16]; 256],
}

impl<const EQUAL: bool> Search<EQUAL> {
    fn new(arrivals: &[u8], rows: &[u8], limits: &[u8]) -> Search<EQUAL> {
        let mut search = Search {
            d: limits.iter().copied().max().expect("there is a row"),
            masks: Vec::with_capacity(256),
            depths: Vec::with_capacity(256),
            pairs: Vec::with_capacity(256),
            goals: Vec::with_capacity(rows.len()),
            sums: [NONE; 2048],
            made_at: [0; 256],
            first: [[NONE; 16]; 256],
        };
        search.sums[0] = 0;
        for (&row, &limit) in rows.iter().zip(limits).filter(|(row, _)| row.count_ones() > 1) {
            let distance = row.count_ones() as u8 - 1;
            let place = (distance as u16 - 1) << 8 | row as u16;
            search.goals.push(Goal { place, distance, limit });
        }
        for (i, &arrival) in arrivals.iter().enumerate() {
            search.add_line(1 << i, arrival);
        }
        search
    }

    /// The greatest size of set that some goal still looks up.
    fn top_size(&self) -> usize {
        self.goals.iter().map(|goal| goal.distance as usize - 1).max().unwrap_or(0)
    }

    /// Adds a line to the base: the pairs it makes with earlier lines, then the least sums.
    fn add_line(&mut self, mask: u8, depth: u8) {
        let line = self.masks.len() as u16;
        for i in 0..self.masks.len() {
            let made_depth = self.depths[i].max(depth) + 1;
            if made_depth <= self.d {
                let made = (self.masks[i] ^ mask) as usize;
                let first = &mut self.first[made][made_depth as usize];
                *first = (*first).min((i as u16) << 8 | line);
                self.made_at[made] |= 1 << made_depth;
            }
        }
        self.masks.push(mask);
        self.depths.push(depth);
        for size in (1..=self.top_size()).rev() {
            let (smaller, sums) = self.sums[256 * (size - 1)..256 * (size + 1)].split_at_mut(256);
            for (with, sum) in sums.iter_mut().enumerate() {
                *sum = (*sum).min(smaller[with ^ mask as usize].saturating_add(1 << depth));
            }
        }
    }

    /// Whether a line of this mask and depth lowers the goal's distance: some set costs no more than the limit
    /// leaves beside it, which is less than nothing where the line is too deep for this row.
    fn reaches(&self, goal: &Goal, mask: u8, depth: u32) -> bool {
        let limit = if EQUAL { self.d } else { goal.limit };
        let room = (1i32 << limit) - (1i32 << depth);
        self.sums[(goal.place ^ mask as u16) as usize & 2047] as i32 <= room
    }

    /// A number that is greater for the better pair: each distance lowered counts first, so the
    /// sum of distances is smallest; then small ones count more, so that of squares is largest.
    fn worth(&self, mask: u8, depth: u32) -> u32 {
        let worth = |goal: &Goal| ((1 << 16) - goal.distance as u32) * self.reaches(goal, mask, depth) as u32;
        self.goals.iter().map(worth).sum()
    }

    /// The pair to take, or none where every row is made.
    fn next_pair(&self) -> Option<u16> {
        if self.goals.is_empty() {
            return None;
        }
        let near = self.goals.iter().find(|goal| goal.distance == 1);
        near.map_or_else(|| self.best_pair(), |goal| self.first_pair(goal))
    }

    /// The first pair that makes a row within its limit.
    fn first_pair(&self, goal: &Goal) -> Option<u16> {
        self.first[goal.place as usize & 255][..=goal.limit as usize].iter().min().copied()
    }

    /// The pair of greatest worth, the first of these. A mask's deeper pair is worth no more than
    /// its shallower one, so it matters only where it comes earlier.
    fn best_pair(&self) -> Option<u16> {
        let (mut best, mut best_pair) = (0, NONE);
        for mask in 0..=255u8 {
            let mut depths = self.made_at[mask as usize];
            let mut earliest = NONE;
            while depths != 0 {
                let depth = depths.trailing_zeros();
                depths &= depths - 1;
                let pair = self.first[mask as usize][depth as usize];
                if pair >= earliest {
                    continue;
                }
                earliest = pair;
                let worth = self.worth(mask, depth);
                if worth > best || worth == best && pair < best_pair {
                    (best, best_pair) = (worth, pair);
                }
                if worth < best {
                    break;
                }
            }
        }
        (best_pair != NONE).then_some(best_pair)
    }

    /// Takes a pair: lowers the distances it lowers, and adds its line.
    fn take(&mut self, pair: u16) {
        let (i, j) = ((pair >> 8) as usize, (pair & 255) as usize);
        let (mask, depth) = (self.masks[i] ^ self.masks[j], self.depths[i].max(self.depths[j]) + 1);
        let mut goals = std::mem::take(&mut self.goals);
        for goal in goals.iter_mut().filter(|goal| self.reaches(goal, mask, depth.into())) {
            goal.distance -= 1;
            goal.place = goal.place.wrapping_sub(256);
        }
        goals.retain(|goal| goal.distance > 0);
        self.goals = goals;
        self.pairs.push((i as u8, j as u8));
        self.add_line(mask, depth);
    }

    /// The lowest line that makes a row within its limit: one of the same mask may be too deep for it.
    fn lowest(&self, row: u8, limit: u8) -> u8 {
        let makes = |line: &usize| self.masks[*line] == row && self.depths[*line] <= limit;
        (0..self.masks.len()).find(makes).expect("every row is made") as u8
    }
}
