//! The distance query: the fewest XOR gates from a base of lines to a mask within a depth, which
//! is the smallest size, less one, of a set of lines summing to the mask with fitting depths; and
//! the lines of that set, of the sets of its size the one whose ascending numbers come first.

use std::cmp::Reverse;

/// Bases up to this many lines are searched by all their subsets.
const SMALL_BASE: usize = 10;

/// A smallest set has independent masks, or leaving out a dependent part would give a smaller
/// one; so it has no more lines than there are inputs.
const MAX_SIZE: usize = 8;

/// More than any sum of 2^depth that can be asked for, and still far from overflow.
const NONE: u32 = 1 << 30;

/// For each mask the least sum of 2^depth over choices of some number of lines.
type Layer = [u32; 256];

/// What a query finds: the distance, and the lines of the smallest set that comes first, ascending.
#[derive(Clone, Debug, PartialEq, Eq)]
pub struct Distance {
    pub gates: u64,
    pub lines: Vec<usize>,
}

impl Distance {
    /// A set of so many lines is summed by one gate less.
    pub fn of_set(lines: Vec<usize>) -> Distance {
        Distance { gates: lines.len() as u64 - 1, lines }
    }
}

fn check(n: u64, masks: &[u8], depths: &[u8], target: u64, d: u64) -> Result<(), u8> {
    if !(1..=8).contains(&n) {
        return Err(1);
    }
    if masks.len() != depths.len() || masks.is_empty() || masks.len() > 256 {
        return Err(2);
    }
    let outside = |mask: u64| mask >= 1 << n;
    if masks.iter().any(|&mask| outside(mask.into())) || target == 0 || outside(target) {
        return Err(8);
    }
    if depths.iter().any(|&depth| depth > 15) || d > 15 {
        return Err(9);
    }
    Ok(())
}

/// The distance to the target within depth D and its lines, or none; refusals 1, 2, 8, 9 in that order.
pub fn distance(n: u64, masks: &[u8], depths: &[u8], target: u64, d: u64) -> Result<Option<Distance>, u8> {
    check(n, masks, depths, target, d)?;
    let search = if masks.len() <= SMALL_BASE { by_subsets } else { by_layers };
    Ok(search(masks, depths, target as u8, d as u8).map(Distance::of_set))
}

/// The first of the smallest sets by looking at every subset of the base. Of two sets of one size that one
/// comes first which has the lowest line of those that only one has: with its bits reversed it is the greater.
fn by_subsets(masks: &[u8], depths: &[u8], target: u8, d: u8) -> Option<Vec<usize>> {
    let count = 1usize << masks.len();
    let mut made = vec![(0u8, 0u32); count];
    for set in 1..count {
        let line = set.trailing_zeros() as usize;
        let (mask, sum) = made[set & (set - 1)];
        made[set] = (mask ^ masks[line], sum + (1 << depths[line]));
    }
    let fits = |set: &usize| made[*set].0 == target && made[*set].1 <= 1 << d;
    let first = (1..count).filter(fits).min_by_key(|set| (set.count_ones(), Reverse(set.reverse_bits())))?;
    Some((0..masks.len()).filter(|line| first >> line & 1 == 1).collect())
}

/// The first of the smallest sets by layers: the least sum of 2^depth for each mask, with one more line at a
/// time. Only the shallowest line of each mask is used. A line taken twice cancels and leaves a smaller choice
/// that costs less, so the first layer that reaches the target has a set for it.
fn by_layers(masks: &[u8], depths: &[u8], target: u8, d: u8) -> Option<Vec<usize>> {
    let room = 1u32 << d;
    let lines = shallowest(masks, depths, room);
    let mut layers: Vec<Layer> = Vec::with_capacity(MAX_SIZE);
    let mut sums = [NONE; 256];
    sums[0] = 0;
    loop {
        let reaches = lines.iter().any(|&(mask, cost)| sums[(target ^ mask) as usize] + cost <= room);
        layers.push(sums);
        if reaches {
            return Some(first_set(&layers, masks, depths, target, room));
        }
        if layers.len() == MAX_SIZE {
            return None;
        }
        sums = next_layer(&sums, &lines, room);
    }
}

/// The first of the smallest sets, which have one line more than the last layer's choices: again and again the
/// lowest line, after those taken, beside which some choice of as many lines as are then wanted fits.
///
/// Such a choice may be of any lines, and of one line twice. But with those taken it makes the target within the
/// room by as many lines as a smallest set has, so no two of them have one mask: without the two, which cancel,
/// fewer lines would do. So it is a smallest set, and none of its lines was passed over: the rest of the set
/// fitted beside that line at its turn, and it would have been taken. What is taken therefore always begins a
/// smallest set that goes on with later lines, and goes on with the lowest line that any of these has next.
fn first_set(layers: &[Layer], masks: &[u8], depths: &[u8], target: u8, room: u32) -> Vec<usize> {
    let (mut left, mut room, mut from) = (target, room, 0);
    let mut set = Vec::with_capacity(layers.len());
    for rest in layers.iter().rev() {
        let fits = |(&mask, &depth): (&u8, &u8)| rest[(left ^ mask) as usize] + (1 << depth) <= room;
        let later = masks[from..].iter().zip(&depths[from..]).position(fits);
        let line = from + later.expect("the last layer reaches the target");
        set.push(line);
        (left, room, from) = (left ^ masks[line], room - (1 << depths[line]), line + 1);
    }
    set
}

/// The least cost of each mask that stands in the base within the room.
fn shallowest(masks: &[u8], depths: &[u8], room: u32) -> Vec<(u8, u32)> {
    let mut costs = [NONE; 256];
    for (&mask, &depth) in masks.iter().zip(depths) {
        costs[mask as usize] = costs[mask as usize].min(1 << depth);
    }
    (0..=255u8).map(|mask| (mask, costs[mask as usize])).filter(|line| line.1 <= room).collect()
}

fn next_layer(sums: &Layer, lines: &[(u8, u32)], room: u32) -> Layer {
    let mut next = [NONE; 256];
    for (from, &sum) in sums.iter().enumerate().filter(|layer| *layer.1 <= room) {
        for &(mask, cost) in lines {
            let place = &mut next[from ^ mask as usize];
            *place = (*place).min(sum + cost);
        }
    }
    next
}

#[cfg(test)]
mod tests {
    use super::*;
    use crate::plain::builder::{self as plain, lines_of};
    use crate::rng::Rng;

    /// Least sums of 2^depth, by the size of the set and the mask it sums to.
    type Sums = [Layer; MAX_SIZE + 1];

    fn no_lines() -> Sums {
        let mut sums = [[NONE; 256]; MAX_SIZE + 1];
        sums[0][0] = 0;
        sums
    }

    /// Lets the sets take one line more.
    fn add_line(sums: &mut Sums, mask: u8, depth: u8) {
        for size in (1..=MAX_SIZE).rev() {
            let smaller = sums[size - 1];
            for (with, sum) in sums[size].iter_mut().enumerate() {
                *sum = (*sum).min(smaller[with ^ mask as usize] + (1 << depth)).min(NONE);
            }
        }
    }

    /// For each position, the least sums of the sets of lines from that position on.
    fn sums_from(masks: &[u8], depths: &[u8]) -> Vec<Sums> {
        let mut from = vec![no_lines(); masks.len() + 1];
        for line in (0..masks.len()).rev() {
            let mut sums = from[line + 1];
            add_line(&mut sums, masks[line], depths[line]);
            from[line] = sums;
        }
        from
    }

    /// The smallest set that comes first by tables of sets alone, in which no line repeats, one for each place
    /// from which lines may still be taken.
    fn smallest_set(masks: &[u8], depths: &[u8], target: u8, d: u8) -> Option<Vec<usize>> {
        let (mut left, mut room) = (target as usize, 1u32 << d);
        let from = sums_from(masks, depths);
        let size = (1..=MAX_SIZE).find(|&size| from[0][size][left] <= room)?;
        let mut set = Vec::new();
        for line in 0..masks.len() {
            let (rest, cost) = (left ^ masks[line] as usize, 1u32 << depths[line]);
            let wanted = size - set.len();
            if wanted > 0 && from[line + 1][wanted - 1][rest] + cost <= room {
                set.push(line);
                left = rest;
                room -= cost;
            }
        }
        Some(set)
    }

    fn random_base(rng: &mut Rng, n: u64, lines: u64, deepest: u64) -> (Vec<u8>, Vec<u8>) {
        let masks = (0..lines).map(|_| rng.below(1 << n) as u8).collect();
        let depths = (0..lines).map(|_| rng.below(deepest + 1) as u8).collect();
        (masks, depths)
    }

    /// The lines that the query gives; its gates are one less.
    fn lines(n: u64, masks: &[u8], depths: &[u8], target: u64, d: u64) -> Option<Vec<usize>> {
        let found = distance(n, masks, depths, target, d).unwrap()?;
        assert_eq!(found.gates + 1, found.lines.len() as u64);
        Some(found.lines)
    }

    fn set(lines: &[usize]) -> Option<Vec<usize>> {
        Some(lines.to_vec())
    }

    #[test]
    fn refuses_in_order() {
        let base: &[u8] = &[1, 2];
        let many = [1u8; 257];
        assert_eq!(distance(0, &[], &[1], 0, 16), Err(1));
        assert_eq!(distance(9, &[], &[1], 0, 16), Err(1));
        assert_eq!(distance(2, &[], &[], 0, 16), Err(2));
        assert_eq!(distance(2, &[4, 1], &[0], 0, 16), Err(2));
        assert_eq!(distance(2, &many, &many, 0, 16), Err(2));
        assert_eq!(distance(2, &[4, 1], &[0, 16], 1, 0), Err(8));
        assert_eq!(distance(2, base, &[0, 16], 0, 0), Err(8));
        assert_eq!(distance(2, base, &[0, 16], 4, 0), Err(8));
        assert_eq!(distance(2, base, &[0, 16], u64::MAX, 0), Err(8));
        assert_eq!(distance(2, base, &[0, 16], 3, 0), Err(9));
        assert_eq!(distance(2, base, &[0, 0], 3, 16), Err(9));
        assert_eq!(distance(2, base, &[0, 0], 3, u64::MAX), Err(9));
        assert_eq!(lines(2, base, &[0, 15], 1, 0), set(&[0]));
        assert_eq!(lines(2, base, &[0, 15], 3, 15), None);
        assert_eq!(lines(8, &many[..256], &[0; 256], 1, 0), set(&[0]));
        assert_eq!(lines(8, &many[..256], &[15; 256], 255, 15), None);
    }

    /// A query on this base and on one with zeros after it, which is too long to be searched by subsets.
    fn both(n: u64, masks: &[u8], depths: &[u8], target: u64, d: u64) -> Option<Vec<usize>> {
        let given = lines(n, masks, depths, target, d);
        let longer = [masks, &[0; SMALL_BASE]].concat();
        let deeper = [depths, &[0; SMALL_BASE]].concat();
        assert_eq!(given, lines(n, &longer, &deeper, target, d));
        given
    }

    #[test]
    fn of_equal_sizes_the_first() {
        let masks = [1, 6, 2, 5, 3, 4];
        assert_eq!(both(3, &masks, &[0; 6], 7, 1), set(&[0, 1]));
        // The sets of two are 0 1, 2 3 and 4 5: a line that is too deep, or that leaves too little, is passed over.
        assert_eq!(both(3, &masks, &[3, 0, 0, 0, 0, 0], 7, 2), set(&[2, 3]));
        assert_eq!(both(3, &masks, &[0, 1, 0, 0, 0, 0], 7, 1), set(&[2, 3]));
        assert_eq!(both(3, &masks, &[0, 1, 0, 0, 0, 0], 7, 2), set(&[0, 1]));
        assert_eq!(both(3, &masks, &[0, 1, 1, 1, 0, 0], 7, 1), set(&[4, 5]));
        assert_eq!(both(3, &masks, &[0, 1, 1, 1, 0, 1], 7, 1), None);
        // 1 4 and 2 3: the lower first line decides, whatever the second is.
        assert_eq!(both(3, &[0, 1, 2, 5, 6], &[0; 5], 7, 1), set(&[1, 4]));
        // 0 1 3 and 0 2 4: then the lower second line.
        assert_eq!(both(4, &[1, 2, 4, 8 ^ 1 ^ 2, 8 ^ 1 ^ 4], &[0; 5], 8, 2), set(&[0, 1, 3]));
    }

    #[test]
    fn of_equal_masks_the_first_that_fits() {
        assert_eq!(
            [0, 1, 2].map(|d| both(2, &[3, 3, 3], &[2, 0, 1], 3, d)),
            [set(&[1]), set(&[1]), set(&[0])]
        );
        let masks = [1, 2, 1, 2];
        assert_eq!(both(2, &masks, &[1, 1, 0, 0], 3, 1), set(&[2, 3]));
        assert_eq!(both(2, &masks, &[1, 1, 0, 0], 3, 2), set(&[0, 1]));
        // 0 1 costs 2 + 4, and 0 3 costs 2 + 1: the deep first line is taken and the deep second passed over.
        assert_eq!(both(2, &masks, &[1, 2, 0, 0], 3, 2), set(&[0, 3]));
        // Of 0 1 2, 0 1 4, 0 2 3 and 0 3 4 only the last costs no more than 4.
        assert_eq!(both(3, &[1, 2, 4, 2, 4], &[1, 1, 1, 0, 0], 7, 2), set(&[0, 3, 4]));
        assert_eq!(both(3, &[1, 2, 4, 2, 4], &[1, 1, 1, 0, 0], 7, 3), set(&[0, 1, 2]));
    }

    #[test]
    fn sums_of_zero_are_no_part_of_it() {
        assert_eq!(both(2, &[0, 3, 0], &[0; 3], 3, 4), set(&[1]));
        assert_eq!(both(2, &[0, 1, 1, 0, 2], &[0; 5], 3, 4), set(&[1, 4]));
        assert_eq!(both(2, &[0, 1, 1], &[0; 3], 3, 15), None);
    }

    #[test]
    fn the_last_lines_of_the_longest_base() {
        let mut masks = [0; 256];
        (0..8).for_each(|i| masks[248 + i] = 1 << i);
        assert_eq!(lines(8, &masks, &[0; 256], 255, 3), Some((248..256).collect()));
        assert_eq!(lines(8, &masks, &[0; 256], 255, 2), None);
        assert_eq!(lines(8, &masks, &[0; 256], 128, 0), set(&[255]));
    }

    #[test]
    fn all_ways_agree_on_short_bases() {
        let (mut rng, mut ties) = (Rng::new(2), 0);
        for _ in 0..3000 {
            let n = rng.between(1, 8);
            let (lines, deepest) = (rng.between(1, 10), rng.below(5));
            let (masks, depths) = random_base(&mut rng, n, lines, deepest);
            let (target, d) = (rng.between(1, (1 << n) - 1) as u8, rng.below(8) as u8);
            let given = by_subsets(&masks, &depths, target, d);
            assert_eq!(given, by_layers(&masks, &depths, target, d), "{masks:?} {depths:?} {target} {d}");
            assert_eq!(given, smallest_set(&masks, &depths, target, d), "{masks:?} {depths:?} {target} {d}");
            let plain = plain::smallest_set(&lines_of(&masks, &depths), target, d);
            assert_eq!(given, plain, "{masks:?} {depths:?} {target} {d}");
            ties += given.is_some_and(|set| has_another(&masks, &depths, target, d, &set)) as usize;
        }
        assert!(ties > 300, "{ties} sets with another of their size");
    }

    /// Whether there is another set of this size. It lacks some line of this one.
    fn has_another(masks: &[u8], depths: &[u8], target: u8, d: u8, set: &[usize]) -> bool {
        set.iter().any(|&line| {
            let mut without = masks.to_vec();
            without[line] = 0;
            by_layers(&without, depths, target, d).is_some_and(|other| other.len() == set.len())
        })
    }

    #[test]
    fn all_ways_agree_on_longer_bases() {
        let mut rng = Rng::new(3);
        for _ in 0..400 {
            let n = rng.between(1, 6);
            let lines = rng.between(1, 18);
            let (masks, depths) = random_base(&mut rng, n, lines, 3);
            let (target, d) = (rng.between(1, (1 << n) - 1) as u8, rng.below(6) as u8);
            let plain = plain::smallest_set(&lines_of(&masks, &depths), target, d);
            assert_eq!(by_layers(&masks, &depths, target, d), plain, "{masks:?} {depths:?} {target} {d}");
            assert_eq!(smallest_set(&masks, &depths, target, d), plain, "{masks:?} {depths:?} {target} {d}");
        }
    }

    /// Bases of up to 256 lines, masks of a few values or any, so that sets have from one line to eight.
    #[test]
    fn layers_and_tables_agree_on_long_bases() {
        let (mut rng, mut sizes) = (Rng::new(5), [0; MAX_SIZE + 1]);
        for round in 0..600 {
            let (n, lines, deepest) = (rng.between(4, 8), rng.between(11, 256), rng.below(16));
            let (mut masks, depths) = random_base(&mut rng, n, lines, deepest);
            if round % 4 > 0 {
                let few = rng.between(n - 2, n + 4);
                let (pool, _) = random_base(&mut rng, n, few, 0);
                masks.fill_with(|| pool[rng.below(few) as usize]);
            }
            let (target, d) = (rng.between(1, (1 << n) - 1) as u8, rng.below(16) as u8);
            let given = by_layers(&masks, &depths, target, d);
            assert_eq!(given, smallest_set(&masks, &depths, target, d), "{masks:?} {depths:?} {target} {d}");
            sizes[given.map_or(0, |set| set.len())] += 1;
        }
        assert!(sizes[..6].iter().all(|&times| times > 10), "none and the sizes from 1: {sizes:?}");
    }

    #[test]
    fn agrees_with_all_programs() {
        let mut rng = Rng::new(4);
        for _ in 0..300 {
            let n = rng.between(1, 4);
            let lines = rng.between(1, 5);
            let (masks, depths) = random_base(&mut rng, n, lines, 2);
            let (target, d) = (rng.between(1, (1 << n) - 1), rng.below(5));
            let base = lines_of(&masks, &depths);
            let plain = plain::distance_by_programs(&base, target as u8, d as u8, 3);
            let given = distance(n, &masks, &depths, target, d).unwrap().map(|found| found.gates);
            assert_eq!(given.filter(|&gates| gates < 4), plain, "{base:?} {target} {d}");
        }
    }
}
