//! The distance query: refusals, none, the fewest gates and the lines of the smallest set that comes first, on small and large bases.

use compare::found::{Found, Query, OF_A_SET};
use compare::met::{gates, Met};
use reference::rng::Rng;

/// Both on the same query. Of a set that is found, what is remarkable is counted.
fn compare(met: &mut Met, query: &Query) {
    let answer = query.ours();
    assert_eq!(answer, query.theirs(), "{query:?}");
    as_in_c(query, &answer);
    met.answer("distance", &answer, gates);
    if let Ok(Some(found)) = &answer {
        query.remark(met, found);
    }
}

/// An answer as programs in C get it.
#[repr(C)]
struct InC {
    code: u64,
    count: usize,
    lines: [u16; 8],
}

extern "C" {
    fn allpawasi_distance(n: usize, masks: *const u8, k: usize, depths: *const u8, l: usize, target: usize, d: usize) -> InC;
}

/// The numbers in C say the same, and no line stands past the last.
fn as_in_c(query: &Query, answer: &Result<Option<Found>, usize>) {
    let Query { n, masks, depths, target, d } = query;
    let in_c = unsafe { allpawasi_distance(*n, masks.as_ptr(), masks.len(), depths.as_ptr(), depths.len(), *target, *d) };
    let (code, mut lines) = match answer {
        Ok(Some((gates, lines))) => (*gates, lines.clone()),
        Ok(None) => (99, Vec::new()),
        Err(number) => (100 + number, Vec::new()),
    };
    assert_eq!((in_c.code, in_c.count), (code as u64, lines.len()), "{query:?}");
    lines.resize(8, 0);
    assert_eq!(in_c.lines[..], lines, "{query:?}");
}

#[test]
fn the_examples() {
    let ask = |masks: &[u8], target, d| {
        let query = Query { n: 4, masks: masks.to_vec(), depths: vec![0, 0, 0, 0, 2], target, d };
        query.ours().expect("it is sound")
    };
    let found = |gates, lines: &[u16]| Some((gates, lines.to_vec()));
    let (k6, k7) = ([found(1, &[3, 4]), found(3, &[0, 1, 2, 3]), None], [found(1, &[3, 4]), found(2, &[0, 1, 2]), None]);
    assert_eq!([3, 2, 1].map(|d| ask(&[1, 2, 4, 8, 7], 15, d)), k6);
    assert_eq!([3, 2, 1].map(|d| ask(&[1, 2, 4, 8, 15], 7, d)), k7);
}

/// A query on so many lines: masks over few or many inputs, zeros and repeats among them, depths that bind or do not.
fn query(rng: &mut Rng, n: usize, lines: usize) -> Query {
    let top = [1, 3, 15][rng.below(3) as usize];
    let pool: Vec<u8> = (0..8).map(|_| rng.below(1 << n) as u8).collect();
    let few = rng.once_in(3);
    let masks = (0..lines).map(|_| if few { pool[rng.below(8) as usize] } else { rng.below(1 << n) as u8 }).collect();
    let depths = (0..lines).map(|_| rng.below(top + 1) as u8).collect();
    let d = if rng.once_in(2) { rng.below(16) } else { rng.below(top + 3).min(15) };
    Query { n, masks, depths, target: rng.between(1, (1 << n) - 1) as usize, d: d as usize }
}

#[test]
fn random_queries() {
    let (mut rng, mut met) = (Rng::new(3), Met::default());
    for round in 0..24_000 {
        let lines = match rng.below(10) {
            0..=6 => rng.between(1, 14),
            7 | 8 => rng.between(15, 60),
            _ => rng.between(61, 256),
        };
        compare(&mut met, &query(&mut rng, 1 + round % 8, lines as usize));
    }
    met.ends("random distances", "distance", &[]);
    met.said("distance", &["none", "0", "1", "2", "3", "4", "5", "6"]);
    met.said_at_least("a set", &OF_A_SET, 300);
}

/// Each set of lines of a base that makes the target, its lines ascending: those within the depth, and those that are too deep.
fn all_sets(query: &Query) -> (Vec<Vec<u16>>, Vec<Vec<u16>>) {
    let lines = |set: u32| (0..query.masks.len()).filter(move |line| set >> line & 1 == 1);
    let makes = |set: &u32| lines(*set).fold(0, |sum, line| sum ^ query.masks[line]) as usize == query.target;
    let sets = (1..1 << query.masks.len()).filter(makes).map(|set| lines(set).map(|line| line as u16).collect());
    let load = |set: &Vec<u16>| set.iter().map(|&line| 1 << query.depths[line as usize]).sum::<u32>();
    sets.partition(|set| load(set) <= 1 << query.d)
}

/// No set that fits is smaller than the one that is answered, and none of its size comes before it, here by all sets; where none is
/// answered none fits. This asks nothing of the independent program.
#[test]
fn of_all_sets_the_smallest_and_first() {
    let (mut rng, mut met) = (Rng::new(9), Met::default());
    for round in 0..4_000 {
        let lines = rng.between(3, 10);
        let query = query(&mut rng, 1 + round % 8, lines as usize);
        let (answer, (fitting, too_deep)) = (query.ours().expect("it is sound"), all_sets(&query));
        met.count("distance", gates(&answer));
        let Some((gates, lines)) = answer else {
            assert!(fitting.is_empty(), "{query:?} has {fitting:?}");
            continue;
        };
        assert!(fitting.contains(&lines) && gates + 1 == lines.len(), "{query:?} is answered {gates} and {lines:?}");
        let comes_before = |set: &&Vec<u16>| (set.len(), *set) < (lines.len(), &lines);
        assert_eq!(fitting.iter().find(comes_before), None, "{query:?} is answered {lines:?}");
        let of_its_size = fitting.iter().filter(|set| set.len() == lines.len()).count();
        let so = [of_its_size == 1, of_its_size > 1, of_its_size > 4, too_deep.iter().any(|set| comes_before(&set))];
        OF_ALL_SETS.iter().zip(so).for_each(|(words, so)| met.say("of all sets", words, so as usize));
    }
    met.ends("all sets of small bases", "distance", &[]);
    met.said_at_least("distance", &["none", "0", "1", "2", "3"], 50);
    met.said_at_least("of all sets", &OF_ALL_SETS, 50);
}

/// What may be so of the set that is answered, among all.
const OF_ALL_SETS: [&str; 4] =
    ["the only one of its size", "the first of its size", "the first of five and more", "others before it, too deep"];

#[test]
fn refusals_in_their_order() {
    let (mut rng, mut met) = (Rng::new(4), Met::default());
    let wide = [0, 1, 7, 8, 9, 15, 16, 255, 256, 257, 300, usize::MAX];
    for _ in 0..20_000 {
        let pick = |rng: &mut Rng| wide[rng.below(wide.len() as u64) as usize];
        let n = if rng.once_in(3) { pick(&mut rng) } else { rng.between(1, 8) as usize };
        let count = [0, 1, 5, 255, 256, 257][rng.below(6) as usize];
        let uneven = if rng.once_in(4) { 1 } else { 0 };
        let high = if rng.once_in(3) { 256 } else { 1 << n.clamp(1, 8) };
        let deep = if rng.once_in(3) { 18 } else { 16 };
        let masks: Vec<u8> = (0..count).map(|_| rng.below(high) as u8).collect();
        let depths: Vec<u8> = (0..count + uneven).map(|_| rng.below(deep) as u8).collect();
        let (target, d) = (pick(&mut rng), pick(&mut rng));
        compare(&mut met, &Query { n, masks, depths, target, d });
    }
    met.ends("refusals of a distance", "distance", &[1, 2, 8, 9]);
}

/// Bases on which a search without its table would take exponential time.
#[test]
fn hard_bases() {
    let mut met = Met::default();
    let none: (Vec<u8>, Vec<u8>) = ((0..256).map(|_| 254).collect(), vec![0; 256]);
    let hyperplane: (Vec<u8>, Vec<u8>) = ((0..128).map(|i| i as u8 * 2).collect(), vec![3; 128]);
    let all: (Vec<u8>, Vec<u8>) = ((1..=255).collect(), (0..255).map(|i| (i * 7 % 16) as u8).collect());
    for (masks, depths) in [none, hyperplane, all] {
        for target in [1, 2, 85, 255] {
            for d in 0..16 {
                compare(&mut met, &Query { n: 8, masks: masks.clone(), depths: depths.clone(), target, d });
            }
        }
    }
    met.ends("hard bases", "distance", &[]);
    met.said("distance", &["none", "0", "1"]);
}

/// Eight lines that just fit, at each place of the longest base: equal ones before them are too deep, and equal ones after them later.
#[test]
fn eight_lines_at_each_place() {
    let mut met = Met::default();
    for first in 0..=248 {
        let masks: Vec<u8> = (0..256).map(|line| 1 << ((line + 8 - first % 8) % 8)).collect();
        let depths = (0..256).map(|line| if line < first { 1 + (line % 15) as u8 } else { 0 }).collect();
        let query = Query { n: 8, masks, depths, target: 255, d: 3 };
        assert_eq!(query.ours(), Ok(Some((7, (first as u16..first as u16 + 8).collect()))), "{query:?}");
        compare(&mut met, &query);
    }
    met.ends("eight lines at each place", "distance", &[]);
    met.said_at_least("distance", &["7"], 249);
    met.said_at_least("a set", &OF_A_SET[..2], 200);
}
