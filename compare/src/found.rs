//! Distances of both sides in one form, queries, and what is remarkable about the set of lines that one finds.

use crate::met::Met;
use allpawasi::Distance;
use reference::distance::{distance, Distance as TheirDistance};

/// The gates, and the numbers of the lines.
pub type Found = (usize, Vec<u16>);

/// Our answer.
pub fn ours(answer: Result<Option<Distance>, usize>) -> Result<Option<Found>, usize> {
    answer.map(|found| found.map(|found| (found.gates(), found.lines().to_vec())))
}

/// The independent program's answer.
pub fn theirs(answer: Result<Option<TheirDistance>, u8>) -> Result<Option<Found>, usize> {
    let numbers = |lines: Vec<usize>| lines.into_iter().map(|line| line as u16).collect();
    answer.map(|found| found.map(|found| (found.gates as usize, numbers(found.lines)))).map_err(usize::from)
}

/// A set of lines as an answer.
pub fn of_set(set: Vec<usize>) -> Found {
    (set.len() - 1, set.into_iter().map(|line| line as u16).collect())
}

/// What may be remarkable about the set that is found: the first four tell it from others that might be answered in its place.
pub const OF_A_SET: [&str; 8] = [
    "another of its size",
    "one of its size before it, too deep",
    "a smaller one, too deep",
    "an equal mask before one of its lines",
    "an equal mask after one of its lines",
    "a sum of nothing before its last line",
    "a line deeper than D before its last line",
    "its last line the last of the base",
];

/// A query with its numbers and lists as they are given.
#[derive(Clone, Debug)]
pub struct Query {
    pub n: usize,
    pub masks: Vec<u8>,
    pub depths: Vec<u8>,
    pub target: usize,
    pub d: usize,
}

impl Query {
    pub fn ours(&self) -> Result<Option<Found>, usize> {
        ours(allpawasi::distance(self.n, &self.masks, &self.depths, self.target, self.d))
    }

    pub fn theirs(&self) -> Result<Option<Found>, usize> {
        theirs(distance(self.n as u64, &self.masks, &self.depths, self.target as u64, self.d as u64))
    }

    /// Counts each of `OF_A_SET` that is so of the set that is found.
    pub fn remark(&self, met: &mut Met, found: &Found) {
        OF_A_SET.iter().zip(self.remarks(found)).for_each(|(words, so)| met.say("a set", words, so as usize));
    }

    fn remarks(&self, found: &Found) -> [bool; 8] {
        let shallow = self.shallow().expect("a set is found though depths bind");
        let lines: Vec<usize> = found.1.iter().map(|&line| line.into()).collect();
        let (masks, last) = (&self.masks, lines[lines.len() - 1]);
        [
            self.has_another(found),
            shallow != *found && shallow.0 == found.0,
            shallow.0 < found.0,
            lines.iter().any(|&line| masks[..line].contains(&masks[line])),
            lines.iter().any(|&line| masks[line + 1..].contains(&masks[line])),
            masks[..last].contains(&0),
            self.depths[..last].iter().any(|&depth| depth as usize > self.d),
            last + 1 == masks.len(),
        ]
    }

    /// What is found where no depth binds.
    fn shallow(&self) -> Option<Found> {
        let shallow = Query { depths: vec![0; self.depths.len()], d: 15, ..self.clone() };
        shallow.theirs().expect("a query that is not refused")
    }

    /// Whether there is another set of this size. It lacks some line of this one, which is made a sum of nothing here.
    fn has_another(&self, (gates, set): &Found) -> bool {
        set.iter().any(|&line| {
            let mut without = self.clone();
            without.masks[line as usize] = 0;
            without.theirs().expect("a query that is not refused").is_some_and(|other| other.0 == *gates)
        })
    }
}
