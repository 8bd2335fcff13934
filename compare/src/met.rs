//! What a comparison met: how often each call gave each kind of answer. A comparison says nothing of a refusal or a verdict
//! that it never met, so a test fails there. `cargo test -- --nocapture` shows the counts.

use std::collections::BTreeMap;
use std::fmt;

use crate::calls::Present;
use crate::found::Found;
use crate::swept::{self, OF_A_GATE, OF_A_SWEEP};
use allpawasi::Verdict;
use reference::circuit::{check_gate, MAX_GATES, NOT, XNOR};
use reference::examine::{examine, work, Target, Verdict as TheirVerdict};
use reference::listing;

/// The kinds of answer that are told apart.
#[derive(Clone, Debug, PartialEq, Eq, PartialOrd, Ord)]
pub enum Kind {
    Done,
    Says(String),
    Refused(usize),
}

impl fmt::Display for Kind {
    fn fmt(&self, f: &mut fmt::Formatter) -> fmt::Result {
        match self {
            Kind::Done => write!(f, "done"),
            Kind::Says(words) => write!(f, "{words}"),
            Kind::Refused(number) => write!(f, "refused {number}"),
        }
    }
}

/// The verdicts by name, `wrong` first.
pub const VERDICTS: [&str; 5] = ["wrong", "over-gates", "over-depth", "over-anddepth", "pass"];

/// The name of a verdict.
pub fn verdict(verdict: &Verdict) -> Kind {
    let name = match verdict {
        Verdict::Wrong { .. } => VERDICTS[0],
        Verdict::OverGates => VERDICTS[1],
        Verdict::OverDepth => VERDICTS[2],
        Verdict::OverAndDepth => VERDICTS[3],
        Verdict::Pass => VERDICTS[4],
    };
    Kind::Says(name.to_string())
}

/// What a report left out, since no output names it: a line deeper than the circuit, one of a greater AND depth, and a verdict that
/// such lines would have changed.
pub const LEFT_OUT: [&str; 5] =
    ["depth", "AND depth", "pass, not over-depth", "pass, not over-anddepth", "over-anddepth, not over-depth"];

/// What an append to a full list would be refused for if there were room, and what one is that is done.
pub const APPENDED: [&str; 6] =
    ["full, else done", "full, else refused 4", "full, else refused 5", "full, else refused 7", "in room of a sweep", "the last"];

/// Why there is no row for a hint, and where the number of a line is not its place in the base: lines that are deeper than 15 stand
/// before others, or before one that is answered. Then what is so of constants: a row or a line that is answered has one, or the row
/// has nothing else, with a depth that would be refused too.
pub const HINTED: [&str; 7] = [
    "no rows, a table",
    "no such row",
    "past lines too deep",
    "past lines too deep, and answered",
    "a row of constant 1",
    "a line of constant 1, and answered",
    "mask 0, and D above 15",
];

/// What a verdict under a matrix comes from: at input value 0 only constants can differ.
pub const UNDER_A_MATRIX: [&str; 7] = [
    "wrong by a constant",
    "wrong by a mask",
    "right, a constant 1",
    "right, a mask 0 of constant 0",
    "right, a mask 0 of constant 1",
    "right, an XNOR",
    "right, a NOT",
];

/// What is wrong with a target that is refused.
pub const REFUSED_TARGET: [&str; 5] = ["a matrix without constants", "a matrix of another length", "a mask", "a constant", "a table"];

/// What an entry edit is that names an entry: done under a matrix, or refused there or under a table.
pub const ENTERED: [&str; 7] = [
    "done, a constant 1",
    "done, a mask 0",
    "done, the constant alone another",
    "refused for a row's constant",
    "refused for a table's constant",
    "refused for its value",
    "refused for its value and its constant",
];

/// A distance that was found, or that there is none.
pub fn gates(found: &Option<Found>) -> Kind {
    Kind::Says(found.as_ref().map_or("none".to_string(), |found| found.0.to_string()))
}

/// How often each call gave each kind of answer, and the room that a sweep of a full list made and no append took since.
#[derive(Default)]
pub struct Met {
    times: BTreeMap<&'static str, BTreeMap<Kind, usize>>,
    room: usize,
}

impl Met {
    pub fn count(&mut self, call: &'static str, kind: Kind) {
        self.add(call, kind, 1);
    }

    fn add(&mut self, call: &'static str, kind: Kind, times: usize) {
        *self.times.entry(call).or_default().entry(kind).or_default() += times;
    }

    pub fn say(&mut self, call: &'static str, words: &str, times: usize) {
        if times > 0 {
            self.add(call, Kind::Says(words.to_string()), times);
        }
    }

    /// Counts an answer by what is said of it where the call is done, or by its refusal.
    pub fn answer<T>(&mut self, call: &'static str, answer: &Result<T, usize>, done: impl Fn(&T) -> Kind) {
        self.count(call, answer.as_ref().map_or_else(|number| Kind::Refused(*number), done));
    }

    /// Counts what a report of this leaves out.
    pub fn left_out(&mut self, call: &'static str, (c, target, limits): &Present) {
        let (lines, report) = (work(c), examine(c, target, limits));
        let every: Vec<u8> = (0..c.lines()).map(|line| line as u8).collect();
        let (depth, and_depth) = (lines.depth(&every), lines.and_depth(&every));
        if depth > report.depth {
            self.count(call, Kind::Says(LEFT_OUT[0].to_string()));
        }
        if and_depth > report.and_depth {
            self.count(call, Kind::Says(LEFT_OUT[1].to_string()));
        }
        let over_all = match report.verdict {
            TheirVerdict::Pass | TheirVerdict::OverAndDepth if depth > limits.depth => TheirVerdict::OverDepth,
            TheirVerdict::Pass if and_depth > limits.and_depth => TheirVerdict::OverAndDepth,
            verdict => verdict,
        };
        if over_all != report.verdict {
            let words = [&report.verdict, &over_all].map(listing::verdict);
            self.count(call, Kind::Says(words.join(", not ")));
        }
    }

    /// Counts what a sweep of this met: what became of each gate, and of the verdict, which a sweep changes only where there were
    /// too many gates. The counts are those of the gates that are kept.
    pub fn swept(&mut self, before: &Present, after: &Present) {
        let meets = swept::meets(&before.0);
        assert_eq!(meets.gates[1], after.0.gates.len(), "gates kept of {:?}", before.0);
        OF_A_GATE.iter().zip(meets.gates).for_each(|(words, times)| self.say("a gate swept", words, times));
        OF_A_SWEEP.iter().zip(meets.sweep).for_each(|(words, so)| self.say("a sweep", words, so as usize));
        let [from, to] = [before, after].map(|(c, target, limits)| listing::verdict(&examine(c, target, limits).verdict));
        if from != to {
            assert_eq!(from, VERDICTS[1], "a sweep makes it {to}");
            self.say("over-gates, and swept", &to, 1);
        }
        self.room = if meets.sweep[4] { before.0.gates.len() - after.0.gates.len() } else { 0 };
    }

    /// Counts an append to this, whatever it is answered.
    pub fn appended(&mut self, (c, target, _): &Present, numbers: [usize; 3]) {
        let [kind, a, b] = numbers.map(|number| number as u64);
        let gate = check_gate(target.linear_only(), c.lines() as u64, kind, a, b);
        let (most, g) = (MAX_GATES as usize, c.gates.len());
        let full = gate.map_or_else(|number| format!("full, else refused {number}"), |()| APPENDED[0].to_string());
        self.say("an append", &full, (g == most) as usize);
        if g < most && gate.is_ok() {
            self.say("an append", APPENDED[4], (self.room > 0) as usize);
            self.say("an append", APPENDED[5], (g + 1 == most) as usize);
            self.room = self.room.saturating_sub(1);
        }
    }

    /// Counts a hint on this: how far the row is, or that there is none, and what is so of constants and of the lines' numbers.
    pub fn hinted(&mut self, (c, target, _): &Present, [j, d]: [usize; 2], answer: &Result<Option<Found>, usize>) {
        self.say("a hint", HINTED[target.linear_only() as usize], (*answer == Err(12)) as usize);
        self.say("a hint", HINTED[6], (*answer == Err(8) && d > 15) as usize);
        let Ok(found) = answer else { return };
        self.count("a hint", gates(found));
        let (lines, constant) = (work(c), target.bytes()[target.entries() + j]);
        let has_one = |found: &Found| found.1.iter().any(|&line| lines.value(line.into(), 0));
        self.say("a hint", HINTED[4], constant.into());
        self.say("a hint", HINTED[5], found.as_ref().is_some_and(has_one) as usize);
        let depths = &lines.depths;
        let Some(deep) = depths.iter().position(|&depth| depth > 15) else { return };
        self.say("a hint", HINTED[2], depths[deep..].iter().any(|&depth| depth <= 15) as usize);
        let answered = |found: &Found| found.1.iter().any(|&line| line as usize > deep);
        self.say("a hint", HINTED[3], found.as_ref().is_some_and(answered) as usize);
    }

    /// Counts what a verdict under a matrix comes from, or which rows and gates are right.
    pub fn under_a_matrix(&mut self, (c, target, _): &Present, verdict: &TheirVerdict) {
        let Target::Matrix { masks, constants } = target else { return };
        let has_row = |mask: u8, constant: u8| masks.iter().zip(constants).any(|row| row == (&mask, &constant));
        let has_gate = |kind: u8| c.gates.iter().any(|gate| gate.kind == kind);
        let so = match verdict {
            TheirVerdict::Wrong { input, .. } => [*input == 0, *input > 0, false, false, false, false, false],
            _ => [false, false, constants.contains(&1), has_row(0, 0), has_row(0, 1), has_gate(XNOR), has_gate(NOT)],
        };
        UNDER_A_MATRIX.iter().zip(so).for_each(|(words, so)| self.say("under a matrix", words, so as usize));
    }

    /// Counts what is wrong with a target that was refused with these stored bytes, whose records are sound.
    pub fn refused_target(&mut self, stored: &[u8], target: &Target) {
        let (n, m) = (stored[2], stored[3] as usize);
        let words = match target {
            Target::Table(_) => REFUSED_TARGET[4],
            Target::Matrix { .. } if target.bytes().len() == m => REFUSED_TARGET[0],
            Target::Matrix { masks, constants } if masks.len() != m || constants.len() != m => REFUSED_TARGET[1],
            Target::Matrix { masks, .. } if masks.iter().any(|&mask| u32::from(mask) >= 1 << n) => REFUSED_TARGET[2],
            Target::Matrix { .. } => REFUSED_TARGET[3],
        };
        self.say("a target refused", words, 1);
    }

    /// Counts an entry edit of this, whatever it is answered.
    pub fn entered(&mut self, (c, target, _): &Present, [i, value, constant]: [usize; 3]) {
        let (entries, matrix, bytes) = (target.entries(), target.linear_only(), target.bytes());
        if i >= entries {
            return;
        }
        let value_fits = value < 1 << if matrix { c.n.into() } else { c.outs.len() };
        let (constant_fits, is_row) = (constant <= matrix as usize, matrix && value_fits && constant <= 1);
        let so = [
            is_row && constant == 1,
            is_row && value == 0,
            is_row && value == bytes[i].into() && constant != bytes[entries + i].into(),
            value_fits && !constant_fits && matrix,
            value_fits && !constant_fits && !matrix,
            !value_fits && constant_fits,
            !value_fits && !constant_fits,
        ];
        ENTERED.iter().zip(so).for_each(|(words, so)| self.say("an entry", words, so as usize));
    }

    /// Another circuit is open: the room that a sweep made was not in this one.
    pub fn opened(&mut self) {
        self.room = 0;
    }

    fn times(&self, call: &str, kind: &Kind) -> usize {
        self.times.get(call).and_then(|kinds| kinds.get(kind)).copied().unwrap_or(0)
    }

    /// A line for each call.
    pub fn show(&self, title: &str) {
        println!("{title}:");
        for (call, kinds) in &self.times {
            let list: Vec<String> = kinds.iter().map(|(kind, times)| format!("{kind} {times}")).collect();
            println!("  {call}: {}", list.join(", "));
        }
    }

    /// The call was refused with each of these numbers, and with no other.
    pub fn refused(&self, call: &str, numbers: &[usize]) {
        let of = |kind: &Kind| if let Kind::Refused(number) = kind { Some(*number) } else { None };
        let met: Vec<usize> = self.times.get(call).into_iter().flat_map(|kinds| kinds.keys().filter_map(of)).collect();
        assert_eq!(met, numbers, "the refusals that {call} met, and those it should meet");
    }

    /// The call was done too.
    pub fn done_and_refused(&self, call: &str, numbers: &[usize]) {
        let done = |kind: &Kind| !matches!(kind, Kind::Refused(_));
        assert!(self.times.get(call).is_some_and(|kinds| kinds.keys().any(done)), "{call} was never done");
        self.refused(call, numbers);
    }

    /// The end of a comparison of one call: what was met, and that it was done, and refused with just these numbers.
    pub fn ends(&self, title: &str, call: &str, numbers: &[usize]) {
        self.show(title);
        self.done_and_refused(call, numbers);
    }

    /// The end of a comparison that met each answer many times: the call was done, and refused with each of these numbers,
    /// so often at least, and refused with no other.
    pub fn ends_often(&self, title: &str, call: &str, numbers: &[usize], least: usize) {
        self.ends(title, call, numbers);
        for kind in numbers.iter().map(|number| Kind::Refused(*number)).chain([Kind::Done]) {
            let times = self.times(call, &kind);
            assert!(times >= least, "{call}: {kind} {times} times, not {least}");
        }
    }

    /// The call said each of these.
    pub fn said(&self, call: &str, words: &[&str]) {
        self.said_at_least(call, words, 1);
    }

    /// The call said each of these so often at least.
    pub fn said_at_least(&self, call: &str, words: &[&str], least: usize) {
        for word in words {
            let times = self.times(call, &Kind::Says(word.to_string()));
            assert!(times >= least, "{call} said {word} {times} times, not {least}");
        }
    }

    /// Each verdict is a tenth of the answers to a report at least.
    pub fn verdicts(&self) {
        let reports: usize = self.times["report"].values().sum();
        self.said_at_least("report", &VERDICTS, reports.div_ceil(10));
    }

    /// Each thing that may become of a gate, of a verdict and of a sweep was so often at least.
    pub fn sweeps(&self, least: usize) {
        self.said_at_least("a gate swept", &OF_A_GATE, least);
        self.said_at_least("a sweep", &OF_A_SWEEP, least);
        self.said_at_least("over-gates, and swept", &VERDICTS[2..], least);
    }

    /// Hints found each number of gates below this, found none, and met the rest, so often at least.
    pub fn hints(&self, gates: usize, least: usize) {
        let found: Vec<String> = (0..gates).map(|gates| gates.to_string()).collect();
        let found: Vec<&str> = found.iter().map(String::as_str).chain(["none"]).collect();
        self.said_at_least("a hint", &found, least);
        self.said_at_least("a hint", &HINTED, least);
    }

    /// Rows with constants were right and wrong, refused, and edited, each in all its ways, so often at least.
    pub fn constants(&self, least: usize) {
        self.said_at_least("under a matrix", &UNDER_A_MATRIX, least);
        self.said_at_least("a target refused", &REFUSED_TARGET, least);
        self.said_at_least("an entry", &ENTERED, least);
    }

    /// Each call on a bench was refused with each of its numbers, and each verdict was given often.
    pub fn whole_bench(&self) {
        self.done_and_refused("open", &[1, 2, 3, 4, 5, 6, 7, 8]);
        self.done_and_refused("gate", &[4, 5, 7, 12, 13]);
        self.done_and_refused("append", &[4, 5, 7, 13, 18]);
        self.done_and_refused("sweep", &[13]);
        self.done_and_refused("output", &[6, 12, 13]);
        self.done_and_refused("entry", &[8, 12, 13]);
        self.done_and_refused("limits", &[13]);
        self.done_and_refused("hint", &[8, 9, 12, 13]);
        self.done_and_refused("store", &[11, 13]);
        self.done_and_refused("report", &[13]);
        self.verdicts();
    }
}
