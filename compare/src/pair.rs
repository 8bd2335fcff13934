//! Both benches side by side: each call is made on both, and answers, rooms, reports and what is held must be the same.

use crate::calls::Call;
use crate::found::{self, Found};
use crate::met::{self, Kind, Met};
use allpawasi::{Bench, Limits, Report, Verdict, Words};
use reference::bench::Bench as Reference;
use reference::circuit::write;
use reference::examine::{Limits as TheirLimits, Report as TheirReport, Target, Verdict as TheirVerdict};
use std::fmt::Debug;

/// The opens that are refused before their shape is looked at, which are counted apart: 2 and 3 are given again after it.
pub const SHAPELESS: &str = "open without a shape";

/// Both benches, and what their calls met.
#[derive(Default)]
pub struct Pair {
    pub ours: Bench,
    pub theirs: Reference,
    pub met: Met,
}

fn widen<T>(answer: Result<T, u8>) -> Result<T, usize> {
    answer.map_err(usize::from)
}

fn lines(answer: Result<Vec<usize>, u8>) -> Result<Vec<u16>, usize> {
    widen(answer).map(|list| list.into_iter().map(|line| line as u16).collect())
}

/// The independent program's limits, from ours.
pub fn their_limits(limits: Limits) -> TheirLimits {
    TheirLimits { gates: limits.gates, depth: limits.depth, and_depth: limits.and_depth }
}

/// Our limits, from the independent program's.
fn our_limits(limits: &TheirLimits) -> Limits {
    Limits { gates: limits.gates, depth: limits.depth, and_depth: limits.and_depth }
}

/// An open on our bench.
fn open(bench: &mut Bench, bytes: &[u8], target: &Target, limits: Limits) -> Result<(), usize> {
    match target {
        Target::Matrix { .. } => bench.open_matrix(bytes, &target.bytes(), limits),
        Target::Table(entries) => bench.open_table(bytes, entries, limits),
    }
}

/// Our report, from the independent program's.
pub fn our_report(report: TheirReport) -> Report {
    Report {
        gates: report.gates.into(),
        xors: report.xors.into(),
        nonlinear: report.nonlinear.into(),
        nots: report.nots.into(),
        depth: report.depth.into(),
        and_depth: report.and_depth.into(),
        verdict: match report.verdict {
            TheirVerdict::Wrong { input, output } => Verdict::Wrong { input: input.into(), output: output.into() },
            TheirVerdict::OverGates => Verdict::OverGates,
            TheirVerdict::OverDepth => Verdict::OverDepth,
            TheirVerdict::OverAndDepth => Verdict::OverAndDepth,
            TheirVerdict::Pass => Verdict::Pass,
        },
    }
}

/// The value on one input value, out of the words held for a line.
pub fn value(words: &Words, x: usize) -> bool {
    words.0[x / 64] >> (x % 64) & 1 == 1
}

/// The bits of the first 2^n input values in which two lines' words differ.
fn differing(n: u8, words: &[u64; 4], other: &[u64; 4]) -> u64 {
    let counted = (1u32 << n).min(64);
    let places = (1usize << n).div_ceil(64);
    let differ = |at: usize| (words[at] ^ other[at]) << (64 - counted);
    (0..places).map(differ).fold(0, |all, bits| all | bits)
}

impl Pair {
    /// Nothing is open any more; what was met is kept.
    pub fn clear(&mut self) {
        (self.ours, self.theirs) = (Bench::new(), Reference::new());
        self.met.opened();
    }

    /// One call on both.
    pub fn make(&mut self, call: &Call) {
        match call {
            Call::Open(bytes, target, limits) => self.open(bytes, target, *limits),
            Call::Gate(numbers) => drop(self.replace_gate(*numbers)),
            Call::Append(numbers) => drop(self.append_gate(*numbers)),
            Call::Sweep => drop(self.sweep()),
            Call::Output([j, line]) => drop(self.point_output(*j, *line)),
            Call::Entry(numbers) => drop(self.change_entry(*numbers)),
            Call::Limits(limits) => self.set_limits(*limits),
            Call::Hint(numbers) => drop(self.hint(*numbers)),
            Call::Store(length) => self.store(*length),
        }
    }

    /// A call with these words on both benches. The answers are the same; they are counted. A call to be refused leaves every number
    /// on our bench as it was, also those past the last line.
    fn both<T: PartialEq + Debug>(
        &mut self,
        call: &'static str,
        words: impl Debug,
        ours: impl FnOnce(&mut Bench) -> Result<T, usize>,
        theirs: impl FnOnce(&mut Reference) -> Result<T, usize>,
    ) -> Result<T, usize> {
        let expected = theirs(&mut self.theirs);
        let before = expected.is_err().then(|| self.ours.clone());
        let answer = ours(&mut self.ours);
        assert_eq!(answer, expected, "{call} {words:02X?}");
        assert!(before.is_none_or(|before| self.ours == before), "{call} {words:02X?} is refused and changes the bench");
        self.met.answer(call, &answer, |_| Kind::Done);
        answer
    }

    pub fn open(&mut self, bytes: &[u8], target: &Target, limits: Limits) {
        self.try_open(bytes, target, limits).ok();
    }

    /// An open, and its refusal where it is refused.
    pub fn try_open(&mut self, bytes: &[u8], target: &Target, limits: Limits) -> Result<(), usize> {
        let call = if bytes.starts_with(b"SH") && bytes.len() >= 5 { "open" } else { SHAPELESS };
        let theirs = |bench: &mut Reference| widen(bench.open(bytes, target.clone(), their_limits(limits)));
        let answer = self.both(call, (bytes, target), |bench| open(bench, bytes, target, limits), theirs);
        match answer {
            Ok(()) => self.met.opened(),
            Err(8) => self.met.refused_target(bytes, target),
            Err(_) => {}
        }
        answer
    }

    /// The lines that were reworked, or the refusal.
    pub fn replace_gate(&mut self, [k, kind, a, b]: [usize; 4]) -> Result<Vec<u16>, usize> {
        let theirs = |bench: &mut Reference| lines(bench.replace_gate(k as u64, kind as u64, a as u64, b as u64));
        self.both("gate", [k, kind, a, b], |bench| bench.replace_gate(k, kind, a, b), theirs)
    }

    /// The new gate's line, or the refusal.
    pub fn append_gate(&mut self, [kind, a, b]: [usize; 3]) -> Result<Vec<u16>, usize> {
        if let Some(present) = &self.theirs.present {
            self.met.appended(present, [kind, a, b]);
        }
        let theirs = |bench: &mut Reference| lines(bench.append_gate(kind as u64, a as u64, b as u64));
        let answer = self.both("append", [kind, a, b], |bench| bench.append_gate(kind, a, b), theirs);
        self.as_opened_afresh();
        answer
    }

    /// The new lines of the gates that are kept, or the refusal. A second sweep answers the same and changes no number.
    pub fn sweep(&mut self) -> Result<Vec<u16>, usize> {
        let before = self.theirs.present.clone();
        let answer = self.both("sweep", &before, Bench::sweep, |bench| lines(bench.sweep()));
        if let (Some(before), Some(after)) = (&before, &self.theirs.present) {
            self.met.swept(before, after);
        }
        let mut again = self.ours.clone();
        assert!(again.sweep() == answer && again == self.ours, "a second sweep of {before:?}");
        self.as_opened_afresh();
        answer
    }

    /// Every number on our bench is that of one on which their circuit, target and limits were opened just now.
    pub fn as_opened_afresh(&self) {
        let Some((c, target, limits)) = &self.theirs.present else { return };
        let mut fresh = Bench::new();
        assert_eq!(open(&mut fresh, &write(c), target, our_limits(limits)), Ok(()));
        assert!(self.ours == fresh, "the bench with {c:?} under {target:?}");
    }

    /// The lines that were reworked, which are none, or the refusal.
    pub fn point_output(&mut self, j: usize, line: usize) -> Result<Vec<u16>, usize> {
        let theirs = |bench: &mut Reference| lines(bench.point_output(j as u64, line as u64));
        self.both("output", [j, line], |bench| bench.point_output(j, line), theirs)
    }

    /// The lines that were reworked, which are none, or the refusal.
    pub fn change_entry(&mut self, [i, value, constant]: [usize; 3]) -> Result<Vec<u16>, usize> {
        if let Some(present) = &self.theirs.present {
            self.met.entered(present, [i, value, constant]);
        }
        let theirs = |bench: &mut Reference| lines(bench.change_entry(i as u64, value as u64, constant as u64));
        self.both("entry", [i, value, constant], |bench| bench.change_entry(i, value, constant), theirs)
    }

    pub fn set_limits(&mut self, limits: Limits) {
        let theirs = |bench: &mut Reference| lines(bench.set_limits(their_limits(limits)));
        self.both("limits", limits, |bench| bench.set_limits(limits), theirs).ok();
    }

    /// How far a row is and from which lines, or the refusal. Whatever it is, every number on our bench stays as it was.
    pub fn hint(&mut self, [j, d]: [usize; 2]) -> Result<Option<Found>, usize> {
        let before = self.ours.clone();
        let theirs = |bench: &mut Reference| found::theirs(bench.hint(j as u64, d as u64));
        let answer = self.both("hint", [j, d], |bench| found::ours(bench.hint(j, d)), theirs);
        assert!(self.ours == before, "a hint for row {j} within {d} changes the bench");
        if let Some(present) = &self.theirs.present {
            self.met.hinted(present, [j, d], &answer);
        }
        answer
    }

    pub fn store(&mut self, length: usize) {
        let (mut room, mut other) = (vec![0x5A; length], vec![0x5A; length]);
        let theirs = |bench: &mut Reference| widen(bench.store(&mut other));
        self.both("store", length, |bench| bench.store(&mut room), theirs).ok();
        assert_eq!(room, other, "room of {length}");
    }

    /// The report, the stored bytes and what is held for every line.
    pub fn look(&mut self) {
        let (ours, theirs) = (self.ours.report(), self.theirs.report());
        assert_eq!(ours, widen(theirs).map(our_report), "report");
        let verdict = |report: &Report| met::verdict(&report.verdict);
        self.met.answer("report", &ours, verdict);
        match &self.theirs.present {
            Some((_, Target::Matrix { .. }, _)) => self.met.answer("report under a matrix", &ours, verdict),
            Some((_, Target::Table(_), _)) => self.met.answer("report under a table", &ours, verdict),
            None => {}
        }
        if let (Some(present), Ok(report)) = (&self.theirs.present, &theirs) {
            self.met.left_out("left out of a report", present);
            self.met.under_a_matrix(present, &report.verdict);
        }
        self.store(1341);
        self.held();
    }

    fn held(&self) {
        let (depths, and_depths, values) = self.ours.held();
        let Ok(expected) = self.theirs.held() else {
            assert!(depths.is_empty(), "nothing is open");
            return;
        };
        let n = self.theirs.present.as_ref().map_or(0, |(c, _, _)| c.n);
        assert_eq!(depths, expected.depths, "depths");
        assert_eq!(and_depths, expected.and_depths, "AND depths");
        assert_eq!(values.len(), expected.values.len(), "lines");
        for (line, (words, other)) in values.iter().zip(&expected.values).enumerate() {
            assert!(differing(n, &words.0, other) == 0, "values of line {line}");
        }
    }
}
