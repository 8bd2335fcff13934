//! Random equation files: sound ones in any hand, ones whose names or numbers are at fault, and either damaged in one byte or
//! cut short.

use reference::equations::{input, output};
use reference::rng::Rng;
use std::collections::HashSet;

/// One of a list.
fn pick<T: Copy>(rng: &mut Rng, list: &[T]) -> T {
    list[rng.below(list.len() as u64) as usize]
}

/// What a whole file is to be.
struct Plan {
    assignments: usize,
    outputs: usize,
    signs: usize,
}

/// A plan whose numbers are mostly small, and otherwise at an edge or past it.
fn plan(rng: &mut Rng) -> Plan {
    let outputs = match rng.below(16) {
        0 => 32,
        1 => 33,
        2 => rng.below(41),
        _ => rng.between(1, 8),
    } as usize;
    let assignments = match rng.below(24) {
        0 => 512,
        1 => 513,
        2 => rng.between(100, 511),
        3 => rng.below(2),
        _ => rng.between(1, 14),
    } as usize;
    let signs = match rng.below(16) {
        0 => 248,
        1 => 249,
        2 => rng.between(200, 400),
        _ => rng.below(40),
    } as usize;
    Plan { assignments: assignments.max(outputs), outputs, signs }
}

/// A file in the making.
struct Writer<'a> {
    rng: &'a mut Rng,
    text: Vec<u8>,
    /// How many spaces a gap may have.
    gap: u64,
    /// How many inputs are read.
    inputs: u64,
    /// The names set so far.
    known: Vec<String>,
    being_set: String,
    /// The names that were thought of, set or not.
    taken: HashSet<String>,
    /// How many more names are as they should be.
    sound_names: usize,
}

/// A random file, sound half of the time or more.
pub fn file(rng: &mut Rng) -> Vec<u8> {
    let plan = plan(rng);
    let gap = pick(rng, &[0, 0, 1, 1, 2, 5]);
    let inputs = rng.between(1, 8);
    let names = 2 * plan.assignments + plan.signs;
    let sound_names = if rng.once_in(4) { rng.below(names as u64 + 1) as usize } else { usize::MAX };
    let (text, known, taken) = (Vec::new(), Vec::new(), HashSet::new());
    let mut writer = Writer { rng, text, gap, inputs, known, being_set: String::new(), taken, sound_names };
    let (mut lines, mut signs) = (plan.assignments, plan.signs);
    for name in writer.names(&plan) {
        let some = if lines == 1 { signs } else { writer.rng.below((2 * signs / lines + 2) as u64) as usize }.min(signs);
        writer.line(name, some);
        (lines, signs) = (lines - 1, signs - some);
    }
    writer.blank_lines();
    if writer.rng.once_in(3) {
        writer.text.pop();
    }
    writer.text
}

impl Writer<'_> {
    /// The names to set, in order: the outputs in any order among others, now and then with a gap.
    fn names(&mut self, plan: &Plan) -> Vec<String> {
        let gap = if self.rng.once_in(12) { self.rng.below(plan.outputs as u64 + 1) as usize } else { plan.outputs };
        let mut names: Vec<String> = (0..plan.outputs).map(|j| format!("y{}", if j < gap { j } else { j + 1 })).collect();
        self.taken.extend(names.iter().cloned());
        names.extend((plan.outputs..plan.assignments).map(|_| self.new_name()));
        for i in (1..names.len()).rev() {
            names.swap(i, self.rng.below(i as u64 + 1) as usize);
        }
        names
    }

    /// Whether the next name is the one that is to be at fault.
    fn at_fault(&mut self) -> bool {
        let now = self.sound_names == 0;
        self.sound_names = self.sound_names.wrapping_sub(1);
        now
    }

    /// A name that was not thought of before, many of them nearly an input, an output or another name.
    fn new_name(&mut self) -> String {
        loop {
            let number = self.rng.below(1_000);
            let name = match self.rng.below(12) {
                0 => format!("x{}", self.rng.between(8, 99)),
                1 => format!("{}0{}", pick(self.rng, &["x", "y"]), self.rng.below(9)),
                2 => pick(self.rng, &["x", "y", "X0", "Y0", "0", "7", "xx0", "y0y", "yx0"]).to_string(),
                3 => format!("{number}"),
                4 => format!("sixteenbytes{:04}", number),
                5 => self.any_name(),
                6..=8 => ((b'a' + self.rng.below(23) as u8) as char).to_string(),
                _ => format!("t{number}"),
            };
            if self.taken.insert(name.clone()) {
                return name;
            }
        }
    }

    /// Up to 16 letters and digits, neither an input nor an output.
    fn any_name(&mut self) -> String {
        let letters = b"zYyXxQa0123456789bcdefghijklmnopqrstuvwABCDEFGHIJKLMNOPRSTUVWZ";
        let length = self.rng.between(1, 16);
        let name: String = (0..length).map(|_| pick(self.rng, letters) as char).collect();
        if input(name.as_bytes()).is_some() || output(name.as_bytes()).is_some() { "q".to_string() } else { name }
    }

    fn blank_lines(&mut self) {
        while self.rng.once_in(8) {
            self.blank();
            self.text.push(b'\n');
        }
    }

    /// An assignment, blank lines before it. A name at fault is an input, or set before.
    fn line(&mut self, name: String, signs: usize) {
        self.blank_lines();
        let set = if !self.at_fault() {
            name
        } else if self.known.is_empty() || self.rng.once_in(2) {
            format!("x{}", self.rng.below(8))
        } else {
            self.known_name()
        };
        self.put(set.as_bytes());
        self.put(b"=");
        self.being_set = set;
        self.formula(signs, 0);
        self.blank();
        self.text.push(b'\n');
        self.known.push(std::mem::take(&mut self.being_set));
    }

    /// Spaces, as many as there may be.
    fn blank(&mut self) {
        let spaces = if self.rng.once_in(60) { 20 } else { self.rng.below(self.gap + 1) };
        self.text.extend((0..spaces).map(|_| b' '));
    }

    fn put(&mut self, piece: &[u8]) {
        self.blank();
        self.text.extend(piece);
    }

    /// A formula of so many signs, inside so many brackets. How it binds is left to who reads it.
    fn formula(&mut self, signs: usize, nesting: usize) {
        let bracket = if signs == 0 { 12 } else { 4 };
        if nesting < 32 && self.rng.once_in(bracket) || nesting == 32 && self.rng.once_in(40) {
            self.bracketed(signs, nesting);
        } else if signs == 0 {
            self.operand();
        } else if self.rng.once_in(4) {
            self.put(b"~");
            self.formula(signs - 1, nesting);
        } else {
            let left = self.rng.below(signs as u64) as usize;
            self.formula(left, nesting);
            let sign = pick(self.rng, b"&^|");
            self.put(&[sign]);
            self.formula(signs - 1 - left, nesting);
        }
    }

    /// A pair of brackets, at times as many as there may be.
    fn bracketed(&mut self, signs: usize, nesting: usize) {
        let pairs = if nesting < 32 && self.rng.once_in(20) { 32 - nesting } else { 1 };
        (0..pairs).for_each(|_| self.put(b"("));
        self.formula(signs, nesting + pairs);
        (0..pairs).for_each(|_| self.put(b")"));
    }

    /// A name that is read: an input, or a name set before. A name at fault is unknown, at times the one that is being set.
    fn operand(&mut self) {
        let name = if self.at_fault() {
            if self.rng.once_in(4) { self.being_set.clone() } else { self.new_name() }
        } else if self.known.is_empty() || self.rng.once_in(3) {
            format!("x{}", self.rng.below(self.inputs))
        } else {
            self.known_name()
        };
        self.put(name.as_bytes());
    }

    fn known_name(&mut self) -> String {
        let known = self.known.len() as u64;
        let back = if self.rng.once_in(2) { self.rng.below(known.min(4)) } else { self.rng.below(known) };
        self.known[(known - 1 - back) as usize].clone()
    }
}

/// Any byte, half of the time one that equation files have.
fn byte(rng: &mut Rng) -> u8 {
    let usual = b"ax0y17 \n=~&^|()";
    if rng.once_in(2) { rng.below(256) as u8 } else { pick(rng, usual) }
}

/// The text with one byte left out, put in or made another, or cut short.
pub fn damaged(rng: &mut Rng, text: &[u8]) -> Vec<u8> {
    let mut text = text.to_vec();
    let at = rng.below(text.len() as u64 + 1) as usize;
    match rng.below(4) {
        0 if at < text.len() => drop(text.remove(at)),
        1 if at < text.len() => text[at] = byte(rng),
        2 => text.truncate(at),
        _ => text.insert(at, byte(rng)),
    }
    text
}
