//! Random scripts in the call language of `desk`: sound calls, refused ones, and lines that are none.

use crate::calls::{self, Call, Present};
use crate::files::{damaged, file};
use crate::found::{theirs, Found};
use crate::late;
use crate::met::{Kind, Met};
use allpawasi::Limits;
use reference::bench::Bench;
use reference::desk;
use reference::rng::Rng;

fn hex(rng: &mut Rng, bytes: &[u8]) -> String {
    if bytes.is_empty() {
        return "-".to_string();
    }
    let upper = rng.once_in(4);
    bytes.iter().map(|b| if upper { format!("{b:02X}") } else { format!("{b:02x}") }).collect()
}

/// A number a person might type: small, at an edge, or as large as there is.
fn number(rng: &mut Rng, small: u64) -> usize {
    match rng.below(12) {
        0 => [7, 15, 16, 247, 248, 255, 256, 300][rng.below(8) as usize],
        1 => [usize::MAX, usize::MAX - 1, 1 << 32][rng.below(3) as usize],
        _ => rng.below(small) as usize,
    }
}

/// Numbers as they are typed, now and then with zeros before them.
fn typed(rng: &mut Rng, numbers: &[usize]) -> String {
    let zeros = |rng: &mut Rng| if rng.once_in(12) { "00" } else { "" };
    let words: Vec<String> = numbers.iter().map(|number| format!("{}{number}", zeros(rng))).collect();
    words.join(" ")
}

/// Three limits, now and then one that is no byte.
fn limits(rng: &mut Rng, limits: &Limits) -> String {
    let mut numbers = [limits.gates, limits.depth, limits.and_depth].map(usize::from);
    if rng.once_in(40) {
        numbers[rng.below(3) as usize] += 256;
    }
    typed(rng, &numbers)
}

/// An entry without its constant, and with it.
pub const ENTRY_TYPED: [&str; 2] = ["a number and a value", "a number, a value and a constant"];

/// A call on the bench, by its name and as a line. A constant of 0 is left out half of the time.
fn on_bench(rng: &mut Rng, call: &Call) -> (&'static str, String) {
    match call {
        Call::Open(bytes, target, three) => {
            let kind = if target.linear_only() { "matrix" } else { "table" };
            let list = hex(rng, &target.bytes());
            ("open", format!("open {} {kind} {list} {}", hex(rng, bytes), limits(rng, three)))
        }
        Call::Gate(numbers) => ("gate", format!("gate {}", typed(rng, numbers))),
        Call::Append(numbers) => ("append", format!("append {}", typed(rng, numbers))),
        Call::Sweep => ("sweep", "sweep".to_string()),
        Call::Output(numbers) => ("output", format!("output {}", typed(rng, numbers))),
        Call::Entry([i, value, 0]) if rng.once_in(2) => ("entry", format!("entry {}", typed(rng, &[*i, *value]))),
        Call::Entry(numbers) => ("entry", format!("entry {}", typed(rng, numbers))),
        Call::Hint(numbers) => ("hint", format!("hint {}", typed(rng, numbers))),
        Call::Limits(three) => ("limits", format!("limits {}", limits(rng, three))),
        Call::Store(length) => ("store", format!("store {}", typed(rng, &[*length]))),
    }
}

fn build(rng: &mut Rng) -> String {
    let (n, m) = (rng.between(1, 8), rng.between(0, 12));
    let rows: Vec<u8> = (0..m).map(|_| rng.below(1 << n) as u8).collect();
    let typed_n = if rng.once_in(9) { number(rng, 12) } else { n as usize };
    let room = if rng.once_in(3) { number(rng, 200) } else { 2000 };
    let d = number(rng, 8);
    format!("build {} {} {}", typed(rng, &[typed_n]), hex(rng, &rows), typed(rng, &[d, room]))
}

fn late(rng: &mut Rng) -> String {
    let (n, m) = (rng.between(1, 8) as usize, rng.between(1, 12) as usize);
    let call = if rng.once_in(2) { late::sound(rng, n, m) } else { late::spoiled(rng) };
    let room = if rng.once_in(5) { number(rng, 200) } else { call.room };
    let lists = [call.arrivals, call.rows, call.limits].map(|list| hex(rng, &list));
    format!("late {} {} {}", typed(rng, &[call.n]), lists.join(" "), typed(rng, &[room]))
}

fn distance(rng: &mut Rng) -> String {
    let (n, lines) = (rng.between(1, 8), rng.between(0, 20));
    let masks: Vec<u8> = (0..lines).map(|_| rng.below(1 << n) as u8).collect();
    let depths: Vec<u8> = (0..lines + rng.once_in(12) as u64).map(|_| rng.below(5) as u8).collect();
    let typed_n = if rng.once_in(9) { number(rng, 12) } else { n as usize };
    let (target, d) = (number(rng, 1 << n), number(rng, 16));
    format!("distance {} {} {} {}", typed(rng, &[typed_n]), hex(rng, &masks), hex(rng, &depths), typed(rng, &[target, d]))
}

fn equations(rng: &mut Rng) -> String {
    let sound = file(rng);
    let text = if rng.once_in(2) { damaged(rng, &sound) } else { sound };
    let room = if rng.once_in(3) { number(rng, 200) } else { 2000 };
    format!("equations {} {}", hex(rng, &text), typed(rng, &[room]))
}

/// A line that is a call of the right form, and the call's name.
fn call(rng: &mut Rng, present: Option<&Present>) -> (&'static str, String) {
    let alone = |name: &'static str| (name, name.to_string());
    match rng.below(62) {
        0 => alone("new"),
        1..=16 => alone("report"),
        17 | 18 => alone("held"),
        19 | 20 => alone("show"),
        21..=23 => ("build", build(rng)),
        24..=27 => ("distance", distance(rng)),
        28 | 29 => ("equations", equations(rng)),
        30 | 31 => ("late", late(rng)),
        _ => {
            let call = calls::call(rng, present);
            on_bench(rng, &call)
        }
    }
}

/// The call with something wrong or odd about it.
fn spoiled(rng: &mut Rng, line: String) -> Vec<u8> {
    let mut bytes = line.into_bytes();
    match rng.below(8) {
        0 => bytes.extend(b" 1"),
        1 => bytes.extend(b"   "),
        2 => bytes.insert(0, b' '),
        3 => {
            let at = rng.below(bytes.len() as u64) as usize;
            bytes.remove(at);
        }
        4 => {
            let at = rng.below(bytes.len() as u64) as usize;
            bytes[at] = rng.below(256) as u8;
        }
        5 => bytes = b"# a remark".to_vec(),
        6 => bytes.clear(),
        _ => bytes = bytes.iter().flat_map(|&b| if b == b' ' { vec![b, b] } else { vec![b] }).collect(),
    }
    bytes.retain(|&b| b != b'\n');
    bytes
}

/// The kind of an answer that is text: a refusal, a verdict, how many gates, a word by itself, or that the call was done.
pub fn kind(answer: &str) -> Kind {
    let words: Vec<&str> = answer.split_whitespace().collect();
    match words[..] {
        ["refused", number, ..] => Kind::Refused(number.parse().expect("a number")),
        ["report", .., "wrong", _, _] => Kind::Says("wrong".to_string()),
        ["report", .., word] | ["distance", word, ..] => Kind::Says(word.to_string()),
        [] => Kind::Says("nothing".to_string()),
        ["unreadable"] => Kind::Says("unreadable".to_string()),
        _ => Kind::Done,
    }
}

/// The numbers of a call that is typed.
fn numbers<const COUNT: usize>(line: &[u8]) -> [usize; COUNT] {
    let words = String::from_utf8_lossy(line);
    let numbers: Vec<usize> = words.split_whitespace().filter_map(|word| word.parse().ok()).collect();
    numbers.try_into().expect("it has so many numbers")
}

/// What a hint that is typed should find.
fn hinted(bench: &Bench, line: &[u8]) -> Result<Option<Found>, usize> {
    let [j, d] = numbers(line).map(|number: usize| number as u64);
    theirs(bench.hint(j, d))
}

/// What an entry that is typed brings; a constant left out is 0. With how many words it is typed is counted.
fn entered(met: &mut Met, line: &[u8]) -> [usize; 3] {
    let words = String::from_utf8_lossy(line).split_whitespace().count();
    met.say("an entry typed", if words == 3 { ENTRY_TYPED[0] } else { ENTRY_TYPED[1] }, 1);
    if words == 3 {
        let [i, value] = numbers(line);
        return [i, value, 0];
    }
    numbers(line)
}

/// What a line should be answered, counted by the call's name; of a report or a listing also what it leaves out, of a sweep, an
/// append, a hint and an entry what they meet.
fn count(met: &mut Met, bench: &mut Bench, name: &'static str, line: &[u8]) {
    let before = bench.present.clone();
    let kind = kind(&desk::answer(bench, line));
    match (name, &before, &bench.present) {
        ("report", _, Some(present)) => {
            met.left_out("left out of a report", present);
            met.under_a_matrix(present, &bench.report().expect("something is open").verdict);
        }
        ("show", _, Some(present)) => met.left_out("left out of a show", present),
        ("sweep", Some(before), Some(after)) => met.swept(before, after),
        ("append", Some(before), _) => met.appended(before, numbers(line)),
        ("hint", _, Some(present)) => met.hinted(present, numbers(line), &hinted(bench, line)),
        ("entry", Some(before), _) => {
            let brought = entered(met, line);
            met.entered(before, brought);
        }
        ("open" | "new", _, _) if kind == Kind::Done => met.opened(),
        _ => {}
    }
    met.count(name, kind);
}

/// A session in which each of these calls is typed, and then a report and a listing are asked for.
pub fn session(rng: &mut Rng, calls: &[Call], met: &mut Met) -> Vec<u8> {
    let (mut out, mut bench) = (Vec::new(), Bench::new());
    for call in calls {
        for (name, line) in [on_bench(rng, call), ("report", "report".to_string()), ("show", "show".to_string())] {
            count(met, &mut bench, name, line.as_bytes());
            out.extend(line.into_bytes());
            out.push(b'\n');
        }
    }
    out
}

/// A script of so many lines; what each should be answered is counted. Some lines end in CR LF, and the last may lack its LF.
pub fn script(rng: &mut Rng, lines: usize, met: &mut Met) -> Vec<u8> {
    let (mut out, mut bench) = (Vec::new(), Bench::new());
    for _ in 0..lines {
        let (name, sound) = call(rng, bench.present.as_ref());
        let (name, line) = if rng.once_in(6) { ("spoiled", spoiled(rng, sound)) } else { (name, sound.into_bytes()) };
        count(met, &mut bench, name, &line);
        out.extend(line);
        out.extend(if rng.once_in(9) { &b"\r\n"[..] } else { &b"\n"[..] });
    }
    if rng.once_in(2) {
        out.pop();
    }
    out
}
