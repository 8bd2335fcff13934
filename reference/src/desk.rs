//! The desk: the call language a person works the bench with, one call a line and an answer for
//! each, over the bench, the builder, the distance query and the reader of equation files.

use std::io::{self, BufRead, BufReader, BufWriter, Read, Write};

use crate::bench::Bench;
use crate::circuit::MAX_STORED;
use crate::distance::Distance;
use crate::examine::{Limits, Lines, Report, Target, Words};
use crate::{builder, distance, equations, listing};

/// A longer line is no call. Its LF, and a CR before that, are not counted.
const LONGEST_LINE: usize = 65_535;

enum Fault {
    Unreadable,
    Refused(u8),
    NotRead(equations::Refusal),
}

impl From<u8> for Fault {
    fn from(number: u8) -> Fault {
        Fault::Refused(number)
    }
}

impl From<equations::Refusal> for Fault {
    fn from(refusal: equations::Refusal) -> Fault {
        Fault::NotRead(refusal)
    }
}

/// Answers a whole input.
pub fn run(input: &[u8]) -> Vec<u8> {
    let mut output = Vec::new();
    serve(input, &mut output).expect("reading and writing memory does not fail");
    output
}

/// Answers each line as it comes: everything is written out before waiting for more input.
pub fn serve(input: impl Read, output: impl Write) -> io::Result<()> {
    let mut input = BufReader::new(input);
    let mut output = BufWriter::new(output);
    let mut bench = Bench::new();
    let mut line = Vec::new();
    while take_line(&mut input, &mut output, &mut line)? {
        output.write_all(answer(&mut bench, &line).as_bytes())?;
    }
    output.flush()
}

/// Takes the next line without its end; of a line too long only enough is kept to tell.
fn take_line(
    input: &mut BufReader<impl Read>,
    output: &mut impl Write,
    line: &mut Vec<u8>,
) -> io::Result<bool> {
    line.clear();
    let mut any = false;
    loop {
        if input.buffer().is_empty() {
            output.flush()?;
        }
        let ready = input.fill_buf()?;
        if ready.is_empty() {
            return Ok(any);
        }
        any = true;
        let end = ready.iter().position(|&byte| byte == b'\n');
        let part = &ready[..end.unwrap_or(ready.len())];
        line.extend_from_slice(&part[..part.len().min(LONGEST_LINE + 2 - line.len())]);
        let used = part.len() + end.is_some() as usize;
        input.consume(used);
        if end.is_some() {
            if line.last() == Some(&b'\r') {
                line.pop();
            }
            return Ok(true);
        }
    }
}

/// The whole answer, its ends of line included, to a line that is given without its end.
pub fn answer(bench: &mut Bench, line: &[u8]) -> String {
    if line.len() > LONGEST_LINE {
        return "unreadable\n".to_string();
    }
    let words: Vec<&[u8]> = line.split(|&byte| byte == b' ').filter(|word| !word.is_empty()).collect();
    if words.is_empty() || line[0] == b'#' {
        return String::new();
    }
    match call(bench, words[0], &words[1..]) {
        Ok(text) => text + "\n",
        Err(Fault::Unreadable) => "unreadable\n".to_string(),
        Err(Fault::Refused(number)) => format!("refused {number}\n"),
        Err(Fault::NotRead(refusal)) => listing::not_read(&refusal) + "\n",
    }
}

fn call(bench: &mut Bench, word: &[u8], rest: &[&[u8]]) -> Result<String, Fault> {
    match (word, rest) {
        (b"new", []) => {
            *bench = Bench::new();
            Ok("new".to_string())
        }
        (b"open", &[stored, kind, list, ref limits @ ..]) => open(bench, stored, kind, list, limits),
        (b"report", []) => Ok(report(&bench.report()?)),
        (b"gate", _) => {
            let [k, kind, a, b] = numbers(rest)?;
            Ok(reworked(&bench.replace_gate(k, kind, a, b)?))
        }
        (b"append", _) => {
            let [kind, a, b] = numbers(rest)?;
            Ok(reworked(&bench.append_gate(kind, a, b)?))
        }
        (b"sweep", []) => Ok(reworked(&bench.sweep()?)),
        (b"output", _) => {
            let [j, line] = numbers(rest)?;
            Ok(reworked(&bench.point_output(j, line)?))
        }
        (b"entry", _) => {
            let [i, value, constant] = entry(rest)?;
            Ok(reworked(&bench.change_entry(i, value, constant)?))
        }
        (b"limits", _) => {
            let limits = limits(rest)?;
            Ok(reworked(&bench.set_limits(limits)?))
        }
        (b"hint", _) => {
            let [j, d] = numbers(rest)?;
            Ok(found(&bench.hint(j, d)?))
        }
        (b"store", _) => store(bench, rest),
        (b"held", []) => held(bench),
        (b"show", []) => show(bench),
        (b"build", &[n, rows, d, room]) => build(n, rows, d, room),
        (b"late", &[n, arrivals, rows, limits, room]) => late(n, [arrivals, rows, limits], room),
        (b"distance", &[n, masks, depths, t, d]) => query(n, masks, depths, t, d),
        (b"equations", &[text, room]) => read_equations(text, room),
        _ => Err(Fault::Unreadable),
    }
}

/// A decimal number, 0 to 2^64 - 1.
fn number(word: &[u8]) -> Result<u64, Fault> {
    let mut value = 0u64;
    for &byte in word {
        if !byte.is_ascii_digit() {
            return Err(Fault::Unreadable);
        }
        let digit = (byte - b'0') as u64;
        value = value.checked_mul(10).and_then(|tens| tens.checked_add(digit)).ok_or(Fault::Unreadable)?;
    }
    Ok(value)
}

/// Exactly so many numbers.
fn numbers<const COUNT: usize>(words: &[&[u8]]) -> Result<[u64; COUNT], Fault> {
    if words.len() != COUNT {
        return Err(Fault::Unreadable);
    }
    let mut values = [0; COUNT];
    for (value, word) in values.iter_mut().zip(words) {
        *value = number(word)?;
    }
    Ok(values)
}

/// An entry's number, its value and its constant, which is 0 where it is left out.
fn entry(words: &[&[u8]]) -> Result<[u64; 3], Fault> {
    if words.len() == 3 {
        return numbers(words);
    }
    let [i, value] = numbers(words)?;
    Ok([i, value, 0])
}

fn limits(words: &[&[u8]]) -> Result<Limits, Fault> {
    let typed: [u64; 3] = numbers(words)?;
    if typed.iter().any(|&limit| limit > 255) {
        return Err(Fault::Unreadable);
    }
    let [gates, depth, and_depth] = typed.map(|limit| limit as u8);
    Ok(Limits { gates, depth, and_depth })
}

/// Pairs of hexadecimal digits, or `-` for no bytes.
fn bytes(word: &[u8]) -> Result<Vec<u8>, Fault> {
    if word == b"-" {
        return Ok(Vec::new());
    }
    if word.len() % 2 == 1 {
        return Err(Fault::Unreadable);
    }
    let digit = |byte: u8| (byte as char).to_digit(16).map(|value| value as u8).ok_or(Fault::Unreadable);
    word.chunks_exact(2).map(|pair| Ok(digit(pair[0])? << 4 | digit(pair[1])?)).collect()
}

/// Lent room of the length asked for; no stored circuit needs more than the longest.
fn lend(room: u64) -> Vec<u8> {
    vec![0; room.min(MAX_STORED as u64) as usize]
}

fn open(bench: &mut Bench, stored: &[u8], kind: &[u8], list: &[u8], rest: &[&[u8]]) -> Result<String, Fault> {
    let stored = bytes(stored)?;
    let list = bytes(list)?;
    let target = match kind {
        b"matrix" => Target::matrix(&list),
        b"table" => Target::Table(list),
        _ => return Err(Fault::Unreadable),
    };
    let limits = limits(rest)?;
    bench.open(&stored, target, limits)?;
    Ok("opened".to_string())
}

fn report(report: &Report) -> String {
    format!(
        "report gates {} xor {} nonlinear {} not {} depth {} anddepth {} {}",
        report.gates,
        report.xors,
        report.nonlinear,
        report.nots,
        report.depth,
        report.and_depth,
        listing::verdict(&report.verdict)
    )
}

/// Lines by their numbers, a space before each.
fn list(lines: &[usize]) -> String {
    lines.iter().map(|line| format!(" {line}")).collect()
}

fn reworked(lines: &[usize]) -> String {
    format!("reworked {}{}", lines.len(), list(lines))
}

fn found(distance: &Option<Distance>) -> String {
    match distance {
        Some(Distance { gates, lines }) => format!("distance {gates}{}", list(lines)),
        None => "distance none".to_string(),
    }
}

fn store(bench: &Bench, rest: &[&[u8]]) -> Result<String, Fault> {
    let [room] = numbers(rest)?;
    let mut room = lend(room);
    let count = bench.store(&mut room)?;
    Ok(format!("stored {count} {}", listing::hex(&room[..count])))
}

fn held(bench: &Bench) -> Result<String, Fault> {
    let lines = bench.held()?;
    let (circuit, _, _) = bench.present.as_ref().ok_or(13)?;
    let groups: String = (0..circuit.lines()).map(|line| group(&lines, circuit.n, line)).collect();
    Ok(format!("held {}{groups}", circuit.lines()))
}

fn group(lines: &Lines, n: u8, line: usize) -> String {
    let values = packed(&lines.values[line], n);
    format!(" {line}:{}:{}:{}", lines.depths[line], lines.and_depths[line], listing::hex(&values))
}

/// A line's values low bit first, in as many bytes as 2^n values need.
fn packed(words: &Words, n: u8) -> Vec<u8> {
    let mut bytes: Vec<u8> = words.iter().flat_map(|word| word.to_le_bytes()).collect();
    bytes.truncate((1usize << n).div_ceil(8));
    bytes
}

fn show(bench: &Bench) -> Result<String, Fault> {
    let report = bench.report()?;
    let (circuit, _, _) = bench.present.as_ref().ok_or(13)?;
    let counts = listing::counts(circuit, report.depth);
    let (body, verdict) = (listing::body(circuit), listing::verdict(&report.verdict));
    Ok(format!("{counts} anddepth {}\n{body}{verdict}", report.and_depth))
}

fn build(n: &[u8], rows: &[u8], d: &[u8], room: &[u8]) -> Result<String, Fault> {
    let (n, rows, d) = (number(n)?, bytes(rows)?, number(d)?);
    let mut room = lend(number(room)?);
    let count = builder::build_into(n, &rows, d, &mut room)?;
    Ok(format!("built {count} {}", listing::hex(&room[..count])))
}

/// A build with late signals; the lists are the arrivals, the rows and the limits.
fn late(n: &[u8], lists: [&[u8]; 3], room: &[u8]) -> Result<String, Fault> {
    let (n, mut room) = (number(n)?, lend(number(room)?));
    let [arrivals, rows, limits] = [bytes(lists[0])?, bytes(lists[1])?, bytes(lists[2])?];
    let count = builder::build_late_into(n, &arrivals, &rows, &limits, &mut room)?;
    Ok(format!("built {count} {}", listing::hex(&room[..count])))
}

fn query(n: &[u8], masks: &[u8], depths: &[u8], t: &[u8], d: &[u8]) -> Result<String, Fault> {
    let (n, masks, depths) = (number(n)?, bytes(masks)?, bytes(depths)?);
    let (t, d) = (number(t)?, number(d)?);
    Ok(found(&distance::distance(n, &masks, &depths, t, d)?))
}

fn read_equations(text: &[u8], room: &[u8]) -> Result<String, Fault> {
    let (text, mut room) = (bytes(text)?, lend(number(room)?));
    let count = equations::read_into(&text, &mut room)?;
    Ok(format!("read {count} {}", listing::hex(&room[..count])))
}
