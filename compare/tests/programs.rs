//! The linked programs beside the independent ones, in a stack of 1 MiB: random scripts and inputs, long lines, input that
//! ends anywhere, bytes that mean nothing, and an output that nobody reads.

use compare::constants::affine_calls;
use compare::depths::{pointings, trials};
use compare::files::{damaged, file};
use compare::hints::hints;
use compare::long_files::{designers, worst};
use compare::met::{Met, APPENDED, ENTERED, HINTED, LEFT_OUT, UNDER_A_MATRIX};
use compare::programs::{run, start};
use compare::scripts::{kind, script, session, ENTRY_TYPED};
use compare::sweeps::morning;
use reference::examine::work;
use reference::rng::Rng;
use reference::{builder, desk, program};
use std::io::{Read, Write};

/// The program writes what the independent one writes, and ends well.
fn same(name: &str, input: &[u8], expected: &[u8]) {
    let output = run(name, input);
    assert!(output.status.success(), "{name} ended with {:?} on {input:02X?}", output.status);
    if output.stdout != expected {
        let at = output.stdout.iter().zip(expected).take_while(|(a, b)| a == b).count();
        let line = expected[..at].iter().filter(|&&b| b == b'\n').count();
        let near = |s: &[u8]| String::from_utf8_lossy(&s[at.saturating_sub(80).min(s.len())..(at + 80).min(s.len())]).into_owned();
        panic!("{name} differs in answer line {line}: {:?} for {:?}", near(&output.stdout), near(expected));
    }
}

/// Each call of the language met each of its refusals, and each verdict was given.
fn whole_language(met: &Met) {
    met.whole_bench();
    met.done_and_refused("held", &[13]);
    met.done_and_refused("show", &[13]);
    met.done_and_refused("build", &[1, 8, 9, 10, 11]);
    met.done_and_refused("late", &[1, 2, 8, 9, 10, 11]);
    met.done_and_refused("distance", &[1, 2, 8, 9]);
    met.done_and_refused("equations", &[1, 11, 15, 16, 17]);
    met.said_at_least("distance", &["none", "0", "1", "2", "3"], 5);
    met.hints(3, 10);
    met.said("spoiled", &["unreadable", "nothing"]);
    met.said_at_least("left out of a report", &LEFT_OUT, 100);
    met.said_at_least("left out of a show", &LEFT_OUT, 10);
    met.sweeps(5);
    met.said_at_least("an append", &APPENDED[..5], 10);
    met.said_at_least("under a matrix", &UNDER_A_MATRIX, 20);
    met.said_at_least("an entry", &ENTERED, 10);
    met.said_at_least("an entry typed", &ENTRY_TYPED, 100);
}

#[test]
fn random_scripts() {
    let (mut rng, mut met) = (Rng::new(11), Met::default());
    for _ in 0..60 {
        let text = script(&mut rng, 3_000, &mut met);
        same("desk", &text, &desk::run(&text));
    }
    met.show("random scripts");
    whole_language(&met);
}

#[test]
fn a_script_of_a_hundred_thousand_calls() {
    let mut met = Met::default();
    let text = script(&mut Rng::new(12), 100_000, &mut met);
    same("desk", &text, &desk::run(&text));
    met.show("a script of a hundred thousand calls");
    whole_language(&met);
}

/// Circuits with trial gates, and outputs pointed to and fro between deep lines and shallow ones, with a report and a listing after
/// each call.
#[test]
fn depths_that_end_at_outputs() {
    let (mut rng, mut met) = (Rng::new(17), Met::default());
    for round in 0..150 {
        let matrix = round % 3 == 0;
        let mut calls = trials(&mut rng, matrix);
        calls.extend(pointings(&mut rng, matrix));
        let text = session(&mut rng, &calls, &mut met);
        same("desk", &text, &desk::run(&text));
    }
    met.show("depths that end at outputs");
    met.said_at_least("left out of a report", &LEFT_OUT, 100);
    met.said_at_least("left out of a show", &LEFT_OUT, 100);
}

/// Sweeps, appends and pointings typed, with a report and a listing after each call.
#[test]
fn sweeps_and_appends() {
    let (mut rng, mut met) = (Rng::new(18), Met::default());
    for round in 0..150 {
        let calls = morning(&mut rng, round % 3 == 0);
        let text = session(&mut rng, &calls, &mut met);
        same("desk", &text, &desk::run(&text));
    }
    met.show("sweeps and appends");
    met.sweeps(10);
}

/// Hints typed on programs with lines too deep for a base. The report and the listing after each show that it changed nothing.
#[test]
fn hints_past_deep_lines() {
    let (mut rng, mut met) = (Rng::new(19), Met::default());
    for _ in 0..100 {
        let calls = hints(&mut rng, 30);
        let text = session(&mut rng, &calls, &mut met);
        same("desk", &text, &desk::run(&text));
    }
    met.show("hints past deep lines");
    met.done_and_refused("hint", &[8, 9, 12, 13]);
    met.said_at_least("a hint", &HINTED[1..6], 20);
    met.said_at_least("a hint", &["none", "0", "1", "2", "3", "4"], 10);
}

/// Linear circuits under rows with constants, and edits of both, typed; with a report and a listing after each call.
#[test]
fn rows_with_constants() {
    let (mut rng, mut met) = (Rng::new(20), Met::default());
    for _ in 0..40 {
        let calls = affine_calls(&mut rng, 12);
        let text = session(&mut rng, &calls, &mut met);
        same("desk", &text, &desk::run(&text));
    }
    met.show("rows with constants");
    met.said_at_least("under a matrix", &UNDER_A_MATRIX, 10);
    met.said_at_least("an entry typed", &ENTRY_TYPED, 10);
}

/// Entries typed with a constant, without one, with more words and with words that are no numbers: with nothing open, under a matrix
/// and under a table.
#[test]
fn entries_typed() {
    let constants = ["", "0", "1", "2", "255", "256", "1099511627776", "18446744073709551615", "001"];
    let no_constants = ["18446744073709551616", "-1", "+1", "x", "0x1", "1.", "-", "0 0", "1 0", "1 x", "2 2", "0 0 0"];
    let mut met = Met::default();
    for (open, name) in [
        ("new\n", "entry, nothing open"),
        ("open 534802010147540100014f5002 matrix 0301 1 1 0\n", "entry, a matrix"),
        ("open 534802010147540100014f5002 table 01000001 1 1 0\n", "entry, a table"),
    ] {
        let mut text = open.to_string();
        for (i, value) in ["0", "1", "9"].into_iter().flat_map(|i| ["0", "3", "4", "1099511627776", "x"].map(|value| (i, value))) {
            for constant in constants.into_iter().chain(no_constants) {
                text += &format!("entry {i} {value} {constant}\nreport\n");
            }
        }
        let expected = desk::run(text.as_bytes());
        same("desk", text.as_bytes(), &expected);
        let answers = String::from_utf8_lossy(&expected).into_owned();
        answers.lines().skip(1).step_by(2).for_each(|answer| met.count(name, kind(answer)));
    }
    met.show("entries typed");
    met.refused("entry, nothing open", &[13]);
    met.done_and_refused("entry, a matrix", &[8, 12]);
    met.done_and_refused("entry, a table", &[8, 12]);
    ["entry, nothing open", "entry, a matrix", "entry, a table"].iter().for_each(|name| met.said_at_least(name, &["unreadable"], 200));
}

#[test]
fn lines_around_the_longest() {
    for length in [65_533, 65_534, 65_535, 65_536, 65_537, 65_538, 65_539, 131_072, 200_000] {
        for end in [&b"\n"[..], b"\r\n", b""] {
            for first in [b"#", b" ", b"x"] {
                let mut text = b"report\n".to_vec();
                text.extend(first);
                text.resize(7 + length, b' ');
                text.extend(end);
                if !end.is_empty() {
                    text.extend(b"report\n");
                }
                same("desk", &text, &desk::run(&text));
            }
        }
    }
}

#[test]
fn input_that_ends_anywhere() {
    let mut rng = Rng::new(13);
    let text = script(&mut rng, 60, &mut Met::default());
    for _ in 0..400 {
        let end = rng.below(text.len() as u64 + 1) as usize;
        same("desk", &text[..end], &desk::run(&text[..end]));
    }
}

#[test]
fn bytes_that_mean_nothing() {
    let mut rng = Rng::new(14);
    for _ in 0..1_000 {
        let bytes: Vec<u8> = (0..rng.below(600)).map(|_| rng.below(256) as u8).collect();
        same("desk", &bytes, &desk::run(&bytes));
        same("build", &bytes, &program::build(&bytes));
        same("equations", &bytes, &program::equations(&bytes));
    }
}

#[test]
fn random_matrices() {
    let (mut rng, mut met) = (Rng::new(15), Met::default());
    for _ in 0..600 {
        let n = rng.between(1, 8);
        let m = rng.between(1, 32);
        let mut input = vec![n as u8, m as u8, rng.below(17) as u8];
        input.extend(rng.rows(n, m));
        match rng.below(8) {
            0 => input.push(1),
            1 => {
                input.pop();
            }
            2 => {
                let at = rng.below(input.len() as u64) as usize;
                input[at] = rng.below(256) as u8;
            }
            _ => {}
        }
        let expected = program::build(&input);
        same("build", &input, &expected);
        met.count("build", kind(&String::from_utf8_lossy(&expected)));
    }
    met.ends("the build program on random matrices", "build", &[1, 2, 8, 9, 10]);
}

/// Matrices whose program has a gate that nothing reads and that is deeper than every output: the first line leaves it out.
#[test]
fn built_deeper_than_the_outputs() {
    for (d, rows) in [
        (7, &[14, 51, 15, 12, 215, 197][..]),
        (7, &[107, 15, 200, 176, 29, 13, 60, 68, 206, 166, 144, 234, 61, 4]),
        (8, &[210, 166, 206, 95, 254, 245, 22, 239, 198, 236, 211, 73, 5, 121]),
        (9, &[188, 13, 43, 86, 241, 41, 119, 73, 211, 118, 172, 230, 15, 109, 145, 208]),
    ] {
        let c = builder::build(8, rows, d.into()).expect("each row is in reach");
        let lines = work(&c);
        assert!(lines.depths.iter().any(|&depth| depth > lines.depth(&c.outs)), "rows {rows:?} D {d}");
        let input = [&[8, rows.len() as u8, d], rows].concat();
        same("build", &input, &program::build(&input));
    }
}

#[test]
fn random_equation_files() {
    let (mut rng, mut met) = (Rng::new(16), Met::default());
    for round in 0..900 {
        let sound = file(&mut rng);
        let text = if round % 2 == 0 { damaged(&mut rng, &sound) } else { sound };
        let expected = program::equations(&text);
        same("equations", &text, &expected);
        met.count("equations", kind(&String::from_utf8_lossy(&expected)));
    }
    met.ends("the equations program on random files", "equations", &[1, 15, 16, 17]);
}

/// The program reads 65,535 bytes and no more.
#[test]
fn equation_files_around_the_longest() {
    for length in [0, 1, 65_534, 65_535, 65_536, 65_537, 131_072, 200_000, 1_000_000] {
        for byte in *b" \n~(a=?" {
            let mut text = if length > 7 { b"y0 = x0".to_vec() } else { Vec::new() };
            text.resize(length, byte);
            same("equations", &text, &program::equations(&text));
            text.reverse();
            same("equations", &text, &program::equations(&text));
        }
    }
}

/// Texts that are as much work as their length allows, in a small stack: to the program, and as far as a line goes at the desk.
#[test]
fn long_equation_files() {
    let mut texts: Vec<Vec<u8>> = worst().into_iter().map(|(_, text)| text).collect();
    texts.push(designers());
    for text in texts {
        same("equations", &text, &program::equations(&text));
        for length in [32_759, 32_760, 32_761] {
            let hex: String = text.iter().take(length).map(|byte| format!("{byte:02x}")).collect();
            let line = format!("equations {hex} 1341\nreport\n").into_bytes();
            same("desk", &line, &desk::run(&line));
        }
    }
}

/// A person sees each answer before the next line is typed.
#[test]
fn an_answer_comes_before_the_next_line() {
    let mut child = start("desk");
    let (mut stdin, mut stdout) = (child.stdin.take().expect("piped"), child.stdout.take().expect("piped"));
    for _ in 0..3 {
        stdin.write_all(b"rep").expect("it reads");
        stdin.flush().expect("it reads");
        stdin.write_all(b"ort\n").expect("it reads");
        let mut answer = [0; 11];
        stdout.read_exact(&mut answer).expect("it answers");
        assert_eq!(&answer, b"refused 13\n");
    }
    drop(stdin);
    assert!(child.wait().expect("it ends").success());
}

/// Nobody reads: the program ends, by the system's signal or by itself, and does not crash.
#[test]
fn an_output_that_is_closed() {
    use std::os::unix::process::ExitStatusExt;
    let mut child = start("desk");
    drop(child.stdout.take());
    let mut stdin = child.stdin.take().expect("piped");
    for _ in 0..1_000 {
        if stdin.write_all(b"report\n").is_err() {
            break;
        }
    }
    drop(stdin);
    let status = child.wait().expect("it ends");
    assert!(status.success() || status.signal() == Some(13), "{status:?}");
}
