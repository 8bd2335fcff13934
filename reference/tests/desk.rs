//! The call language: its example, each call's answer, what is no call, and the two programs.

use std::io::{BufRead, BufReader, Write};
use std::process::{Command, Stdio};

use reference::desk::run;

const OPEN: &str = "open 534802010147540200014f5002 table 00000001 1 1 1\n";

fn answers(input: &str) -> String {
    String::from_utf8(run(input.as_bytes())).unwrap()
}

/// The answer to one line on a bench with the AND gate open.
fn on_open(line: &str) -> String {
    answers(&format!("{OPEN}{line}\n")).strip_prefix("opened\n").unwrap().to_string()
}

const EXAMPLE: &str = "gate 0 3 0 1\nreport\nentry 0 1\nreport\ngate 7 3 0 1\n";
const EXAMPLE_ANSWERS: &str = "opened\n\
    report gates 1 xor 0 nonlinear 1 not 0 depth 1 anddepth 1 pass\n\
    reworked 1 2\n\
    report gates 1 xor 0 nonlinear 1 not 0 depth 1 anddepth 1 wrong 0 0\n\
    reworked 0\n\
    report gates 1 xor 0 nonlinear 1 not 0 depth 1 anddepth 1 wrong 1 0\n\
    refused 12\n";

#[test]
fn answers_the_example() {
    assert_eq!(answers(&format!("{OPEN}report\n{EXAMPLE}")), EXAMPLE_ANSWERS);
}

#[test]
fn shows_and_holds() {
    assert_eq!(
        on_open("gate 0 3 0 1\nshow"),
        "reworked 1 2\ninputs 2 outputs 1 gates 1 depth 1 anddepth 1\nt0 = ~(x0 & x1)\ny0 = t0\nwrong 0 0\n"
    );
    assert_eq!(on_open("held"), "held 3 0:0:0:0a 1:0:0:0c 2:1:1:08\n");
    assert_eq!(on_open("gate 0 3 0 1\nheld"), "reworked 1 2\nheld 3 0:0:0:0a 1:0:0:0c 2:1:1:07\n");
    let kinds = "open 5348030107475400000147540100014754020001475403000147540400014754050001\
                 47540608004f5000 table 0001000100010001 9 9 9\nshow\nheld\n";
    assert_eq!(
        answers(kinds),
        "opened\ninputs 3 outputs 1 gates 7 depth 0 anddepth 0\nt0 = x0 ^ x1\nt1 = ~(x0 ^ x1)\n\
         t2 = x0 & x1\nt3 = ~(x0 & x1)\nt4 = x0 | x1\nt5 = ~(x0 | x1)\nt6 = ~t5\ny0 = x0\npass\n\
         held 10 0:0:0:aa 1:0:0:cc 2:0:0:f0 3:1:0:66 4:1:0:99 5:1:1:88 6:1:1:77 7:1:1:ee 8:1:1:11 9:2:1:ee\n"
    );
    let four = answers(
        "open 534804010047540000014f5003 matrix 0800 0 0 0\nopen 53480401004F5003 matrix 0800 0 0 0\nheld\n",
    );
    assert_eq!(four, "refused 2\nopened\nheld 4 0:0:0:aaaa 1:0:0:cccc 2:0:0:f0f0 3:0:0:00ff\n");
}

#[test]
fn depths_end_at_the_outputs() {
    assert_eq!(
        on_open("output 0 0\nreport\nshow\nheld\noutput 0 2\nreport"),
        "reworked 0\nreport gates 1 xor 0 nonlinear 1 not 0 depth 0 anddepth 0 wrong 1 0\n\
         inputs 2 outputs 1 gates 1 depth 0 anddepth 0\nt0 = x0 & x1\ny0 = x0\nwrong 1 0\n\
         held 3 0:0:0:0a 1:0:0:0c 2:1:1:08\nreworked 0\n\
         report gates 1 xor 0 nonlinear 1 not 0 depth 1 anddepth 1 pass\n"
    );
}

#[test]
fn stores_builds_and_measures() {
    assert_eq!(on_open("store 13"), "stored 13 534802010147540200014f5002\n");
    assert_eq!(on_open("store 18446744073709551615"), "stored 13 534802010147540200014f5002\n");
    assert_eq!(on_open("store 12\nstore 0"), "refused 11\nrefused 11\n");
    let built = "built 29 53480303034754000001475400020347540001024f50034f50044f5005\n";
    assert_eq!(answers("build 3 030706 2 29\n"), built);
    assert_eq!(answers("build 3 030706 2 18446744073709551615\n"), built);
    assert_eq!(answers("build 3 030706 2 28\nbuild 3 030706 1 0\n"), "refused 11\nrefused 10\n");
    assert_eq!(answers("build 300 030706 2 0\nbuild 3 - 2 0\n"), "refused 1\nrefused 1\n");
    assert_eq!(answers("build 3 030800 300 0\nbuild 3 03 300 0\n"), "refused 8\nrefused 9\n");
    let k6 = "distance 4 0102040807 0000000002 15";
    assert_eq!(
        answers(&format!("{k6} 3\n{k6} 2\n{k6} 1\n")),
        "distance 1 3 4\ndistance 3 0 1 2 3\ndistance none\n"
    );
    assert_eq!(answers("distance 2 030003 020001 3 1\n"), "distance 0 2\n");
    let last = format!("distance 1 {}01 {} 1 0\n", "00".repeat(255), "00".repeat(256));
    assert_eq!(answers(&last), "distance 0 255\n");
    let refusals =
        "distance 300 - - 0 300\ndistance 4 - - 0 300\ndistance 4 01 00 300 300\ndistance 4 01 00 1 300\n";
    assert_eq!(answers(refusals), "refused 1\nrefused 2\nrefused 8\nrefused 9\n");
}

/// The program of K1: lines 3, 4 and 5 have masks 3, 7 and 6 and depths 1, 2 and 1.
const K1: &str =
    "open 53480303034754000001475400020347540001024f50034f50044f5005 matrix 030706000000 3 2 0\n";

/// The answer to some lines on a bench with the program of K1 open.
fn on_k1(lines: &str) -> String {
    answers(&format!("{K1}{lines}\n")).strip_prefix("opened\n").unwrap().to_string()
}

#[test]
fn hints() {
    assert_eq!(on_k1("hint 0 15\nhint 1 2\nhint 2 1"), "distance 0 3\ndistance 0 4\ndistance 0 5\n");
    assert_eq!(on_k1("hint 0 0\nhint 1 1\nhint  001 2 "), "distance none\ndistance none\ndistance 0 4\n");
    // With gate 1 another, row 7 is line 0 with 5 or line 2 with 3.
    assert_eq!(on_k1("gate 1 0 0 0\nhint 1 2\nhint 1 1"), "reworked 1 4\ndistance 1 0 5\ndistance none\n");
    assert_eq!(on_k1("entry 1 5\nhint 1 1\nhint 1 0"), "reworked 0\ndistance 1 0 2\ndistance none\n");
    let new = "open 53480401004f5000 matrix 0f00 0 0 0\n";
    assert_eq!(answers(&format!("{new}hint 0 2\nhint 0 1\n")), "opened\ndistance 3 0 1 2 3\ndistance none\n");
    let big = u64::MAX;
    for (line, number) in [
        ("hint 3 300".to_string(), 12),
        (format!("hint 300 {big}"), 12),
        (format!("hint {big} 16"), 12),
        ("hint 0 16".to_string(), 9),
        ("hint 2 300".to_string(), 9),
        (format!("hint 1 {big}"), 9),
    ] {
        assert_eq!(on_k1(&line), format!("refused {number}\n"), "{line}");
        assert_eq!(
            on_k1(&format!("{line}\nshow\nheld")),
            format!("refused {number}\n{}", on_k1("show\nheld"))
        );
    }
    assert_eq!(on_open("hint 0 1\nhint 9 16\nhint 0 300"), "refused 12\n".repeat(3));
    assert_eq!(on_k1("hint 0 2\nshow\nheld"), format!("distance 0 3\n{}", on_k1("show\nheld")));
}

#[test]
fn rows_with_constants() {
    // One XNOR: its row is x0 ^ x1 with a constant 1.
    let open = |rows: &str| format!("open 534802010147540100014f5002 matrix {rows} 1 1 0\n");
    let on_xnor = |lines: &str| {
        answers(&format!("{}{lines}\n", open("0301"))).strip_prefix("opened\n").unwrap().to_string()
    };
    let report =
        |verdict: &str| format!("report gates 1 xor 1 nonlinear 0 not 0 depth 1 anddepth 0 {verdict}\n");
    assert_eq!(on_xnor("report"), report("pass"));
    assert_eq!(on_xnor("entry 0 3\nreport"), format!("reworked 0\n{}", report("wrong 0 0")));
    assert_eq!(
        on_xnor("entry 0 3 0\nentry 0 3 1\nreport"),
        format!("reworked 0\nreworked 0\n{}", report("pass"))
    );
    assert_eq!(on_xnor("entry 0 0 1\nreport"), format!("reworked 0\n{}", report("wrong 1 0")));
    for refused in [
        "entry 0 3 2",
        "entry 0 4 1",
        "entry 0 4",
        "entry 0 3 18446744073709551615",
        "entry 0 1099511627776 0",
    ] {
        assert_eq!(
            on_xnor(&format!("{refused}\nreport")),
            format!("refused 8\n{}", report("pass")),
            "{refused}"
        );
    }
    assert_eq!(on_xnor("entry 1 3 2\nentry 1 4 1\nentry 1 0"), "refused 12\n".repeat(3));
    assert_eq!(
        on_xnor("entry 0 3 1 1\nentry 0 3 one\nreport"),
        format!("{}{}", "unreadable\n".repeat(2), report("pass"))
    );
    assert_eq!(
        on_xnor("hint 0 1\nentry 0 0 1\nhint 0 1\nhint 0 16\nhint 1 16"),
        "distance 0 2\nreworked 0\nrefused 8\nrefused 8\nrefused 12\n"
    );
    assert_eq!(
        on_xnor("gate 0 6 1 0\nappend 1 2 0\ngate 0 3 0 1\nappend 4 0 0"),
        "reworked 1 2\nreworked 1 3\nrefused 7\nrefused 7\n"
    );
    for rows in ["03", "-", "030100", "0401", "0302", "03ff"] {
        assert_eq!(answers(&open(rows)), "refused 8\n", "{rows}");
    }
    assert_eq!(answers(&(open("0001") + "report\n")), format!("opened\n{}", report("wrong 1 0")));
}

#[test]
fn builds_with_late_signals() {
    let call = "late 3 020000 030706 030301";
    let built = "built 29 53480303034754000001475400010247540000044f50034f50054f5004\n";
    assert_eq!(answers(&format!("{call} 29\n{call} 18446744073709551615\n")), built.repeat(2));
    assert_eq!(answers(&format!("{call} 28\nlate 3 020000 030706 030201 0\n")), "refused 11\nrefused 10\n");
    assert_eq!(answers("late 1 0F 01 0f 8\n"), "built 8 53480101004f5000\n");
    assert_eq!(answers("late 3 000000 030706 020202 29\n"), answers("build 3 030706 2 29\n"));
    assert_eq!(answers("late 300 - - - 0\nlate 3 - - 10 0\n"), "refused 1\n".repeat(2));
    assert_eq!(
        answers("late 3 - 00 10 0\nlate 3 000010 00 - 0\nlate 3 00 00 1010 0\n"),
        "refused 2\n".repeat(3)
    );
    assert_eq!(answers("late 3 000010 0308 1010 0\nlate 3 000010 00 10 0\n"), "refused 8\n".repeat(2));
    assert_eq!(answers("late 3 020010 0307 0101 0\nlate 3 020000 0307 01ff 0\n"), "refused 9\n".repeat(2));
    assert_eq!(on_open("late 300 - - - 0\nreport"), format!("refused 1\n{}", on_open("report")));
}

/// The call for a file, with room for any circuit.
fn equations(file: &str) -> String {
    let hex: String = file.bytes().map(|byte| format!("{byte:02x}")).collect();
    answers(&format!("equations {} 1341\n", if hex.is_empty() { "-" } else { &hex }))
}

#[test]
fn reads_equations() {
    let file = "7930203d20783020262078310a";
    let read = "read 13 534802010147540200014f5002\n";
    assert_eq!(
        answers(&format!("equations {file} 13\nequations {file} 18446744073709551615\n")),
        read.repeat(2)
    );
    assert_eq!(answers(&format!("equations {file} 12\nequations {file} 0\n")), "refused 11\n".repeat(2));
    assert_eq!(equations("y0 = x0 & x1\n"), read);
    assert_eq!(equations("y0 = x0 &\n"), "refused 15 9\n");
    assert_eq!(equations("y0 = x0 &"), "refused 15 9\n");
    assert_eq!(equations("?"), "refused 15 0\n");
    assert_eq!(equations("y0 = carry & x1"), "refused 16 9\n");
    assert_eq!(equations(""), "refused 17\n");
    assert_eq!(equations(&format!("y0 = {}x0", "~".repeat(249))), "refused 1\n");
    assert_eq!(
        on_open("equations 7930 3\nreport"),
        on_open("equations 7930 3").to_string() + &on_open("report")
    );
    let long = |spaces: usize| format!("equations {} 1341", "20".repeat(spaces));
    assert_eq!(long(32_760).len(), 65_535);
    assert_eq!(answers(&long(32_760)), "refused 17\n");
    assert_eq!(answers(&long(32_761)), "unreadable\n");
}

/// The request's morning: a gate that feeds nothing, and copies of copies in either order.
const MORNING: &str = "open 534802030847540000014754020001475400010047540202044754060400475406020047540005\
                       0647540007054f50084f50094f5001 table 04040404 9 9 9\n";

#[test]
fn sweeps_and_appends() {
    let after = "inputs 2 outputs 3 gates 4 depth 3 anddepth 1\nt0 = x0 ^ x1\nt1 = t0 & t0\nt2 = ~t0\n\
                 t3 = t1 ^ t2\ny0 = t3\ny1 = t3\ny2 = x1\nwrong 0 0\n";
    let stored = "stored 34 53480203044754000001475402020247540602004754000304\
                  4f50054f50054f5001\n";
    assert_eq!(
        answers(&format!("{MORNING}sweep\nshow\nstore 34\nsweep\n")),
        format!("opened\nreworked 4 2 3 4 5\n{after}{stored}reworked 4 2 3 4 5\n")
    );
    assert_eq!(
        on_open("append 6 2 0\nappend 0 3 2\nheld\nsweep\noutput 0 1\nsweep\nshow"),
        "reworked 1 3\nreworked 1 4\nheld 5 0:0:0:0a 1:0:0:0c 2:1:1:08 3:2:1:07 4:3:1:0f\nreworked 1 2\n\
         reworked 0\nreworked 0\ninputs 2 outputs 1 gates 0 depth 0 anddepth 0\ny0 = x1\nwrong 2 0\n"
    );
}

#[test]
fn a_full_list_takes_no_more() {
    let full = "append 0 0 1\n".repeat(247);
    let added: String = (3..250).map(|line| format!("reworked 1 {line}\n")).collect();
    assert_eq!(
        on_open(&format!("{full}append 0 0 1\nappend 300 300 300\nsweep\nappend 300 0 0\nappend 0 2 2")),
        format!("{added}refused 18\nrefused 18\nreworked 1 2\nrefused 4\nreworked 1 3\n")
    );
}

#[test]
fn large_numbers_are_refused_by_what_they_name() {
    for (line, number) in [
        ("gate 300 0 0 0", 12),
        ("gate 0 300 0 0", 4),
        ("gate 0 0 300 0", 5),
        ("gate 0 0 0 300", 5),
        ("append 300 0 0", 4),
        ("append 7 300 300", 4),
        ("append 0 300 0", 5),
        ("append 0 0 300", 5),
        ("append 0 3 0", 5),
        ("append 6 0 1", 5),
        ("append 18446744073709551615 0 0", 4),
        ("append 0 0 18446744073709551615", 5),
        ("output 0 300", 6),
        ("output 300 0", 12),
        ("entry 999 0", 12),
        ("entry 0 999", 8),
        ("entry 999 999 999", 12),
        ("entry 0 1 1", 8),
        ("entry 0 999 0", 8),
        ("entry 0 0 18446744073709551615", 8),
        ("gate 18446744073709551615 9 9 9", 12),
        ("entry 0 18446744073709551615", 8),
    ] {
        assert_eq!(on_open(line), format!("refused {number}\n"), "{line}");
    }
}

#[test]
fn with_nothing_open() {
    let calls = "report\ngate 0 0 0 0\noutput 0 0\nentry 0 0\nlimits 0 0 0\nstore 0\nheld\nshow\n\
                 sweep\nappend 300 300 300\nhint 300 300\nentry 300 300 300\n";
    assert_eq!(answers(calls), "refused 13\n".repeat(12));
    assert_eq!(
        answers(&format!("new\n{OPEN}new\n{calls}")),
        format!("new\nopened\nnew\n{}", "refused 13\n".repeat(12))
    );
}

fn all_unreadable(lines: &[&str]) {
    for line in lines {
        assert_eq!(on_open(line), "unreadable\n", "{line:?}");
    }
}

#[test]
fn unknown_words_and_counts_are_no_call() {
    all_unreadable(&["Report", "report 1", "new x", "held 0", "show all", "-", "open", "store", "gate"]);
    all_unreadable(&[
        "gate 0 3 0",
        "gate 0 3 0 1 1",
        "output 0",
        "output 0 0 0",
        "entry",
        "entry 0",
        "limits 1 1",
    ]);
    all_unreadable(&[
        "entry 0 0 0 0",
        "entry 0 1 0 x",
        "entry 0 0 x",
        "entry 0 0 -",
        "entry 0 x 0",
        "Entry 0 0 0",
    ]);
    all_unreadable(&["sweep 0", "sweep all", "Sweep", "sweeps", "append", "append 0 0", "append 0 0 0 0"]);
    all_unreadable(&["build 3 03 2", "build 3 03 2 29 1", "distance 4 01 00 1", "distance 4 01 00 1 1 1"]);
    all_unreadable(&["hint", "hint 0", "hint 0 1 1", "Hint 0 1", "hints 0 1", "hint0 1"]);
    all_unreadable(&["late", "late 3 000000 07 03", "late 3 000000 07 03 29 1", "Late 3 000000 07 03 29"]);
    all_unreadable(&["equations", "equations -", "equations - 1 1", "equations 7 1", "equations 79 x"]);
    all_unreadable(&["open - matrix - 0 0", "open - Matrix - 0 0 0", "open 53 48 table - 0 0 0"]);
    all_unreadable(&["\treport", "report\t", "report\r\r", "\rreport", " #"]);
    assert_eq!(run(b"\xff\xfe\nreport\x00\n"), b"unreadable\nunreadable\n");
}

#[test]
fn numbers_and_hex_that_are_none() {
    all_unreadable(&["gate -1 3 0 1", "gate +0 3 0 1", "gate 0x0 3 0 1", "gate 18446744073709551616 3 0 1"]);
    all_unreadable(&["append x 0 0", "append 0 -1 0", "append 0 0 18446744073709551616", "append 0x0 0 0"]);
    all_unreadable(&["limits 256 0 0", "limits 0 256 0", "limits 0 0 256", "open - matrix - 0 0 256"]);
    all_unreadable(&[
        "store -",
        "store 1.0",
        "distance 4 01 00 x 1",
        "distance 4 01 0 1 1",
        "build 3 03070 2 29",
    ]);
    all_unreadable(&["hint x 1", "hint 0 x", "hint -1 0", "hint 0 1.", "hint 18446744073709551616 0"]);
    all_unreadable(&["late x 00 01 00 8", "late 1 0 01 00 8", "late 1 00 1 00 8", "late 1 00 01 0g 8"]);
    all_unreadable(&["late 1 00 01 00 -", "late 1 00 01 00 18446744073709551616", "late 1 00 -- 00 8"]);
    all_unreadable(&["open 5 matrix - 0 0 0", "open 5g matrix - 0 0 0", "open -- matrix - 0 0 0"]);
    assert_eq!(answers("limits 256 0 0\nopen - table - 0 0 256\n"), "unreadable\nunreadable\n");
}

#[test]
fn an_unreadable_line_changes_nothing() {
    let pass = "report gates 1 xor 0 nonlinear 1 not 0 depth 1 anddepth 1 pass\n";
    assert_eq!(on_open("limits 256 0 0\ngate 0 3 0\nreport"), format!("unreadable\nunreadable\n{pass}"));
}

#[test]
fn spaces_ends_of_line_and_remarks() {
    assert_eq!(answers(""), "");
    assert_eq!(answers("\n\n  \n\r\n# report\n#report\n#"), "");
    assert_eq!(answers("  report  \r\nreport"), "refused 13\nrefused 13\n");
    assert_eq!(on_open("gate   0 003  0 1"), "reworked 1 2\n");
    assert_eq!(answers("open - table - 0 0 0\n"), "refused 2\n");
    assert_eq!(answers("report\r"), "unreadable\n");
}

#[test]
fn long_lines() {
    let fill = |line: &str, length: usize| format!("{line}{}", " ".repeat(length - line.len()));
    assert_eq!(answers(&fill("report", 65_535)), "refused 13\n");
    assert_eq!(answers(&(fill("report", 65_535) + "\r\nnew\n")), "refused 13\nnew\n");
    assert_eq!(answers(&(fill("report", 65_536) + "\nnew\n")), "unreadable\nnew\n");
    assert_eq!(answers(&(fill("report", 65_536) + "\r\nnew\n")), "unreadable\nnew\n");
    assert_eq!(answers(&(fill("#", 65_535) + "\nnew\n")), "new\n");
    assert_eq!(answers(&(fill("#", 65_536) + "\nnew\n")), "unreadable\nnew\n");
    assert_eq!(answers(&(fill("", 65_536) + "\nnew\n")), "unreadable\nnew\n");
    assert_eq!(answers(&fill("report", 1_000_000)), "unreadable\n");
}

fn piped(program: &str, input: &[u8]) -> Vec<u8> {
    let mut child = Command::new(program).stdin(Stdio::piped()).stdout(Stdio::piped()).spawn().unwrap();
    child.stdin.take().unwrap().write_all(input).unwrap();
    let output = child.wait_with_output().unwrap();
    assert!(output.status.success());
    output.stdout
}

#[test]
fn the_programs_read_and_write() {
    let desk = piped(env!("CARGO_BIN_EXE_desk"), format!("{OPEN}report\n{EXAMPLE}").as_bytes());
    assert_eq!(desk, EXAMPLE_ANSWERS.as_bytes());
    let build = env!("CARGO_BIN_EXE_build-program");
    assert_eq!(piped(build, &[3, 3, 2, 3, 7, 6]), reference::program::build(&[3, 3, 2, 3, 7, 6]));
    assert_eq!(piped(build, &[]), b"refused 2\n");
    let equations = env!("CARGO_BIN_EXE_equations");
    assert_eq!(piped(equations, b"y0 = x0 & x1\n"), b"534802010147540200014f5002\n");
    assert_eq!(piped(equations, b"y0 = x0\ny1 = y2\n"), b"refused 16 14 line 2 column 7\n");
}

#[test]
fn each_line_is_answered_as_it_comes() {
    let program = env!("CARGO_BIN_EXE_desk");
    let mut child = Command::new(program).stdin(Stdio::piped()).stdout(Stdio::piped()).spawn().unwrap();
    let mut input = child.stdin.take().unwrap();
    let mut output = BufReader::new(child.stdout.take().unwrap());
    for (sent, answer) in [("new\nrep", "new\n"), ("ort\n#", "refused 13\n"), ("\nheld\n", "refused 13\n")] {
        input.write_all(sent.as_bytes()).unwrap();
        let mut line = String::new();
        output.read_line(&mut line).unwrap();
        assert_eq!(line, answer);
    }
    drop(input);
    assert!(child.wait().unwrap().success());
}
