//! Runs a linked program on some bytes, in a stack of 1 MiB.

use std::process::{Child, Command, Output, Stdio};
use std::sync::atomic::{AtomicUsize, Ordering};
use std::{env, fs, process};

/// The shell's command for a program of target/bin.
const PROGRAM: &str = "ulimit -s 1024; exec \"$0/.ci/x86-64\" \"$0/target/bin/$1\"";

/// What a program of target/bin writes on this input, and how it ends. The input comes through a pipe, and another program fills it:
/// under an emulator a process with threads of its own cannot safely start programs.
pub fn run(name: &str, input: &[u8]) -> Output {
    static RUNS: AtomicUsize = AtomicUsize::new(0);
    let place = format!("allpawasi-{}-{}", process::id(), RUNS.fetch_add(1, Ordering::Relaxed));
    let file = env::temp_dir().join(place);
    fs::write(&file, input).expect("there is room for it");
    let child = shell(&format!("cat \"$2\" | {{ {PROGRAM}; }}"), name).arg(&file).spawn().expect("the program is linked");
    let output = child.wait_with_output().expect("it ends");
    fs::remove_file(&file).expect("it is there");
    output
}

/// The program with its standard input and output piped.
pub fn start(name: &str) -> Child {
    shell(PROGRAM, name).stdin(Stdio::piped()).spawn().expect("the program is linked")
}

/// The shell with a command in which `$0` is the repository and `$1` the program.
fn shell(command: &str, name: &str) -> Command {
    let mut shell = Command::new("sh");
    shell.args(["-c", command, concat!(env!("CARGO_MANIFEST_DIR"), "/.."), name]).stdout(Stdio::piped());
    shell
}
