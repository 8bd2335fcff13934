//! The desk over standard input and standard output: a call a line, answered as it comes.

use std::io;

fn main() -> io::Result<()> {
    reference::desk::serve(io::stdin().lock(), io::stdout().lock())
}
