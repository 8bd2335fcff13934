//! The small programs, each from what it reads to what it prints.

use crate::circuit::{self, Circuit};
use crate::{builder, equations, examine, listing};

/// A longer equation file is not read.
const LONGEST_FILE: usize = 65_535;

/// The build program: raw bytes n, m, D and m rows in; the built circuit's listing, or `refused N`, out.
pub fn build(input: &[u8]) -> Vec<u8> {
    let text = match built(input) {
        Ok(circuit) => {
            let depth = examine::work(&circuit).depth(&circuit.outs);
            format!("{}\n{}", listing::counts(&circuit, depth), listing::body(&circuit))
        }
        Err(number) => format!("refused {number}\n"),
    };
    text.into_bytes()
}

fn built(input: &[u8]) -> Result<Circuit, u8> {
    match input {
        [n, m, d, rows @ ..] if rows.len() == *m as usize => builder::build((*n).into(), rows, (*d).into()),
        _ => Err(2),
    }
}

/// The equations program: a file in; one line out, the stored circuit in hex, or the refusal with its place
/// for a person to find it.
pub fn equations(input: &[u8]) -> Vec<u8> {
    if input.len() > LONGEST_FILE {
        return b"unreadable\n".to_vec();
    }
    let line = match equations::read(input) {
        Ok(circuit) => listing::hex(&circuit::write(&circuit)),
        Err(refusal) => {
            let found = refusal.place.map_or(String::new(), |place| line_and_column(input, place));
            listing::not_read(&refusal) + &found
        }
    };
    (line + "\n").into_bytes()
}

/// Where a place is: lines and columns are counted from 1, columns in bytes.
fn line_and_column(text: &[u8], place: usize) -> String {
    let lines: Vec<&[u8]> = text[..place].split(|&byte| byte == b'\n').collect();
    format!(" line {} column {}", lines.len(), lines[lines.len() - 1].len() + 1)
}

#[cfg(test)]
mod tests {
    use super::{build, equations};

    #[test]
    fn prints_the_example() {
        let text = "inputs 3 outputs 3 gates 3 depth 2\nt0 = x0 ^ x1\nt1 = x2 ^ t0\nt2 = x1 ^ x2\n\
                    y0 = t0\ny1 = t1\ny2 = t2\n";
        assert_eq!(build(&[3, 3, 2, 3, 7, 6]), text.as_bytes());
        assert_eq!(build(&[1, 1, 0, 1]), b"inputs 1 outputs 1 gates 0 depth 0\ny0 = x0\n");
    }

    #[test]
    fn prints_the_depth_of_the_outputs() {
        // Its gate t3 is one deeper than any output, and nothing reads it.
        let text = build(&[8, 6, 7, 14, 51, 15, 12, 215, 197]);
        assert!(text.starts_with(b"inputs 8 outputs 6 gates 11 depth 3\n"));
    }

    #[test]
    fn prints_refusals() {
        let long = [&[3u8, 40, 2][..], &[1; 40]].concat();
        for (input, number) in [
            (&[][..], 2),
            (&[3, 3], 2),
            (&[0, 1, 16], 2),
            (&[3, 3, 2, 3, 7], 2),
            (&[3, 1, 2, 3, 7], 2),
            (&[3, 0, 2], 1),
            (&[0, 1, 16, 1], 1),
            (&[9, 1, 2, 1], 1),
            (&long[..], 1),
            (&[3, 1, 16, 8], 8),
            (&[3, 1, 16, 0], 8),
            (&[3, 1, 16, 7], 9),
            (&[3, 1, 1, 7], 10),
        ] {
            assert_eq!(build(input), format!("refused {number}\n").into_bytes(), "{input:?}");
        }
    }

    fn line(file: &str) -> String {
        String::from_utf8(equations(file.as_bytes())).unwrap()
    }

    #[test]
    fn prints_a_read_file() {
        assert_eq!(line("y0 = x0 & x1"), "534802010147540200014f5002\n");
        assert_eq!(line("\n  y0=x0\n"), "53480101004f5000\n");
    }

    #[test]
    fn prints_where_a_file_is_refused() {
        assert_eq!(line("a = x0\nb = x1 & a\ny0 = a &\n"), "refused 15 26 line 3 column 9\n");
        assert_eq!(line("a = x0\nb = x1 & a\ny0 = a &"), "refused 15 26 line 3 column 9\n");
        assert_eq!(line("?"), "refused 15 0 line 1 column 1\n");
        assert_eq!(line("\n\n ?"), "refused 15 3 line 3 column 2\n");
        assert_eq!(line("y0 = x0\n\ny1 = carry ^ x1\n"), "refused 16 18 line 3 column 10\n");
        assert_eq!(line("a"), "refused 15 1 line 1 column 2\n");
        assert_eq!(line("a = \u{e9}"), "refused 15 4 line 1 column 5\n");
        assert_eq!(line(""), "refused 17\n");
        assert_eq!(line("y1 = x0"), "refused 17\n");
        assert_eq!(line(&format!("y0 = {}x0", "~".repeat(249))), "refused 1\n");
    }

    #[test]
    fn a_file_too_long_is_not_read() {
        let long = |length: usize| format!("y0 = x0{}", " ".repeat(length - 7));
        assert_eq!(line(&long(65_535)), "53480101004f5000\n");
        assert_eq!(line(&long(65_536)), "unreadable\n");
        assert_eq!(line(&"?".repeat(65_535)), "refused 15 0 line 1 column 1\n");
        assert_eq!(line(&"?".repeat(1_000_000)), "unreadable\n");
    }
}
