//! Equation files: refusals and their places, the stored bytes and every byte of the room, and that each circuit gives what
//! its file's formulas say.

use allpawasi::{equations, NotRead};
use compare::edges::edges;
use compare::files::{damaged, file};
use compare::long_files::{designers, worst};
use compare::met::{Kind, Met};
use reference::circuit::read;
use reference::equations::{read_into, Refusal};
use reference::plain::bench::values;
use reference::plain::equations as plain;
use reference::rng::Rng;

/// Every refusal of an equation file.
const REFUSALS: [usize; 5] = [1, 11, 15, 16, 17];

/// Room for every circuit.
const ROOM: usize = 1341;

fn ours(refusal: Refusal) -> NotRead {
    NotRead { refusal: refusal.number.into(), place: refusal.place }
}

/// Both programs on the same file and the same room: the stored bytes where it is read.
fn compare(met: &mut Met, text: &[u8], room: usize) -> Option<Vec<u8>> {
    let mut lent = vec![0xA5; room];
    let mut other = lent.clone();
    let answer = equations(text, &mut lent);
    let expected = read_into(text, &mut other).map_err(ours);
    assert_eq!(answer, expected, "answer for {:?}, room {room}", String::from_utf8_lossy(text));
    assert_eq!(lent, other, "room of {room} after {:?}", String::from_utf8_lossy(text));
    met.answer("equations", &answer.map_err(|not_read| not_read.refusal), |_| Kind::Done);
    answer.ok().map(|count| lent[..count].to_vec())
}

/// The circuit's outputs on every input value are those that the formulas say.
fn gives_what_it_says(text: &[u8], bytes: &[u8]) {
    let c = read(bytes, false).expect("a stored circuit");
    let file = plain::file(text).expect("a good file");
    for x in 0..1 << c.n {
        let lines = values(&c, x);
        let given: Vec<bool> = c.outs.iter().map(|&line| lines[line as usize]).collect();
        assert_eq!(given, plain::outputs(&file, x), "outputs on {x} of {:?}", String::from_utf8_lossy(text));
    }
}

/// A file in a room for every circuit; where it is read what it gives, and rooms about the exact one; where it is not, no
/// room at all.
fn whole(met: &mut Met, text: &[u8]) {
    match compare(met, text, ROOM) {
        None => drop(compare(met, text, 0)),
        Some(bytes) => {
            gives_what_it_says(text, &bytes);
            for room in [0, bytes.len() - 1, bytes.len(), bytes.len() + 1] {
                compare(met, text, room);
            }
        }
    }
}

#[test]
fn random_files_sound_and_damaged() {
    let (mut rng, mut met) = (Rng::new(31), Met::default());
    for _ in 0..8_000 {
        let text = file(&mut rng);
        whole(&mut met, &text);
        (0..3).for_each(|_| whole(&mut met, &damaged(&mut rng, &text)));
    }
    met.ends_often("random equation files", "equations", &REFUSALS, 1_000);
}

/// Every edge as it is, cut short anywhere and damaged.
#[test]
fn every_edge() {
    let (mut rng, mut met) = (Rng::new(32), Met::default());
    for edge in edges() {
        let text = edge.as_bytes();
        whole(&mut met, text);
        let cuts = text.len().saturating_sub(300)..text.len();
        cuts.for_each(|end| drop(compare(&mut met, &text[..end], ROOM)));
        (0..200).for_each(|_| whole(&mut met, &damaged(&mut rng, text)));
    }
    met.ends_often("every edge of equation files", "equations", &REFUSALS, 300);
}

/// At every place of a file every byte put in, every byte in place of the one that is there, and that one left out.
#[test]
fn every_byte_at_every_place() {
    let mut met = Met::default();
    let text = b"ab = x0 & ~(x1 ^ x2)\n\n y1 = ab\ny0 = (y1 | ~ab) ^ x1 & x2 \n";
    for at in 0..=text.len() {
        let (before, after) = text.split_at(at);
        let rest = after.get(1..).unwrap_or_default();
        compare(&mut met, &[before, rest].concat(), ROOM);
        for byte in 0..=255 {
            compare(&mut met, &[before, &[byte], after].concat(), ROOM);
            compare(&mut met, &[before, &[byte], rest].concat(), ROOM);
        }
    }
    met.ends_often("every byte at every place", "equations", &[15, 16, 17], 20);
}

#[test]
fn every_room_for_a_file() {
    let mut met = Met::default();
    (0..=40).for_each(|room| drop(compare(&mut met, b"a = x0 & x1\ny0 = a ^ x2\ny1 = a", room)));
    met.ends("every room for a file", "equations", &[11]);
}

/// Every text of up to so many of these pieces after a beginning.
fn every_text(met: &mut Met, begin: &[u8], pieces: &[&[u8]], most: usize) {
    if let Some(bytes) = compare(met, begin, ROOM) {
        gives_what_it_says(begin, &bytes);
    }
    if most > 0 {
        pieces.iter().for_each(|piece| every_text(met, &[begin, piece].concat(), pieces, most - 1));
    }
}

#[test]
fn every_short_text() {
    let mut met = Met::default();
    let bytes: [&[u8]; 11] = [b"a", b"x", b"0", b"y", b" ", b"\n", b"=", b"~", b"&", b"(", b")"];
    for begin in [&b""[..], b"y0=x0", b"y0=(x0&", b"a=x1\ny0=~"] {
        every_text(&mut met, begin, &bytes, 4);
    }
    let formula: [&[u8]; 9] = [b"x0", b"x1", b"a", b"~", b"&", b"^", b"|", b"(", b")"];
    every_text(&mut met, b"a=x2\ny0=", &formula, 5);
    met.ends_often("every short text", "equations", &[15, 16, 17], 30);
}

/// Files as long as the programs read, and longer.
#[test]
fn long_files() {
    let (mut rng, mut met) = (Rng::new(33), Met::default());
    whole(&mut met, &designers());
    let bytes = compare(&mut met, &designers(), ROOM).expect("it is sound");
    assert_eq!(bytes[..5], [b'S', b'H', 8, 32, 240]);
    for (_, text) in worst() {
        compare(&mut met, &text, ROOM);
        compare(&mut met, &text.repeat(3), ROOM);
        (0..10).for_each(|_| drop(compare(&mut met, &damaged(&mut rng, &text), ROOM)));
    }
    met.ends("long equation files", "equations", &[1, 11, 15, 16, 17]);
}
