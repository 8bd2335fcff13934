//! Equation files: what is read, each edge of what is not, and the plain way beside the quick one.

use reference::circuit::{self, Circuit};
use reference::equations::{read, read_into, Refusal};
use reference::plain::bench::values;
use reference::plain::equations as plain;

/// What both ways answer.
fn both(text: &[u8]) -> Result<Circuit, Refusal> {
    let answer = read(text);
    assert_eq!(answer, plain::read(text), "{:?}", String::from_utf8_lossy(text));
    answer
}

/// The gates as (kind, a, b), and the lines of the outputs.
fn gates(text: &str) -> (u8, Vec<(u8, u8, u8)>, Vec<u8>) {
    let circuit = both(text.as_bytes()).unwrap_or_else(|refusal| panic!("{text:?} is {refusal:?}"));
    (circuit.n, circuit.gates.iter().map(|gate| (gate.kind, gate.a, gate.b)).collect(), circuit.outs)
}

fn refused_bytes(text: &[u8], number: u8, place: Option<usize>) {
    assert_eq!(both(text), Err(Refusal { number, place }), "{:?}", String::from_utf8_lossy(text));
}

fn bad_text(text: &str, place: usize) {
    refused_bytes(text.as_bytes(), 15, Some(place));
}

fn bad_name(text: &str, place: usize) {
    refused_bytes(text.as_bytes(), 16, Some(place));
}

fn refused(text: &str, number: u8) {
    refused_bytes(text.as_bytes(), number, None);
}

/// So many assignments, each of a new name to x0.
fn assignments(count: usize) -> String {
    (0..count).map(|i| format!("n{i} = x0\n")).collect()
}

#[test]
fn the_designers_line() {
    assert_eq!(gates("a = x0 & ~(x1 ^ x2)\ny0 = a\n"), (3, vec![(0, 1, 2), (6, 3, 0), (2, 0, 4)], vec![5]));
}

#[test]
fn signs_bind_in_their_order() {
    assert_eq!(
        gates("y0 = x0 | x1 ^ x2 & ~x3"),
        (4, vec![(6, 3, 0), (2, 2, 4), (0, 1, 5), (4, 0, 6)], vec![7])
    );
    assert_eq!(
        gates("y0 = ~x0 & x1 ^ x2 | x3"),
        (4, vec![(6, 0, 0), (2, 4, 1), (0, 5, 2), (4, 6, 3)], vec![7])
    );
    assert_eq!(gates("y0 = ~(x0 | x1) & x2"), (3, vec![(4, 0, 1), (6, 3, 0), (2, 4, 2)], vec![5]));
}

#[test]
fn equal_signs_group_from_the_left() {
    for (sign, kind) in [('|', 4), ('^', 0), ('&', 2)] {
        let chain = format!("y0 = x3 {sign} x2 {sign} x1 {sign} x0");
        assert_eq!(gates(&chain), (4, vec![(kind, 3, 2), (kind, 4, 1), (kind, 5, 0)], vec![6]));
        let right = format!("y0 = x2 {sign} (x1 {sign} x0)");
        assert_eq!(gates(&right), (3, vec![(kind, 1, 0), (kind, 2, 3)], vec![4]));
    }
}

#[test]
fn operands_are_worked_left_to_right() {
    let two = "y0 = (x1 & x0) ^ (x2 | x1)\ny1 = ~x0 | ~x1";
    let expected = vec![(2, 1, 0), (4, 2, 1), (0, 3, 4), (6, 0, 0), (6, 1, 0), (4, 6, 7)];
    assert_eq!(gates(two), (3, expected, vec![5, 8]));
    assert_eq!(gates("y0 = x1 ^ x2 & x0").1, [(2, 2, 0), (0, 1, 3)]);
    assert_eq!(gates("y0 = x0 ^ x0").1, [(0, 0, 0)]);
}

#[test]
fn not_signs_in_a_row() {
    assert_eq!(gates("y0 = ~~x0"), (1, vec![(6, 0, 0), (6, 1, 0)], vec![2]));
    assert_eq!(gates("y0 = ~ ~  ~x1"), (2, vec![(6, 1, 0), (6, 2, 0), (6, 3, 0)], vec![4]));
    assert_eq!(gates("y0 = ~( ~x0)"), (1, vec![(6, 0, 0), (6, 1, 0)], vec![2]));
    bad_text("y0 = ~", 6);
    bad_text("y0 = ~\n", 6);
    bad_text("y0 = x0~", 7);
    bad_text("y0 = x0 ~ x1", 8);
    bad_text("y0 = ~&x0", 6);
}

#[test]
fn a_bare_name_adds_no_gate() {
    assert_eq!(gates("a = x2\nb = a\ny0 = ((b))\ny1 = b ^ a"), (3, vec![(0, 2, 2)], vec![2, 3]));
    assert_eq!(gates("y0 = x7"), (8, vec![], vec![7]));
    assert_eq!(gates("a = ~x0\nb = a\ny1 = b\ny0 = a"), (1, vec![(6, 0, 0)], vec![1, 1]));
}

#[test]
fn inputs_and_names_like_them() {
    assert_eq!(gates("unused = x7\ny0 = x0 & x1"), (8, vec![(2, 0, 1)], vec![8]));
    assert_eq!(gates("x8 = x0\nx07 = x8\nx = x07\nX0 = x\ny0 = X0"), (1, vec![], vec![0]));
    for i in 0..8 {
        bad_name(&format!("a = x0\nx{i} = a"), 8);
        bad_name(&format!("x{i} ?"), 1);
    }
    bad_name("y0 = x8", 6);
    bad_name("y0 = x07", 7);
    bad_name("y0 = X0", 6);
    bad_name("y0 = x", 5);
}

#[test]
fn outputs_and_names_like_them() {
    assert_eq!(
        gates("y2 = x0\ny0 = x1\ny00 = x2\ny01 = x2\ny = x2\nY3 = x2\ny1 = y2"),
        (3, vec![], vec![1, 0, 0])
    );
    assert_eq!(gates("y0 = ~x0\ny1 = y0 & x1").1, [(6, 0, 0), (2, 2, 1)]);
    bad_name("y0 = y0", 6);
    bad_name("y1 = x0 & y0\ny0 = x0", 11);
    refused("y00 = x0", 17);
    refused("y = x0", 17);
    refused("y1a = x0", 17);
    let thirteen: String = (0..13).map(|j| format!("y{} = x{}\n", (j * 5) % 13, j % 8)).collect();
    assert_eq!(gates(&thirteen).2, (0..13).map(|j| (j * 8) % 13 % 8).collect::<Vec<u8>>());
}

#[test]
fn no_input_no_output_or_a_gap() {
    for text in ["", "\n", "   ", " \n  \n\n", "a = x0", "y1 = x0", "y0 = x0\ny2 = x0", "y512 = x0"] {
        refused(text, 17);
    }
    refused("y0 = x0\ny512 = x0", 17);
    refused("y999999999999999 = x0", 17);
    refused("y0 = x0\ny999999999999999 = x0", 17);
    refused("y0 = x0\ny1 = x0\ny18446744073709 = x0", 17);
    bad_text("y9999999999999999 = x0", 16);
}

#[test]
fn names_of_16_and_17_bytes() {
    let (name, long) = ("abcdefGHIJK01234", "abcdefGHIJK012345");
    assert_eq!(gates(&format!("{name} = x0\ny0 = ~{name}")).1, [(6, 0, 0)]);
    bad_text(&format!("{long} = x0"), 16);
    bad_text(&format!("y0 = {long}"), 21);
    bad_name(&format!("y0 = {name}"), 20);
    bad_text(&format!("y0 = {long}?"), 21);
    bad_text(&format!("{name} = x0\n{long} = x0"), 38);
    bad_name(&format!("{name} = x0\n{name} = x0"), 37);
    let last_differs = "aaaaaaaaaaaaaaa0 = x0\naaaaaaaaaaaaaaa1 = x1\ny0 = aaaaaaaaaaaaaaa1";
    assert_eq!(gates(last_differs).2, [1]);
}

#[test]
fn names_begin_with_any_letter_or_digit_and_differ_by_case() {
    assert_eq!(gates("0 = x0\n9z = x1\na = x2\nA = x3\ny0 = 0\ny1 = 9z\ny2 = a\ny3 = A").2, [0, 1, 2, 3]);
    for byte in [b'/', b':', b'@', b'[', b'`', b'{', b'_', b'.', b'-', b'\''] {
        refused_bytes(&[b'a', byte], 15, Some(1));
        refused_bytes(&[byte], 15, Some(0));
    }
}

#[test]
fn brackets_to_32_levels() {
    let nested =
        |levels: usize, inner: &str| format!("y0={}{inner}{}", "(".repeat(levels), ")".repeat(levels));
    assert_eq!(gates(&nested(32, "x0")), (1, vec![], vec![0]));
    bad_text(&nested(33, "x0"), 35);
    assert_eq!(gates(&nested(31, "(x0)&(x1)")).1, [(2, 0, 1)]);
    bad_text(&nested(32, "x0&(x1)"), 38);
    bad_text(&nested(32, "~~ ("), 38);
    let again = format!("{}^{}", nested(32, "x0"), &nested(32, "x1")[3..]);
    assert_eq!(gates(&again).1, [(0, 0, 1)]);
    bad_text("y0 = ()", 6);
    bad_text("y0 = (x0", 8);
    bad_text("y0 = (x0\n", 8);
    bad_text("y0 = x0)", 7);
    bad_text("y0 = (x0))", 9);
    bad_text("y0 = (x0)x1", 9);
    bad_text("y0 = (x0)(x1)", 9);
    bad_text("y0 = x0(x1)", 7);
    bad_text("(y0) = x0", 0);
}

#[test]
fn assignments_to_512() {
    let most = assignments(511) + "y0 = x0\n";
    assert_eq!(gates(&most), (1, vec![], vec![0]));
    assert_eq!(gates(&format!("\n\n{most} \n\n   ")), (1, vec![], vec![0]));
    assert_eq!(gates(most.trim_end()), (1, vec![], vec![0]));
    bad_text(&format!("{most}z = x0"), most.len());
    bad_text(&format!("{most}\n  z"), most.len() + 3);
    bad_text(&format!("{most}="), most.len());
    bad_text(&format!("{most}n0 = x0"), most.len());
    bad_text(&format!("{most}x0 = x0"), most.len());
    bad_text(&format!("{most}a\t"), most.len());
    bad_name(&format!("{}x0 = x0", assignments(511)), assignments(511).len() + 1);
}

#[test]
fn the_513th_assignment_begins_with_a_known_name_of_one_byte() {
    let most = format!("a = x0\n{}y0 = x0\n", assignments(510));
    assert_eq!(gates(&most).2, [0]);
    bad_text(&format!("{most}a = x0"), most.len());
    bad_text(&format!("{most}a"), most.len());
}

#[test]
fn outputs_to_32() {
    let outputs = |count: usize| (0..count).rev().map(|j| format!("y{j} = x{}\n", j % 8)).collect::<String>();
    assert_eq!(gates(&outputs(32)).2, (0..32).map(|j| j % 8).collect::<Vec<u8>>());
    refused(&outputs(33), 1);
    refused(&outputs(512), 1);
    bad_text(&outputs(513), outputs(513).len() - 8);
    refused(&(outputs(32) + "y33 = x0"), 17);
}

#[test]
fn gates_to_248() {
    let signs = |count: usize| format!("y0 = {}x7", "~".repeat(count));
    assert_eq!((gates(&signs(248)).1.len(), gates(&signs(248)).2), (248, vec![255]));
    refused(&signs(249), 1);
    let chain = |count: usize| format!("y0 = x7{}", " ^ x0".repeat(count));
    assert_eq!(gates(&chain(248)).1[247], (0, 254, 0));
    refused(&chain(249), 1);
    refused(&chain(600), 1);
    refused(&chain(600).replace("y0", "y1"), 17);
    refused(&chain(600).replace("y0", "a"), 17);
    bad_text(&(chain(600) + "&"), chain(600).len() + 1);
    bad_name(&(chain(600) + "\nb = c"), chain(600).len() + 5);
}

#[test]
fn the_room_is_looked_at_last() {
    let file = b"y0 = x0 & x1";
    for room in 0..13 {
        let mut short = vec![7; room];
        assert_eq!(read_into(file, &mut short), Err(11.into()));
        assert_eq!(short, vec![7; room]);
    }
    let mut room = [7; 15];
    assert_eq!(read_into(file, &mut room), Ok(13));
    assert_eq!(room[..13], *b"SH\x02\x01\x01GT\x02\x00\x01OP\x02");
    assert_eq!(room[13..], [7, 7]);
    for (text, number, place) in [
        ("?", 15, Some(0)),
        ("a = b", 16, Some(4)),
        ("", 17, None),
        (&format!("y0={}x0", "~".repeat(249)), 1, None),
    ] {
        assert_eq!(read_into(text.as_bytes(), &mut []), Err(Refusal { number, place }));
        assert_eq!(read_into(text.as_bytes(), &mut room[..14]), Err(Refusal { number, place }));
    }
    assert_eq!(room[..13], *b"SH\x02\x01\x01GT\x02\x00\x01OP\x02");
}

#[test]
fn spaces_and_blank_lines_are_free() {
    let plain = gates("a=x0&~(x1^x2)\ny0=a|x0");
    for text in [
        "  a  =  x0  &  ~  (  x1  ^  x2  )  \n  y0  =  a  |  x0  ",
        "\n\n   \na = x0 & ~(x1 ^ x2)\n\n \n\ny0 = a | x0\n\n  ",
        "a =x0& ~ (x1^ x2 )\ny0= a |x0\n",
    ] {
        assert_eq!(gates(text), plain, "{text:?}");
    }
    bad_text("a b = x0", 2);
    bad_text("a = x0 x1", 7);
    bad_name("a = x 0", 4);
    bad_text("a = x0 = x1", 7);
    bad_text("a\n= x0", 1);
    bad_text("a =\nx0", 3);
    bad_text("a = x0 &\nx1", 8);
    bad_text(" = x0", 1);
    bad_text("a == x0", 3);
}

#[test]
fn other_bytes_are_bad_text() {
    for byte in (0..=255u8).filter(|byte| !byte.is_ascii_alphanumeric() && !b" \n=~&^|()".contains(byte)) {
        for (text, place) in [(&b"a = x0\n"[..], 7), (b"a = x0", 6), (b"a ", 2), (b"a = ", 4), (b"", 0)] {
            refused_bytes(&[text, &[byte]].concat(), 15, Some(place));
            refused_bytes(&[text, &[byte], b" = x0\n"].concat(), 15, Some(place));
        }
    }
    bad_text("y0 = x0\r\n", 7);
    bad_text("y0\t= x0", 2);
    bad_text("y0 = x0 && x1", 9);
}

#[test]
fn a_file_that_stops_too_soon() {
    for text in ["a", "a ", "a =", "a = ", "a = x0 &", "a = (", "a = (x0", "a = (x0 ", "a = x0 | ~"] {
        bad_text(text, text.len());
        bad_text(&format!("{text}\n"), text.len());
    }
    bad_name("x0", 1);
}

#[test]
fn a_name_is_known_from_the_end_of_its_assignment_on() {
    bad_name("a = a", 4);
    bad_name("abc = x0 & abc", 13);
    bad_name("a = b\nb = x0", 4);
    bad_name("a = b$", 4);
    bad_name("a = (b", 5);
    assert_eq!(gates("a = x0\nb = a\ny0 = b").2, [0]);
}

#[test]
fn a_name_set_twice_is_found_before_its_sign() {
    bad_name("a = x0\na = x1", 7);
    bad_name("a = x0\na$", 7);
    bad_name("a = x0\na", 7);
    bad_name("abc = x0\n abc = abc", 12);
    bad_name("y0 = x0\ny0 = x1", 9);
    bad_text("a = x0\n$a = x1", 7);
}

/// Each accepted file's circuit gives what its formulas say.
fn says_what_it_gives(text: &[u8]) -> bool {
    let Ok(circuit) = both(text) else { return false };
    let file = plain::file(text).unwrap();
    for x in 0..1 << circuit.n {
        let lines = values(&circuit, x);
        assert!(circuit.outs.iter().map(|&line| lines[line as usize]).eq(plain::outputs(&file, x)));
    }
    let bytes = circuit::write(&circuit);
    assert_eq!(circuit::read(&bytes, false).as_ref(), Ok(&circuit));
    true
}

/// Every text of up to so many of these pieces after a beginning.
fn every_text(begin: &str, pieces: &[&str], most: usize, accepted: &mut usize) {
    *accepted += says_what_it_gives(begin.as_bytes()) as usize;
    if most > 0 {
        pieces.iter().for_each(|piece| every_text(&format!("{begin}{piece}"), pieces, most - 1, accepted));
    }
}

#[test]
fn every_short_text() {
    let bytes = ["a", "x", "0", "y", " ", "\n", "=", "~", "&", "(", ")"];
    let mut accepted = 0;
    every_text("", &bytes, 5, &mut accepted);
    assert_eq!(accepted, 1);
    every_text("y0=x0", &bytes, 4, &mut accepted);
    every_text("y0=(x0&", &bytes, 4, &mut accepted);
    let formula = ["x0", "x1", "a", "~", "&", "^", "|", "(", ")"];
    every_text("a=x2\ny0=", &formula, 6, &mut accepted);
    assert!(accepted > 1_500, "{accepted}");
}

#[test]
fn long_texts_need_no_deep_stack() {
    let whole = |text: String| read(text.as_bytes());
    assert_eq!(whole(format!("y0={}x0", "~".repeat(1_000_000))), Err(1.into()));
    assert_eq!(whole(format!("y0=x0{}", "&x0".repeat(1_000_000))), Err(1.into()));
    assert_eq!(whole("~".repeat(1_000_000)), Err(Refusal { number: 15, place: Some(0) }));
    assert_eq!(whole("a".repeat(1_000_000)), Err(Refusal { number: 15, place: Some(16) }));
    assert_eq!(whole("\n".repeat(1_000_000)), Err(17.into()));
}
