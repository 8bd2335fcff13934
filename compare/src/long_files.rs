//! Long equation files: one that a designer might write, and texts that are as much work as their length allows.

use reference::rng::Rng;

/// The longest file that the programs read.
const LONGEST: usize = 65_535;

/// A file of 512 assignments: 240 signs in 220 of them, 32 outputs, and other names for lines.
pub fn designers() -> Vec<u8> {
    let mut rng = Rng::new(512);
    let mut text = String::new();
    let any = |rng: &mut Rng, nets: u64| match rng.below(nets + 8) {
        i @ 0..=7 => format!("x{i}"),
        net => format!("net{}", net - 8),
    };
    for net in 0..480 {
        let [a, b, c] = [0; 3].map(|_| any(&mut rng, net));
        let sign = ["&", "^", "|"][rng.below(3) as usize];
        text += &match net * 11 % 24 {
            0 => format!("net{net} = {a} & ~({b})\n"),
            1..=10 => format!("net{net} = {a} {sign} {b}\n"),
            _ => format!("net{net} = {c}\n"),
        };
    }
    for j in 0..32 {
        text += &format!("y{j} = {}\n", any(&mut rng, 480));
    }
    text.into_bytes()
}

/// As many times this piece between the two ends as makes a text of the longest length, or a little less.
fn filled(begin: &str, piece: &str, end: &str) -> Vec<u8> {
    let times = (LONGEST - begin.len() - end.len()) / piece.len();
    format!("{begin}{}{end}", piece.repeat(times)).into_bytes()
}

/// 511 names by their numbers, and then one of them read as often as there is room for.
fn read_again(name: impl Fn(usize) -> String, which: usize) -> Vec<u8> {
    let set: String = (0..511).map(|i| format!("{}=x0\n", name(i))).collect();
    filled(&format!("{set}y0={}", name(which)), &format!("&{}", name(which)), "")
}

/// The worst texts by name.
pub fn worst() -> Vec<(&'static str, Vec<u8>)> {
    let nested = format!("^{}x0{}", "(".repeat(32), ")".repeat(32));
    let short = |i: usize| format!("t{i}");
    let long = |i: usize| format!("thirteenbytes{i:03}");
    vec![
        ("all ~", filled("y0=", "~", "x0")),
        ("a chain of &", filled("y0=x0", "&x0", "")),
        ("brackets to 32 levels again and again", filled("y0=x0", &nested, "")),
        ("511 short names, the first read again", read_again(short, 0)),
        ("511 short names, the last read again", read_again(short, 510)),
        ("511 names of 16 bytes, the first read again", read_again(long, 0)),
        ("511 names of 16 bytes, the last read again", read_again(long, 510)),
        ("all spaces", filled("y0=", " ", "x0")),
        ("all blank lines", filled("y0=x0", "\n", "")),
    ]
}
