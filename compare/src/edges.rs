//! Equation files at the edges of what is read: the last that is good and the first that is not.

/// So many assignments, each of a new name to x0.
fn assignments(count: usize) -> String {
    (0..count).map(|i| format!("n{i} = x0\n")).collect()
}

/// So many outputs from y0 on, from the last to the first.
fn outputs(count: usize) -> String {
    (0..count).rev().map(|j| format!("y{j} = x{}\n", j % 8)).collect()
}

fn nested(levels: usize, inner: &str) -> String {
    format!("y0={}{inner}{}", "(".repeat(levels), ")".repeat(levels))
}

/// Numbers: brackets, bytes of a name, assignments, gates and outputs.
fn counted() -> Vec<String> {
    let most = assignments(511) + "y0 = x0\n";
    let one_byte = format!("a = x0\n{}y0 = x0\n", assignments(510));
    let long_name = "abcdefGHIJK01234";
    let mut texts = vec![
        format!("{long_name} = x0\ny0 = ~{long_name}"),
        format!("{long_name}5 = x0\ny0 = x0"),
        format!("y0 = {long_name}"),
        format!("y0 = {long_name}5"),
        format!("{long_name} = x0\n{long_name} = x0"),
        format!("{long_name} = x0\n{long_name}5 = x0"),
        format!("{most}a = x0"),
        format!("{most}n0 = x0"),
        format!("{most}x0 = x0"),
        format!("{most}\n  \n="),
        format!("\n\n{most}\n  \n"),
        format!("{one_byte}a = x0"),
        format!("{one_byte}a"),
        outputs(32),
        outputs(33),
        outputs(256),
        outputs(288),
        outputs(512),
        outputs(513),
        outputs(32) + "y33 = x0",
    ];
    texts.extend([31, 32, 33].map(|levels| nested(levels, "(x0)&(x1)")));
    texts.extend([32, 33].map(|levels| nested(levels, "x0")));
    for gates in [247, 248, 249, 255, 256, 257, 300] {
        texts.push(format!("y0 = {}x7", "~".repeat(gates)));
        texts.push(format!("y0 = x7{}", " ^ x0".repeat(gates)));
        texts.push(format!("y1 = x7{}", " | x0".repeat(gates)));
        texts.push(format!("y0 = x0{}\nb = c", " & x0".repeat(gates)));
    }
    texts
}

/// Names: inputs, outputs, ones like them, unknown ones, ones set twice.
const NAMED: &[&str] = &[
    "y0 = x7",
    "y0 = x8",
    "x8 = x0\nx07 = x8\nX0 = x07\ny0 = X0",
    "x0 = x1\ny0 = x0",
    "x7 ?",
    "y0 = x0\ny2 = x0",
    "y1 = x0",
    "y00 = x0",
    "y = x0",
    "y2 = x0\ny0 = x1\ny00 = x2\ny01 = x2\ny = x2\nY3 = x2\ny1 = y2",
    "y256 = x0",
    "y512 = x0",
    "y65536 = x0",
    "y4294967296 = x0",
    "y0 = x0\ny257 = x1",
    "y0 = x0\ny512 = x0",
    "y0 = x0\ny4294967297 = x1",
    "y999999999999999 = x0",
    "y9999999999999999 = x0",
    "y0 = x0\ny999999999999999 = x0",
    "a = x0",
    "a = a",
    "a = x0\na = x1",
    "a = x0\na$",
    "a = x0\na",
    "a = b$",
    "y0 = ~x0\ny1 = y0 & x1",
    "y1 = x0 & y0\ny0 = x0",
    "a = x2\nb = a\ny0 = ((b))\ny1 = b ^ a",
    "0 = x0\n9z = x1\nZ9 = x2\nz = x3\ny0 = 0 ^ 9z ^ Z9 ^ z",
    "a = x0\nA = x1\ny0 = a & ~A",
];

/// Signs and spaces: how formulas bind, and bytes that no good file has.
const WRITTEN: &[&str] = &[
    "",
    "\n",
    "   ",
    " \n\n   \n",
    "a = x0 & ~(x1 ^ x2)\ny0 = a\n",
    "y0 = x0 | x1 ^ x2 & ~x3",
    "y0 = ~x0 & x1 ^ x2 | x3",
    "y0 = x3 ^ x2 ^ x1 ^ x0\ny1 = x3 & x2 & x1\ny2 = x0 | x1 | x2",
    "y0 = x3 ^ (x2 ^ (x1 ^ x0))",
    "y0 = (x1 & x0) ^ (x2 | x1)\ny1 = ~x0 | ~x1",
    "y0 = ~~x0",
    "y0 = ~ ~  ~x1",
    "  a  =  x0  &  ~  (  x1  ^  x2  )  \n  y0  =  a  |  x0  ",
    "a=x0&~(x1^x2)\n\n \n\ny0=a|x0\n\n  ",
    "y0 = x0\r\n",
    "y0\t= x0",
    "y0 = x0 \u{e9}",
    "y0 = x0\u{0}",
    "y0 = ()",
    "y0 = (x0",
    "y0 = x0)",
    "y0 = (x0)(x1)",
    "y0 = x0 x1",
    "y0 = x0 && x1",
    "y0 == x0",
    "y0\n= x0",
    "y0 = x0 &\nx1",
];

/// Every edge.
pub fn edges() -> Vec<String> {
    let written = NAMED.iter().chain(WRITTEN).map(|text| text.to_string());
    counted().into_iter().chain(written).collect()
}
