//! The published matrices of vectors/, and bytes given by their digits.

/// The bytes that pairs of hexadecimal digits stand for.
pub fn unhex(digits: &str) -> Vec<u8> {
    (0..digits.len() / 2).map(|i| u8::from_str_radix(&digits[2 * i..2 * i + 2], 16).expect("hex")).collect()
}

/// A published matrix.
pub struct Matrix {
    pub name: &'static str,
    pub n: usize,
    pub rows: Vec<u8>,
}

/// All of them, in the order of the file.
pub fn matrices() -> impl Iterator<Item = Matrix> {
    include_str!("../../vectors/matrices.txt").lines().map(|line| {
        let words: Vec<&str> = line.split(' ').collect();
        Matrix { name: words[0], n: words[1].parse().expect("a number"), rows: unhex(words[2]) }
    })
}
