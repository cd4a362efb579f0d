//! Random names.

use crate::random::Random;

/// Bases that end in digits meet each other once a number is put behind them:
/// `a1` at 2 and `a` at 12 both print `a12`.
const BASES: [&str; 18] = [
    "x", "y", "z", "a", "a1", "a12", "b2", "b", "el", "el1", "el12", "bay1", "bay12", "0", "!",
    "~~", "x1", "long",
];

/// A sound name of at most `longest` bytes.
pub fn name(longest: usize, random: &mut Random) -> Vec<u8> {
    match random.below(20) {
        0 => printable(longest, random),
        1 | 2 => {
            let length = random.range(1, 4);
            printable(length, random)
        }
        _ => random.pick(&BASES).as_bytes().to_vec(),
    }
}

fn printable(length: usize, random: &mut Random) -> Vec<u8> {
    (0..length).map(|_| random.range(33, 126) as u8).collect()
}
