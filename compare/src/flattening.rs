//! Flatten in a buffer whose other bytes are watched.

use oracle::answer::Answer;
use oracle::case::{Case, MOST};

use crate::library::{self, FlattenAnswer};
use crate::refused;

/// Bytes behind the room.
const BEHIND: usize = 64;

/// What stands at a place of the buffer beforehand.
fn pattern(at: usize) -> u8 {
    (at.wrapping_mul(151) >> 3) as u8 ^ 0xa5
}

/// The library's answer in so much room. Every byte that is no part of the group has to be as it was, behind the room too.
pub fn answer(case: &Case, room: usize) -> Answer {
    let mut buffer: Vec<u8> = (0..room + BEHIND).map(pattern).collect();
    let said = library::flatten(&case.signature, &case.record, &mut buffer[..room]);
    let FlattenAnswer {
        refused: number,
        written,
    } = said;
    assert!(number == 0 || written == 0, "{said:?} of {case:?}");
    let altered = (written..buffer.len()).find(|&at| buffer[at] != pattern(at));
    assert_eq!(altered, None, "a byte behind {written} of {case:?}");
    match number {
        0 => Answer::Written(buffer[..written].to_vec()),
        number => refused(number),
    }
}

/// A group once more with just its room, a byte less, none, 65,535 bytes and more. The oracle's own rule for 31 is a length
/// compared, so it isn't asked again.
pub fn in_other_rooms(case: &Case, said: &Answer) -> Result<Vec<String>, String> {
    let Answer::Written(group) = said else {
        return Ok(Vec::new());
    };
    let size = group.len();
    let mut outcomes = Vec::new();
    for (words, room) in [
        ("just its room", size),
        ("a byte less", size - 1),
        ("no room", 0),
        ("65,535 bytes", MOST - 1),
        ("more", MOST + 1_000),
    ] {
        let expected = if room < size {
            Answer::Refused(31)
        } else {
            said.clone()
        };
        let again = answer(case, room);
        if again != expected {
            return Err(format!(
                "in {room} bytes {again}, in {} {said}",
                case.number
            ));
        }
        outcomes.push(format!("F again, {words}: {}", again.outcome()));
    }
    Ok(outcomes)
}
