//! Every two-byte number as it is printed: an unnamed rule's index stands in its group's name.

use oracle::answer::{answer, Answer};
use oracle::case::{Case, CaseKind, MOST};

use crate::{flattening, records};

/// The name in the G field that a group begins with.
fn group_name(group: &[u8]) -> &[u8] {
    let length = u16::from_be_bytes([group[1], group[2]]);
    &group[3..3 + usize::from(length)]
}

fn compared(number: u16) -> Result<(), String> {
    let case = Case {
        kind: CaseKind::Flatten,
        signature: records::signature(),
        record: records::unnamed(number),
        number: MOST as u32,
    };
    let said = flattening::answer(&case, MOST);
    let expected = answer(&case);
    if said != expected {
        return Err(format!("index {number}: {said}, the oracle {expected}"));
    }
    let Answer::Written(group) = said else {
        return Err(format!("index {number}: {said}"));
    };
    let name = format!("anonymous_rule_{number}");
    if group_name(&group) != name.as_bytes() {
        return Err(format!("index {number}: no group is called {name}"));
    }
    Ok(())
}

/// All of them, beside the published flatten_rule's and the language's own printing.
pub fn run() -> Result<String, String> {
    (0..=u16::MAX).try_for_each(compared)?;
    Ok("65536 numbers printed, no difference\n".into())
}
