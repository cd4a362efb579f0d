//! Hand-made rules for flatten, each with the refusal that document 01 asks
//! for; 0 stands for a group.

/// As in the garage examples.
const PLAIN: &str = super::garage::SIGNATURE;

/// Two parentless types; predicate 0 of one column of type 0, function 0 from
/// type 0 to type 0.
const TWO_TYPES: &str = "T; T; P #0 0; F #0 0 0";

/// Type 0 is parentless and a model, type 1 lives in it. Predicate 0 has the
/// parent 0 and an argument of type 1, function 0 the same and a result;
/// predicate 1 has an argument alone.
const MODEL: &str = "T; T 0; P #1 0 1; P #0 1; F #1 0 1 1";

pub struct Made {
    pub title: &'static str,
    pub signature: &'static str,
    pub rule: &'static str,
    pub refusal: u8,
}

const fn made(
    title: &'static str,
    signature: &'static str,
    rule: &'static str,
    refusal: u8,
) -> Made {
    Made {
        title,
        signature,
        rule,
        refusal,
    }
}

#[rustfmt::skip]
pub const MADE: &[Made] = &[
    // The place of 24: the Rust finds it last at a map.
    made("24 before 25 at one map", TWO_TYPES, "N 0 'r'; S; E 0 0; E 1 1; E 2 0; M 0 0 0 2 1 2; K 0 0 #0", 24),
    made("24, though the Rust's variables no longer differ in type", TWO_TYPES, "N 0 'r'; S; E 0 0; E 1 1; M 0 0 0 0 1 0; K 0 0 #0", 24),
    made("24 before 26 at one map", TWO_TYPES, "N 0 'r'; S; E 0 0; R 0 0; M 0 0; K 0 0 #0", 24),
    made("24 before 27 at one map", TWO_TYPES, "N 0 'r'; S; E 0 0; M 0 0; K 0 0 #1", 24),
    made("24 before 28 at one map", TWO_TYPES, "N 0 'r'; S; E 0 0; E 1 0; M 0 0; K 0 0 #2", 24),
    made("24 before 29 at one map", TWO_TYPES, "N 0 'r'; S; E 0 0; M 0 0; K 0 0 #2", 24),
    made("24 before 30 at one map", TWO_TYPES, "N 0 'r'; S; E 0 0; A 0 0 0; M 0 0; K 0 0 #2", 24),
    made("23 before 24: from the unreached 2 into the reached 1", PLAIN, "N 0 'r'; S; S; E 0 0; S; M 0 1; M 0 2; M 2 1; K 0 1 #0; K 0 2 #0; K 2 1 #1", 23),
    made("24 at a second map into structure 2, which alone is 27", PLAIN, "N 0 'r'; S; S; S; E 0 0; M 0 1; M 0 2; M 1 2; K 0 1 #0; K 0 2 #0; K 1 2 #1", 24),
    // The first map counts, though the Rust gives all variables before.
    made("22 before a 27 at an earlier map", PLAIN, "N 0 'r'; S; S; E 0 0; S; M 0 1; K 0 1 #1; K 0 2 #0", 22),
    made("22 before 23", PLAIN, "N 0 'r'; S; S; S; M 1 2; K 0 1 #0; K 1 2 #0", 22),
    made("21 before 22", PLAIN, "N 0 'r'; S; S; K 0 1 #0; X #0 1", 21),
    made("21 asks also where a kind leads into the structure", PLAIN, "N 0 'r'; S; S; K 0 1 #0; X #2 1", 21),
    made("21 for structure 0", PLAIN, "N 0 'r'; S; X #1 0", 21),
    made("23 at the first map, 28 at the second", PLAIN, "N 0 'r'; S; S; S; E 0 0; E 1 0; M 0 2; M 2 1; K 0 2 #2; K 2 1 #0", 23),
    made("a map from 1 to 1 where 1 has no statements", PLAIN, "N 0 'r'; S; S; M 1 1; K 1 1 #0", 23),
    made("a map from 1 to 1 where 1 has statements", PLAIN, "N 0 'r'; S; S; M 0 1; M 1 1; K 0 1 #0; K 1 1 #0", 24),
    made("a map from 1 to 0", PLAIN, "N 0 'r'; S; S; M 0 1; M 1 0; K 0 1 #0; K 1 0 #0", 23),
    made("a backward map from 2 to 1, walked before 2 is reached", PLAIN, "N 0 'r'; S; S; S; M 0 2; M 2 1; K 0 2 #0; K 2 1 #0", 23),
    // Marks.
    made("X 0 makes a Noop of an unkinded map", PLAIN, "N 0 'r'; S; S; E 0 0; S; E 0 0; M 0 1; M 1 2 0 0; K 1 2 #1; X #0 1", 0),
    made("X 1 makes an If", PLAIN, "N 0 'r'; S; S; E 0 0; S; E 0 0; M 0 1; M 1 2 0 0; K 1 2 #1; X #1 1", 0),
    made("X 2 makes an If", PLAIN, "N 0 'r'; S; S; E 0 0; S; E 0 0; M 0 1; M 1 2 0 0; K 1 2 #1; X #2 1", 0),
    made("X leaves a kind as it is", PLAIN, "N 0 'r'; S; S; M 0 1; K 0 1 #1; X #0 1", 0),
    made("X takes the lowest source, whose map has no kind", PLAIN, "N 0 'r'; S; S; S; M 0 1; M 0 2; M 1 2; K 0 1 #0; K 1 2 #0; X #0 2", 24),
    made("the first X of a pair decides", PLAIN, "N 0 'r'; S; E 0 0; S; M 0 1; X #0 1; X #2 1", 0),
    made("maps without kind are ignored", PLAIN, "N 0 'r'; S; S; E 0 0; M 0 1; M 1 0", 0),
    // Each refusal of the kinds, at its smallest.
    made("25: If", TWO_TYPES, "N 0 'r'; S; E 0 0; E 1 1; S; E 0 0; M 0 1 0 0 1 0; K 0 1 #0", 25),
    made("25: Noop", TWO_TYPES, "N 0 'r'; S; E 0 0; E 1 1; S; E 0 0; M 0 1 0 0 1 0; K 0 1 #3", 25),
    made("25: SurjThen", TWO_TYPES, "N 0 'r'; S; E 0 0; E 1 1; S; E 0 0; M 0 1 0 0 1 0; K 0 1 #1", 25),
    made("NonSurjThen doesn't ask 25", TWO_TYPES, "N 0 'r'; S; E 0 0; E 1 1; S; E 0 0; M 0 1 0 0 1 0; K 0 1 #2", 0),
    made("25 asks the variables' types: elements of one type", TWO_TYPES, "N 0 'r'; S; E 0 0; E 1 1; S; E 0 0; E 1 0; S; E 0 0; M 0 1 0 0 1 1; M 1 2 0 0 1 0; K 0 1 #0; K 1 2 #0", 25),
    made("25 asks the variables' types: elements of two types", TWO_TYPES, "N 0 'r'; S; E 0 0; E 1 0; S; E 0 0; E 1 1; S; E 0 0; M 0 1 0 0 1 1; M 1 2 0 0 1 0; K 0 1 #0; K 1 2 #0", 0),
    made("26: If", TWO_TYPES, "N 0 'r'; S; E 0 0; R 0 0; S; M 0 1; K 0 1 #0", 26),
    made("26: Noop", TWO_TYPES, "N 0 'r'; S; E 0 0; R 0 0; S; M 0 1; K 0 1 #3", 26),
    made("26: SurjThen", TWO_TYPES, "N 0 'r'; S; E 0 0; R 0 0; S; M 0 1; K 0 1 #1", 26),
    made("26: a function's result", TWO_TYPES, "N 0 'r'; S; E 0 0; E 1 0; A 0 0 1; S; E 0 0; M 0 1 0 0; K 0 1 #0", 26),
    made("26: a member's parent", MODEL, "N 0 'r'; S; E 0 0; E 1 1 0; S; E 1 1 1; M 0 1 1 1; K 0 1 #0", 26),
    made("26: a member", MODEL, "N 0 'r'; S; E 0 0; E 1 1 0; S; E 0 0; M 0 1 0 0; K 0 1 #0", 26),
    made("NonSurjThen doesn't ask 26", TWO_TYPES, "N 0 'r'; S; E 0 0; R 0 0; S; M 0 1; K 0 1 #2", 0),
    made("an element outside the rows needs no image", TWO_TYPES, "N 0 'r'; S; E 0 0; S; M 0 1; K 0 1 #0", 0),
    made("25 before 26", TWO_TYPES, "N 0 'r'; S; E 0 0; E 1 1; E 2 0; R 0 2; S; E 0 0; M 0 1 0 0 1 0; K 0 1 #1", 25),
    made("26 before 27", TWO_TYPES, "N 0 'r'; S; E 0 0; R 0 0; S; E 0 0; M 0 1; K 0 1 #1", 26),
    made("27", TWO_TYPES, "N 0 'r'; S; S; E 0 0; M 0 1; K 0 1 #1", 27),
    made("28", TWO_TYPES, "N 0 'r'; S; S; E 0 0; E 1 0; M 0 1; K 0 1 #2", 28),
    made("28 before 29 and 30", TWO_TYPES, "N 0 'r'; S; S; E 0 0; E 1 0; A 0 0 0; M 0 1; K 0 1 #2", 28),
    made("29", TWO_TYPES, "N 0 'r'; S; S; E 0 0; M 0 1; K 0 1 #2", 29),
    made("29: the element is an argument only", TWO_TYPES, "N 0 'r'; S; E 0 0; S; E 0 0; E 1 0; A 0 1 0; M 0 1 0 0; K 0 1 #2", 29),
    made("30: the element yields itself", TWO_TYPES, "N 0 'r'; S; S; E 0 0; A 0 0 0; M 0 1; K 0 1 #2", 30),
    made("30: the first row counts, though the second would do", "T; F #0 0 0; F #0 0", "N 0 'r'; S; S; E 0 0; A 0 0 0; A 1 0; M 0 1; K 0 1 #2", 30),
    made("the first row does, the second would not", "T; F #0 0; F #0 0 0", "N 0 'r'; S; S; E 0 0; A 0 0; A 1 0 0; M 0 1; K 0 1 #2", 0),
    made("30: a parent outside the image", MODEL, "N 0 'r'; S; E 0 0; E 1 1 0; S; E 0 0; E 1 1 0; E 2 1 0; A 0 2 1 2; M 0 1 0 0 1 1; K 0 1 #2", 30),
    // Names and variables.
    made("bases a1 at 2 and a at 12 both print a12", PLAIN, "N 0 'r'; S; E 0 0; E 1 0; E 2 0; E 3 0; E 4 0; E 5 0; E 6 0; E 7 0; E 8 0; E 9 0; E 10 0; E 11 0; E 12 0; R 0 2 12; V 12 'a'; V 2 'a1'; S; E 0 0; E 1 0; E 2 0; E 3 0; E 4 0; E 5 0; E 6 0; E 7 0; E 8 0; E 9 0; E 10 0; E 11 0; E 12 0; R 0 2 12; R 0 12 2; M 0 1 0 0 1 1 2 2 3 3 4 4 5 5 6 6 7 7 8 8 9 9 10 10 11 11 12 12; K 0 1 #1", 0),
    made("the first V name before the first I name", PLAIN, "N 0 'r'; S; E 0 0; E 1 0; E 2 0; V 0 'b'; V 0 'c'; I 1 0 'a'; I 2 1 'z'; I 3 1 'y'", 0),
    made("names are those of the structure where the element is new", PLAIN, "N 0 'r'; S; E 0 0; S; E 0 0; E 1 0; V 0 'late'; V 1 'new'; M 0 1 0 0; K 0 1 #0", 0),
    made("a later key's variable replaces an earlier one's", PLAIN, "N 0 'r'; S; E 0 0; E 1 0; S; E 5 0; R 0 5 5; M 0 1 0 5 1 5; K 0 1 #1", 0),
    made("variables of a group without rules", PLAIN, "N 0 'r'; S; S; E 0 0; M 0 1; K 0 1 #0", 0),
    made("elements of unreached structures get no variable", PLAIN, "N 0 'r'; S; E 0 0; S; E 1 0; E 2 0; V 1 'x'", 0),
    made("an element that NonSurjThen leaves out keeps its W", PLAIN, "N 0 'r'; S; E 0 0; S; M 0 1; K 0 1 #2", 0),
    made("unnamed rules take their index", PLAIN, "N 65535; S; S; M 0 1; K 0 1 #1", 0),
    made("a named rule's index is ignored", PLAIN, "N 9 'n'; S; S; M 0 1; K 0 1 #1", 0),
    made("element numbers need not be dense", PLAIN, "N 0 'r'; S; E 7 0; E 65535 0; R 0 65535 7; S; E 3 0; E 9 0; R 0 3 9; R 0 9 3; M 0 1 7 9 65535 3; K 0 1 #1", 0),
    // Rows, members and constrained elements.
    made("rows by letter, symbol and elements", "T; T 0; P #0 0; P #0 0 0; F #0 0; F #0 0 0", "N 0 'r'; S; E 0 0; E 1 1 0; R 0 0; R 0 1; R 1 0 1; R 1 1 0; A 0 1; A 1 0 0; A 1 1 0", 0),
    made("structure 0 lists constrained members and TypeSets", MODEL, "N 0 'r'; S; E 0 0; E 1 1 0; R 0 0 1; R 1 0", 0),
    made("If: an argument is constrained, a parent is not", MODEL, "N 0 'r'; S; S; E 0 0; E 1 1 0; R 0 0 1; S; E 0 0; E 1 1 0; R 0 0 1; M 0 1; M 1 2 0 0 1 1; K 0 1 #0; K 1 2 #1", 0),
    made("If: a member as parent is not constrained", "T; T 0; T 1; P #1 1 2", "N 0 'r'; S; S; E 0 0; E 1 1 0; E 2 2 1; R 0 1 2; S; E 0 0; E 1 1 0; E 2 2 1; R 0 1 2; M 0 1; M 1 2 0 0 1 1 2 2; K 0 1 #0; K 1 2 #1", 0),
    made("If: a function's result is constrained", MODEL, "N 0 'r'; S; S; E 0 0; E 1 1 0; A 0 0 1 1; S; E 0 0; E 1 1 0; A 0 0 1 1; M 0 1; M 1 2 0 0 1 1; K 0 1 #0; K 1 2 #1", 0),
    made("SurjThen adds a member row", MODEL, "N 0 'r'; S; E 0 0; E 1 1 0; E 2 0; S; E 0 0; E 1 1 2; E 2 0; M 0 1 0 0 1 1 2 2; K 0 1 #1", 0),
    made("SurjThen: equalities, then rows that are no image", PLAIN, "N 0 'r'; S; E 0 0; E 1 0; E 2 0; R 0 0 1; S; E 0 0; E 1 0; R 0 0 0; R 0 0 1; A 0 0 1; M 0 1 0 0 1 0 2 1; K 0 1 #1", 0),
    made("a target without its source's row", PLAIN, "N 0 'r'; S; E 0 0; R 0 0 0; S; E 0 0; M 0 1 0 0; K 0 1 #1", 0),
    made("kernel pairs by image, then keys", PLAIN, "N 0 'r'; S; E 0 0; E 1 0; E 2 0; E 3 0; S; E 0 0; E 1 0; M 0 1 0 1 1 0 2 1 3 0; K 0 1 #1", 0),
    made("If appends equalities, rows and TypeSets", PLAIN, "N 0 'r'; S; E 0 0; E 1 0; S; E 0 0; E 1 0; E 2 0; A 0 0 1; S; E 0 0; E 1 0; E 2 0; A 0 0 1; M 0 1 0 0 1 0; M 1 2 0 0 1 1 2 2; K 0 1 #0; K 1 2 #1", 0),
    made("Noop does what If does", PLAIN, "N 0 'r'; S; E 0 0; E 1 0; S; E 0 0; E 1 0; E 2 0; A 0 0 1; S; E 0 0; E 1 0; E 2 0; A 0 0 1; M 0 1 0 0 1 0; M 1 2 0 0 1 1 2 2; K 0 1 #3; K 1 2 #1", 0),
    made("If: no TypeSet for an image", PLAIN, "N 0 'r'; S; E 0 0; S; E 0 0; E 1 0; S; E 0 0; E 1 0; M 0 1 0 0; M 1 2 0 0 1 1; K 0 1 #0; K 1 2 #1", 0),
    made("an Equality has its variables' type, not the image's", TWO_TYPES, "N 0 'r'; S; E 0 0; E 1 0; S; E 0 1; M 0 1 0 0 1 0; K 0 1 #1", 0),
    made("a member row has the element's type, its variable keeps another", MODEL, "N 0 'r'; S; E 0 0; E 1 0; S; E 0 0; E 1 1 0; M 0 1 0 0 1 1; K 0 1 #1", 0),
    // Premises and counts.
    made("SurjThen passes statements on unaltered", PLAIN, "N 0 'r'; S; E 0 0; S; E 0 0; R 0 0 0; S; E 0 0; R 0 0 0; A 0 0 0; M 0 1 0 0; M 1 2 0 0; K 0 1 #1; K 1 2 #1", 0),
    made("NonSurjThen passes its function row on", PLAIN, "N 0 'r'; S; E 0 0; S; E 0 0; E 1 0; A 0 0 1; S; E 0 0; E 1 0; R 0 0 1; A 0 0 1; M 0 1 0 0; M 1 2 0 0 1 1; K 0 1 #2; K 1 2 #1", 0),
    made("NonSurjThen passes no row but the first on", PLAIN, "N 0 'r'; S; E 0 0; S; E 0 0; E 1 0; R 0 1 1; A 0 0 1; A 0 1 1; S; E 0 0; E 1 0; R 0 1 1; A 0 0 1; A 0 1 1; M 0 1 0 0; M 1 2 0 0 1 1; K 0 1 #2; K 1 2 #1", 0),
    made("two maps out of one structure", PLAIN, "N 0 'r'; S; E 0 0; S; E 0 0; R 0 0 0; S; E 0 0; A 0 0 0; M 0 1 0 0; M 0 2 0 0; K 0 1 #1; K 0 2 #1", 0),
    made("pairs are walked by target: 2 from 0 before 3 from 1", PLAIN, "N 0 'r'; S; S; S; S; M 0 1; M 0 2; M 1 3; K 0 1 #1; K 0 2 #1; K 1 3 #1", 0),
];

#[cfg(test)]
mod tests {
    use super::*;

    #[test]
    fn titles_differ() {
        let mut titles: Vec<&str> = MADE.iter().map(|made| made.title).collect();
        titles.sort_unstable();
        titles.dedup();
        assert_eq!(titles.len(), MADE.len());
    }
}
