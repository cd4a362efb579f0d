//! The garage examples of document 01, and cases beside them that show what an
//! example's bytes alone don't.

/// Type 0 parentless, predicate 0 of two columns, function 0 from 0 to 0.
pub const SIGNATURE: &str = "T; P #0 0 0; F #0 0 0";

/// Structure 0 of the examples: elements 0 and 1, row (0,1), names x and y.
/// Structure 1 equals it unless said.
macro_rules! begin {
    () => {
        "N 0 'r'; S; E 0 0; E 1 0; R 0 0 1; V 0 'x'; V 1 'y'; "
    };
}

pub const G1: &str = concat!(
    begin!(),
    "S; E 0 0; E 1 0; R 0 0 1; R 0 1 0; V 0 'x'; V 1 'y'; ",
    "M 0 1 0 0 1 1; K 0 1 #1"
);

pub const G3: &str = concat!(
    begin!(),
    "S; E 0 0; E 1 0; E 2 0; R 0 0 1; R 0 1 2; V 0 'x'; V 1 'y'; ",
    "S; E 0 0; E 1 0; E 2 0; R 0 0 1; R 0 1 2; V 0 'x'; V 1 'y'; ",
    "M 0 1 0 0 1 1; M 1 2 0 0 1 1 2 2; K 0 1 #0; K 1 2 #1"
);

pub const G4: &str = concat!(
    begin!(),
    "S; E 0 0; R 0 0 0; V 0 'x'; ",
    "S; E 0 0; R 0 0 0; V 0 'x'; ",
    "M 0 1 0 0 1 0; M 1 2 0 0; K 0 1 #0; K 1 2 #1"
);

/// As g4, but the last structure adds the row f(0) = 0: the conclusion shows
/// which variable the element is.
pub const G4_SEEN: &str = concat!(
    begin!(),
    "S; E 0 0; R 0 0 0; V 0 'x'; ",
    "S; E 0 0; R 0 0 0; A 0 0 0; V 0 'x'; ",
    "M 0 1 0 0 1 0; M 1 2 0 0; K 0 1 #0; K 1 2 #1"
);

pub const G5: &str = concat!(
    begin!(),
    "S; E 0 0; E 1 0; E 2 0; R 0 0 1; A 0 1 2; V 0 'x'; V 1 'y'; ",
    "M 0 1 0 0 1 1; K 0 1 #2"
);

pub const G6: &str = concat!(
    begin!(),
    "S; E 0 0; E 1 0; R 0 0 1; V 0 'x'; V 1 'y'; ",
    "M 0 1 0 0 1 1; K 0 1 #2"
);

/// g6 with a SurjThen behind it.
pub const G6_LATER: &str = concat!(
    begin!(),
    "S; E 0 0; E 1 0; R 0 0 1; V 0 'x'; V 1 'y'; ",
    "S; E 0 0; E 1 0; R 0 0 1; R 0 1 0; V 0 'x'; V 1 'y'; ",
    "M 0 1 0 0 1 1; M 1 2 0 0 1 1; K 0 1 #2; K 1 2 #1"
);

pub const G7: &str = concat!(
    begin!(),
    "S; E 0 0; E 1 0; E 2 0; E 3 0; R 0 0 1; A 0 0 3; A 0 1 2; V 0 'x'; V 1 'y'; ",
    "M 0 1 0 0 1 1; K 0 1 #2"
);

pub const G8_23: &str = concat!(
    begin!(),
    "S; E 0 0; E 1 0; R 0 0 1; V 0 'x'; V 1 'y'; ",
    "S; E 0 0; E 1 0; R 0 0 1; V 0 'x'; V 1 'y'; ",
    "M 0 1 0 0 1 1; M 1 2 0 0 1 1; K 1 2 #1"
);

pub const G8_24: &str = concat!(begin!(), "M 0 0 0 0 1 1; K 0 0 #1");

pub const G9: &str = "N 0 'r'; S; E 0 0; E 1 0; E 2 0; S; E 0 0; M 0 1 0 0 1 0 2 0; K 0 1 #1";

pub const G10: &str = "N 0 'r'; S";

pub const G11: &str = "N 0 'r'; S; S; M 0 1; K 0 1 #1";

/// Title, rule, room.
pub const EXAMPLES: &[(&str, &str, u32)] = &[
    ("g1: SurjThen by identity, 1 adds row (1,0)", G1, 65_535),
    ("g1 in a buffer of exactly its 60 bytes", G1, 60),
    ("g2: the same, buffer 59", G1, 59),
    (
        "g3: If adds element 2 and row (1,2), then SurjThen by identity",
        G3,
        65_535,
    ),
    (
        "g4: If sends 0 and 1 to one element, then SurjThen",
        G4,
        65_535,
    ),
    (
        "g4 with a row added last: the element is variable 1",
        G4_SEEN,
        65_535,
    ),
    ("g5: NonSurjThen adds 2, the function of 1", G5, 65_535),
    ("g6: NonSurjThen by identity", G6, 65_535),
    ("g6 with a later rule, whose count is 0", G6_LATER, 65_535),
    ("g7: two new elements", G7, 65_535),
    (
        "g8: a map and kind from 1 to 2, no kind into 1",
        G8_23,
        65_535,
    ),
    ("g8: a map and kind from 0 to 0", G8_24, 65_535),
    ("g9: three keys in a fiber", G9, 65_535),
    ("g10: no elements, no kinds", G10, 65_535),
    ("g11: SurjThen between empty structures", G11, 65_535),
];
