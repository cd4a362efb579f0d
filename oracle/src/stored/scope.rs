//! Hand-made groups for scope, each with the answer that document 01 asks for.

/// Type 0 is parentless, type 1 lives in 0, type 2 in 0 and 1; type 3 is apart.
/// Predicate 0 has no parents, 1 lives in 0, 2 in 0 and 1, 3 in 3; predicate 4
/// counts 1 as parent but lacks the column for 1's own. Function 0 lives in 0,
/// function 1 in 0 and 1, function 2 nowhere.
pub const SIGNATURE: &str = "T; T 0; T 0 1; T; P #0 0; P #1 0 0; P #2 0 1 0; P #1 3 0; P #1 1; \
                             F #1 0 0 0; F #2 0 1 0 0; F #0 0 0";

/// Variables 0 and 1 are equal by name and type, 2 has their name and another
/// type, 3 their type and another name; 4 is of type 1, 5 of type 3.
macro_rules! vars {
    ($rest:literal) => {
        concat!(
            "G 'g'; W 0 'a'; W 0 'a'; W 1 'a'; W 0 'b'; W 1 'c'; W 3 'd'; U 'u'; ",
            $rest
        )
    };
}

/// Title, group, position, answer.
#[rustfmt::skip]
pub const MADE: &[(&str, &str, u32, &str)] = &[
    ("g11: an empty premise and conclusion", "G 'r'; U 'r_0'", 0, "global"),
    ("no rules", "G 'g'", 0, "refused 41"),
    ("a position past the last", "G 'g'; U 'u'", 1, "refused 41"),
    ("the last position there is", "G 'g'; U 'u'", 4_294_967_295, "refused 41"),
    ("position 65,536 is not position 0", "G 'g'; U 'u'", 65_536, "refused 41"),
    ("only the rule at the position is read", vars!("B #3 0 0 1; H #1 2 0 0; U 'v'; H #0 1 0 3"), 1, "model 0 owners 0000"),
    ("a first output without parents", vars!("H #0 0 0"), 0, "global"),
    ("a first output without parents, then one with", vars!("H #0 0 0; H #0 1 0 0"), 0, "global"),
    ("a first Equality", vars!("H #3 0 0 1; H #0 1 0 0"), 0, "global"),
    ("a later Equality", vars!("H #0 1 0 0; H #3 0 0 1"), 0, "global"),
    ("one conclusion in model 0", vars!("H #0 1 3 0"), 0, "model 0 owners 0003"),
    ("one conclusion in model 1", vars!("H #0 2 0 4 3"), 0, "model 1 owners 00000004"),
    ("a function's conclusion", vars!("H #1 0 0 3 3"), 0, "model 0 owners 0000"),
    ("a FuncDomain", vars!("H #5 0 0 3"), 0, "model 0 owners 0000"),
    ("a FuncDomain in model 1", vars!("H #5 1 0 4 3"), 0, "model 1 owners 00000004"),
    ("a member of model 0", vars!("H #2 1 0 4"), 0, "model 0 owners 0000"),
    ("a member of model 1", vars!("H #2 2 0 4 0"), 0, "model 1 owners 00000004"),
    ("conclusions with equal owners at different numbers", vars!("H #0 1 0 3; H #0 1 1 0"), 0, "model 0 owners 0000"),
    ("the owners are those of the first conclusion", vars!("H #0 1 1 3; H #0 1 0 0"), 0, "model 0 owners 0001"),
    ("conclusions with owners of one name and two types", vars!("H #0 1 0 3; H #0 1 2 3"), 0, "global"),
    ("conclusions with other owners", vars!("H #0 1 0 3; H #0 1 3 3"), 0, "global"),
    ("conclusions in two models", vars!("H #0 1 0 3; H #0 2 0 4 3"), 0, "global"),
    ("a conclusion in a model and one in none", vars!("H #0 1 0 3; H #0 0 0"), 0, "global"),
    ("43 at the first conclusion", vars!("H #0 4 4"), 0, "refused 43"),
    ("43 at a later conclusion", vars!("H #0 2 0 4 3; H #0 4 0"), 0, "refused 43"),
    ("global before 43 at a later conclusion", vars!("H #0 2 0 4 3; H #0 0 0; H #0 4 0"), 0, "global"),
    ("TypeSets and parentless relations pass", vars!("B #4 1 5; B #0 0 5; B #1 2 5 5; H #0 1 0 3"), 0, "model 0 owners 0000"),
    ("a premise in the model", vars!("B #0 1 0 3; H #0 1 0 3"), 0, "model 0 owners 0000"),
    ("a premise in the model with an equal owner", vars!("B #0 1 1 3; H #0 1 0 3"), 0, "model 0 owners 0000"),
    ("a premise in the model with another owner", vars!("B #0 1 3 3; H #0 1 0 3"), 0, "global"),
    ("a premise in the model with an owner of another type", vars!("B #0 1 2 3; H #0 1 0 3"), 0, "global"),
    ("a premise in an unrelated model", vars!("B #0 3 5 3; H #0 1 0 3"), 0, "global"),
    ("a premise whose model lives in the model", vars!("B #0 2 0 4 3; H #0 1 0 3"), 0, "model 0 owners 0000"),
    ("the same with another second parent: one owner is compared", vars!("B #0 2 0 3 3; H #0 1 0 3"), 0, "model 0 owners 0000"),
    ("the same with another first parent", vars!("B #0 2 3 4 3; H #0 1 0 3"), 0, "global"),
    ("a premise in which the model lives", vars!("B #0 1 0 3; H #0 2 0 4 3"), 0, "model 1 owners 00000004"),
    ("the same with another owner", vars!("B #0 1 3 3; H #0 2 0 4 3"), 0, "global"),
    ("a premise member of the model", vars!("B #2 1 0 4; H #0 1 0 3"), 0, "model 0 owners 0000"),
    ("42", vars!("B #3 0 0 1; H #0 1 0 3"), 0, "refused 42"),
    ("42 of two equal variables", vars!("B #3 0 0 0; H #0 1 0 3"), 0, "refused 42"),
    ("global before a premise Equality", vars!("B #0 1 3 3; B #3 0 0 1; H #0 1 0 3"), 0, "global"),
    ("a premise Equality before global", vars!("B #3 0 0 1; B #0 1 3 3; H #0 1 0 3"), 0, "refused 42"),
    ("a premise Equality is not reached where the conclusion is global", vars!("B #3 0 0 1; H #3 0 0 1"), 0, "global"),
    ("a premise Equality is not reached without a conclusion", vars!("B #3 0 0 1"), 0, "global"),
    ("a conclusion's 43 before a premise Equality", vars!("B #3 0 0 1; H #0 4 4"), 0, "refused 43"),
    ("43 at a premise", vars!("B #0 4 0; H #0 2 0 4 3"), 0, "refused 43"),
    ("43 at a premise before a premise Equality", vars!("B #0 4 0; B #3 0 0 1; H #0 2 0 4 3"), 0, "refused 43"),
    ("an unrelated premise before 43", vars!("B #0 3 5 3; B #0 4 0; H #0 2 0 4 3"), 0, "global"),
    ("a premise with fewer arguments than owners of its own model, but enough", vars!("B #0 4 0; H #0 1 0 3"), 0, "model 0 owners 0000"),
];

/// A signature for chains: type 2 lives in 1 alone, type 1 in 0 alone. So 0 is
/// not among 2's own parents, and relations of models 0 and 2 are unrelated.
pub const CHAIN: &str = "T; T 0; T 1; P #1 0; P #2 1 2 0";

/// Over `CHAIN`.
#[rustfmt::skip]
pub const CHAIN_MADE: &[(&str, &str, u32, &str)] = &[
    ("a parent's parent is no parent", "G 'g'; W 0 'a'; W 1 'b'; W 2 'c'; U 'u'; B #0 0 1; H #0 1 1 2 0", 0, "global"),
    ("owners of such a model", "G 'g'; W 0 'a'; W 1 'b'; W 2 'c'; U 'u'; H #0 1 1 2 0", 0, "model 2 owners 00010002"),
];

/// A type that is its own parent.
pub const SELF_PARENT: &str = "T 0; P #1 0 0";

/// Over `SELF_PARENT`.
#[rustfmt::skip]
pub const SELF_PARENT_MADE: &[(&str, &str, u32, &str)] = &[
    ("a model that is its own parent", "G 'g'; W 0 'a'; U 'u'; B #0 0 0 0; H #0 0 0 0", 0, "model 0 owners 00000000"),
    ("a member of itself", "G 'g'; W 0 'a'; W 0 'b'; U 'u'; H #2 0 0 1", 0, "model 0 owners 00000001"),
];

/// Type 1 lives in 0; function 0's one parent is of type 1, its result of type
/// 0. Model 1 asks for two owners: a row of the function has two arguments, its
/// FuncDomain one.
pub const RESULT: &str = "T; T 0; F #1 1 0";

/// Over `RESULT`.
#[rustfmt::skip]
pub const RESULT_MADE: &[(&str, &str, u32, &str)] = &[
    ("a function's result is an argument", "G 'g'; W 1 'a'; W 0 'b'; U 'u'; H #1 0 0 1", 0, "model 1 owners 00000001"),
    ("a FuncDomain's result is none: 43", "G 'g'; W 1 'a'; W 0 'b'; U 'u'; H #5 0 0", 0, "refused 43"),
];

/// Bases `a1` at 2 and `a` at 12 both print `a12`; 13 has that name and another
/// type.
macro_rules! printed {
    ($rest:literal) => {
        concat!(
            "G 'g'; W 0 'el0'; W 0 'el1'; W 0 'a12'; W 0 'el3'; W 0 'el4'; W 0 'el5'; W 0 'el6'; W 0 'el7'; ",
            "W 0 'el8'; W 0 'el9'; W 0 'el10'; W 0 'el11'; W 0 'a12'; W 1 'a12'; U 'u'; ",
            $rest
        )
    };
}

/// Over `SIGNATURE`: variables compared by name and type, never by number.
#[rustfmt::skip]
pub const PRINTED_MADE: &[(&str, &str, u32, &str)] = &[
    ("a1 at 2 and a at 12 both print a12: conclusions", printed!("H #0 1 2 0; H #0 1 12 0"), 0, "model 0 owners 0002"),
    ("a1 at 2 and a at 12 both print a12: a premise", printed!("B #0 1 12 0; H #0 1 2 0"), 0, "model 0 owners 0002"),
    ("a1 at 2 and a at 12 both print a12: among two owners", printed!("B #0 1 12 0; B #2 2 2 13 0; H #0 2 12 13 0; H #5 1 2 13 0"), 0, "model 1 owners 000c000d"),
    ("a12 of another type", printed!("B #0 1 13 0; H #0 1 2 0"), 0, "global"),
];

/// Every list with its signature.
pub const LISTS: &[(&str, &[(&str, &str, u32, &str)])] = &[
    (SIGNATURE, MADE),
    (CHAIN, CHAIN_MADE),
    (SELF_PARENT, SELF_PARENT_MADE),
    (RESULT, RESULT_MADE),
    (SIGNATURE, PRINTED_MADE),
];
