//! What is found, what isn't, and that a division put back anywhere is.

use std::path::Path;

use crate::items::{module, Module};
use crate::reach::{divisions, reached, Modules};
use crate::tokens::{Placed, Token};
use crate::{check, modules};

fn made(sources: &[(&str, &str)]) -> Modules {
    let made = |(name, source): &(&str, &str)| -> (String, Module) {
        (name.to_string(), module(name, source).expect("a source"))
    };
    sources.iter().map(made).collect()
}

#[test]
fn a_division_is_found_through_calls_and_constants() {
    let modules = made(&[
        ("a", "use b::c::{half, other};\npub fn entry(n: u16) -> u16 {\n    half(n) + TENTH\n}\nconst TENTH: u16 = 100 / 10;\n"),
        ("b::c", "use crate::d;\npub fn half(n: u16) -> u16 {\n    d::rest(n)\n}\n"),
        ("b::d", "pub fn rest(n: u16) -> u16 {\n    let mut m = n;\n    m %= 2;\n    m\n}\n"),
    ]);
    let said = check(&modules, "a").expect_err("two");
    assert_eq!(said, "a reaches\na:5: / in TENTH\nb::d:3: % in rest");
}

#[test]
fn comments_contracts_literals_and_what_is_not_reached_are_passed() {
    let modules = made(&[(
        "a",
        "ghost use Nat.{◌/◌};\n// n / 2\npub fn entry(n: u8) -> bool\n    requires { n < 4 / 2 }\n    ensures value { result ≡ { n / 2 } }\n    ensures* { result ≡ n % 2 }\n{\n    'l: while n == b'/' {\n        break 'l;\n    }\n    n == b'%'\n}\n",
    ), ("b", "pub fn other(n: u8) -> u8 {\n    n / 2\n}\n")]);
    assert!(check(&modules, "a").is_ok());
    assert!(check(&modules, "b").is_err());
}

#[test]
fn what_cannot_be_followed_is_refused() {
    for body in ["unseen(n)", "b::unseen(n)", "n.pow(2)", "tests::half(n)"] {
        let source = format!(
            "pub fn entry(n: u8) -> u8 {{\n    {body}\n}}\nmod tests {{\n    use super::*;\n    pub fn half(n: u8) -> u8 {{\n        n / 2\n    }}\n}}\n"
        );
        assert!(check(&made(&[("a", &source)]), "a").is_err(), "{body}");
    }
    assert!(check(&made(&[]), "a").is_err());
}

/// Into each function and constant that the static library reaches, one after the other.
#[test]
fn a_division_put_back_is_found() {
    let mut modules = modules(Path::new("../crates")).expect("the crates");
    let library = reached(&modules, "cabinet").expect("the library");
    let printing = reached(&modules, "records::decimal").expect("number printing");
    assert!(printing.contains(&("records::write".into(), "put_byte".into())));
    assert!(library.is_superset(&printing));
    assert!(library.contains(&("signature::lookup".into(), "Signature::arity".into())));
    assert!(library.contains(&("records::refusal".into(), "Refusal::number".into())));
    assert_eq!(divisions(&modules, &library), Vec::<String>::new());
    for (module, name) in &library {
        let mut body = |change: fn(&mut Vec<Placed>)| {
            let item = modules.get_mut(module).and_then(|m| m.items.get_mut(name));
            change(&mut item.expect("reached").body);
            divisions(&modules, &library).len()
        };
        let put_back = body(|body| {
            body.push(Placed {
                token: Token::Division('/'),
                line: 0,
            })
        });
        assert_eq!(put_back, 1, "{module}::{name}");
        assert_eq!(body(|body| drop(body.pop())), 0);
    }
}

/// A type of which some divides.
const LEVEL: &str = "ghost use Nat.{◌/◌};

#[derive(Clone, Copy, PartialOrd)]
pub struct Level(pub u16);

impl Level {
    pub const STEP: u16 = 100 / 10;

    #[tactic(auto, unfolding(b::specs::half), using(crate::proofs::half))]
    pub fn half(&self) -> u16
        ensures { result ≡ self.0 / 2 }
    {
        self.0 / 2
    }

    pub fn rest(n: u16) -> Self {
        Level(n % 2)
    }

    pub const fn whole(self) -> u16 {
        Self::number(self)
    }

    fn number(self) -> u16 {
        self.0
    }

    fn min(self, n: u16) -> u16 {
        n / 3
    }
}

impl Model for Level {
    ghost view = { λ s. s.0 / 2 };
}
";

/// What is said of a function with a body, which may name `Level`.
fn said(body: &str) -> Result<String, String> {
    let entry = "use b::Level;\n\npub fn entry(n: u16, level: Level) -> u16 {\n    ";
    let entry = format!("{entry}{body}\n}}\n");
    check(&made(&[("a", &entry), ("b", LEVEL)]), "a")
}

fn divides(body: &str, where_it_does: &str) {
    let found = format!("a reaches\nb:{where_it_does}");
    assert_eq!(said(body), Err(found), "{body}");
}

#[test]
fn a_division_is_found_through_methods() {
    for body in [
        "level.half()",
        "n.levels[0].half::<u8>()",
        "(n..level.half()).len()",
        "n.find(|Level(_)| level.half())",
        "<Level>::half(&level)",
    ] {
        divides(body, "13: / in Level::half");
    }
    // Ours and std's.
    divides("n.min(level.0)", "29: / in Level::min");
}

#[test]
fn a_division_is_found_through_types() {
    for body in [
        "Level::rest(n).0",
        "b::Level::rest(n).0",
        "n.any(|&(_, n)| Level::rest(n))",
        "n.any(Level::rest)",
    ] {
        divides(body, "17: % in Level::rest");
    }
    divides("Level::STEP", "7: / in Level::STEP");
}

#[test]
fn a_division_is_found_in_what_stands_in_brackets_and_in_what_an_operator_calls() {
    let modules = made(&[
        ("a", "use b::Part;\npub fn same(p: &Part) -> bool {\n    p == p\n}\nconst ROW: [u8; 4] = [0; 8 / 2];\n"),
        ("b", "pub struct Part {\n    n: [u8; 4 / 2],\n    ghost low: { 1 / 1 ≡ 1 },\n}\n"),
        ("b::c", "use super::Part;\nimpl<'a, F: Fn() -> u8> PartialEq<F> for &'a Part {\n    fn eq(&self, p: &F) -> bool { self.n / 2 == p() }\n}\n"),
    ]);
    let said = check(&modules, "a").expect_err("three");
    let found = "a reaches\na:5: / in ROW\nb:2: / in Part\nb::c:3: / in Part::eq";
    assert_eq!(said, found);
}

#[test]
fn a_division_is_found_wherever_a_type_gets_what_it_has() {
    let modules = made(&[
        ("a", "use b::Level;\npub fn entry() -> u16 {\n    Level::third(1) + Level::LIMIT\n}\n"),
        ("b", "pub struct Level(pub u16);\n"),
        ("b::c", "use super::Level;\nimpl<T: Fn() -> u8> Level {\n    pub fn third(n: u16) -> u16 {\n        n / 3\n    }\n}\n"),
        ("b::d", "impl Low for Level {\n    fn low() -> u16 { 8 / 2 }\n}\nimpl High for Level {\n    fn low() -> u16 { 4 }\n}\n"),
        ("e", "pub trait Limits: Copy {\n    const LIMIT: u16 = 9 / 3;\n    fn limit(&self) -> u16;\n}\n"),
    ]);
    let said = check(&modules, "a").expect_err("three");
    let found =
        "a reaches\nb::c:4: / in Level::third\nb::d:2: / in Level::low\ne:2: / in Limits::LIMIT";
    assert_eq!(said, found);
}

/// Forms of sources; only the test's function divides.
const FORMS: &str = "use crate::b::{self, Level as Height};
use std::io;

pub type Held<'a> = [&'a Height; 1];

#[derive(Clone)]
pub(crate) enum Kind {
    Low = 1,
    High(u16),
}

#[unsafe(no_mangle)]
pub unsafe extern \"C\" fn entry<'a, F: Fn(u16) -> bool>(held: Held<'a>, is: F) -> io::Result<u16> {
    let Some(Kind::High(n) | Kind::High(n)) = kind(held) else {
        return (Ok(u16::MAX));
    };
    let twice = |(m, _): (u16, u8)| m + m;
    'all: for (i, x) in held.iter().enumerate() {
        if is(n) && !matches!(x, Height(1..=3) | Height(9)) {
            break 'all;
        }
    }
    Ok(twice((n, 0)) + held.0.whole())
}

fn kind(held: Held<'_>) -> Option<Kind> {
    if !(held.len() < usize::from(1u8)) {
        return None;
    }
    Some(Kind::Low).iter().find(|k| k.is_low())
}

impl<'a> Kind where Kind: Copy {
    fn is_low(&self) -> bool {
        match self {
            Self::Low => true,
            _ => b::Level(2).whole() == 1,
        }
    }
}

#[cfg(test)]
fn half(n: u8) -> u8 {
    n / 2
}
";

#[test]
fn forms_that_divide_nothing_are_read() {
    let modules = made(&[("a::d", FORMS), ("a::b", LEVEL)]);
    let said = check(&modules, "a::d").expect("no division");
    let count = "a::d reaches 8 functions, constants and types, none divides";
    assert_eq!(said, count);
}

#[test]
fn what_neither_we_nor_std_are_known_to_have_is_refused() {
    for body in [
        "level.unseen()",
        "n.div_euclid(2)",
        "n.iter().product::<u16>()",
        "Level::unseen(n)",
        "u16::div_euclid(n, 2)",
        "n.any(u16::div_euclid)",
        "<u16 as Div>::div(n, 2)",
        "T::div(n, 2)",
        "unseen::<u8>(n)",
        "_unseen(n)",
        "unseen!(n)",
        "b::UNSEEN",
        "c::Level(n).0",
        "tests::UNSEEN",
    ] {
        let said = said(body).expect_err(body);
        assert!(
            said.starts_with("a:4: ") && said.ends_with(" isn't found"),
            "{said}"
        );
    }
}

/// Std has these, but its own sources divide in them.
#[test]
fn what_divides_in_std_is_refused() {
    for (body, name) in [
        ("n.as_chunks::<2>()", ".as_chunks"),
        (
            "n.iter().all(|pairs| pairs.as_chunks::<2>().0.len() == 1)",
            ".as_chunks",
        ),
        ("n.to_be_bytes()", ".to_be_bytes"),
    ] {
        let found = format!("a:4: {name} isn't found");
        assert_eq!(said(body), Err(found), "{body}");
    }
}

#[test]
fn a_source_that_cannot_be_followed_is_refused() {
    for source in [
        "use b::*;",
        "macro_rules! half { ($n:expr) => { $n / 2 } }",
        "half!();",
        "mod inner { pub const HALF: u8 = 1; }",
        "extern \"C\" { fn half(n: u8) -> u8; }",
        "fn f() { use b::half; }",
        "fn f() { let n = 1; impl Level { fn min(self) {} } }",
        "const N: u8 = 1 /* 2 */;",
        "ghost half = all; fn f() { 1 }",
        "const N: &str = r\"\\\";",
        "fn f() { r#match(1) }",
        "fn f(n: [u8; { 2 }]) -> Part<{ 2 }> { n / 2 }",
        "fn f() {",
    ] {
        assert!(module("a", source).is_err(), "{source}");
    }
}
