//! Which published lines are compiled.

use oracle::LEFT_OUT;

/// Path and number of each line that is left out.
fn left_out() -> Vec<(&'static str, usize)> {
    LEFT_OUT
        .lines()
        .map(|line| {
            let mut parts = line.splitn(3, ':');
            let path = parts.next().expect("a path");
            let number = parts.next().expect("a number");
            (path, number.parse().expect("a number"))
        })
        .collect()
}

fn of(file: &str) -> Vec<usize> {
    let lines = left_out().into_iter();
    lines
        .filter(|(path, _)| *path == file)
        .map(|(_, number)| number)
        .collect()
}

#[test]
fn flatten_is_whole_up_to_flatten_rule() {
    assert_eq!(of("eqlog/src/flatten.rs"), (648..=800).collect::<Vec<_>>());
}

#[test]
fn scope_and_flat_ast_are_whole() {
    assert_eq!(of("eqlog/src/flat_eqlog/scope.rs"), []);
    assert_eq!(of("eqlog/src/flat_eqlog/ast.rs"), []);
    assert_eq!(of("eqlog/src/unification.rs"), []);
}

#[test]
fn structure_and_ast_lack_their_head_comments_only() {
    for file in ["eqlog/src/algebra/structure.rs", "eqlog/src/ast.rs"] {
        for line in LEFT_OUT.lines().filter(|line| line.starts_with(file)) {
            let text = line.splitn(3, ':').nth(2).expect("a text").trim();
            assert!(text.is_empty() || text.starts_with("//!"), "{line}");
        }
    }
}

#[test]
fn signature_and_populate_lack_what_needs_other_files() {
    let signature = of("eqlog/src/algebra/signature.rs");
    let expected: Vec<usize> = (1..=6).chain(10..=13).chain(325..=629).collect();
    assert_eq!(signature, expected);
    let populate = of("eqlog/src/algebra/populate.rs");
    let expected: Vec<usize> = (1..=14).chain(23..=25).chain(134..=1357).collect();
    assert_eq!(populate, expected);
}
