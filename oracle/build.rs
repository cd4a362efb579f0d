//! Cuts what compiles out of the unmodified files in published/.
//!
//! For each file the table below names the line ranges that are kept, with the
//! text of the first and last line of each range, and a checksum of the whole
//! file. A file that differs in one byte fails the build. The kept lines go,
//! unaltered and in order, to OUT_DIR, from where the modules include them.
//! Every other line goes to the listing `left_out.txt`.

use std::env;
use std::fs;
use std::path::Path;

/// Lines `first` to `last`, counted from 1, both included.
struct Kept {
    first: usize,
    first_text: &'static str,
    last: usize,
    last_text: &'static str,
}

struct Cut {
    /// Path below published/.
    file: &'static str,
    /// Name of the file written to OUT_DIR.
    output: &'static str,
    checksum: u64,
    kept: &'static [Kept],
}

const fn kept(
    first: usize,
    first_text: &'static str,
    last: usize,
    last_text: &'static str,
) -> Kept {
    Kept {
        first,
        first_text,
        last,
        last_text,
    }
}

const CUTS: &[Cut] = &[
    Cut {
        file: "eqlog/src/flatten.rs",
        output: "flatten.rs",
        checksum: 0x5982_2291_f6a9_c919,
        // All up to and with `flatten_rule`.
        kept: &[kept(
            1,
            "use std::collections::{BTreeMap, BTreeSet};",
            647,
            "}",
        )],
    },
    Cut {
        file: "eqlog/src/flat_eqlog/ast.rs",
        output: "flat_eqlog_ast.rs",
        checksum: 0x7703_06b6_f4e7_56b0,
        kept: &[kept(
            1,
            "use crate::algebra::signature::{FuncId, PredId, Signature, TypeId};",
            180,
            "}",
        )],
    },
    Cut {
        file: "eqlog/src/flat_eqlog/scope.rs",
        output: "flat_eqlog_scope.rs",
        checksum: 0x5c87_84bd_2d53_3f42,
        kept: &[kept(
            1,
            "use crate::algebra::signature::Signature;",
            76,
            "}",
        )],
    },
    Cut {
        file: "eqlog/src/ast.rs",
        output: "ast.rs",
        checksum: 0x0186_45c8_6537_be41,
        // An included file can't begin with `//!` lines.
        kept: &[kept(
            12,
            "use crate::grammar_util::Location;",
            527,
            "",
        )],
    },
    Cut {
        file: "eqlog/src/algebra/structure.rs",
        output: "algebra_structure.rs",
        checksum: 0x9070_4999_99db_3264,
        kept: &[kept(25, "use std::collections::btree_map::Entry;", 1701, "}")],
    },
    Cut {
        file: "eqlog/src/algebra/signature.rs",
        output: "algebra_signature.rs",
        checksum: 0x36a2_a1db_52a2_9896,
        // Without the imports of modules that aren't here, and without
        // `build_signature`, which needs them.
        kept: &[
            kept(
                7,
                "use std::collections::BTreeMap;",
                9,
                "use crate::ast::*;",
            ),
            kept(
                14,
                "#[derive(Copy, Clone, Debug, PartialEq, Eq, PartialOrd, Ord, Hash)]",
                324,
                "}",
            ),
        ],
    },
    Cut {
        file: "eqlog/src/algebra/populate.rs",
        output: "algebra_populate.rs",
        checksum: 0xe9d4_696c_38a3_c3ae,
        // The types; the walk over the AST needs modules that aren't here.
        kept: &[
            kept(
                15,
                "use std::collections::btree_map::Entry;",
                22,
                "use crate::ast::*;",
            ),
            kept(
                26,
                "/// Origin tag for the morphism associated with a statement. Mirrors",
                133,
                "}",
            ),
        ],
    },
    Cut {
        file: "eqlog/src/unification.rs",
        output: "unification.rs",
        checksum: 0x8737_3a2a_b0fe_f8e9,
        kept: &[kept(
            1,
            "use std::fmt;",
            42,
            "impl<T: Copy + PartialEq + From<u32> + Into<u32> + PartialOrd + Ord + fmt::Display> Unification<T> {}",
        )],
    },
];

/// FNV-1a over 64 bits.
fn checksum(bytes: &[u8]) -> u64 {
    bytes.iter().fold(0xcbf2_9ce4_8422_2325, |sum, &byte| {
        (sum ^ u64::from(byte)).wrapping_mul(0x0000_0100_0000_01b3)
    })
}

fn check_range(file: &str, lines: &[&str], range: &Kept) {
    for (number, text) in [
        (range.first, range.first_text),
        (range.last, range.last_text),
    ] {
        assert_eq!(
            lines.get(number - 1).copied(),
            Some(text),
            "{file}, line {number}: not the line that the cut expects"
        );
    }
}

/// Writes the kept lines of one file and returns the listing of the others.
fn cut(cut: &Cut, out_dir: &str) -> String {
    let path = Path::new("published").join(cut.file);
    println!("cargo:rerun-if-changed={}", path.display());
    let text = fs::read_to_string(&path).expect("published file should be readable");
    assert_eq!(
        checksum(text.as_bytes()),
        cut.checksum,
        "{} is not the published file",
        cut.file
    );
    let lines: Vec<&str> = text.lines().collect();
    for range in cut.kept {
        check_range(cut.file, &lines, range);
    }

    let mut kept = String::new();
    let mut left_out = String::new();
    for (index, line) in lines.iter().enumerate() {
        let number = index + 1;
        if cut
            .kept
            .iter()
            .any(|range| (range.first..=range.last).contains(&number))
        {
            kept.push_str(line);
            kept.push('\n');
        } else {
            left_out.push_str(&format!("{}:{number}: {line}\n", cut.file));
        }
    }
    fs::write(Path::new(out_dir).join(cut.output), kept).expect("OUT_DIR should be writable");
    left_out
}

fn main() {
    println!("cargo:rerun-if-changed=build.rs");
    let out_dir = env::var("OUT_DIR").expect("cargo sets OUT_DIR");
    let left_out: String = CUTS.iter().map(|one| cut(one, &out_dir)).collect();
    fs::write(Path::new(&out_dir).join("left_out.txt"), left_out)
        .expect("OUT_DIR should be writable");
}
