//! Where the Rust checks less than document 01: the smallest inputs. They lie
//! outside document 01's domain, so only the second reading refuses them.

use oracle::answer::{flatten, published_refusal};
use oracle::notation::record;

/// Type 0 parentless, predicate 0 of one column.
const ONE_COLUMN: &str = "T; P #0 0";

fn document_refuses_and_rust_does_not(signature: &str, rule: &str) {
    let (signature, rule) = (record(signature), record(rule));
    assert_eq!(flatten(&signature, &rule, 65_535), Err(7));
    assert_eq!(published_refusal(&signature, &rule), None);
}

#[test]
fn a_row_without_its_column_at_a_non_surj_then_target() {
    document_refuses_and_rust_does_not(ONE_COLUMN, "N 0; S; S; R 0; M 0 1; K 0 1 #2");
}

#[test]
fn a_row_without_its_column_in_an_unreached_structure() {
    document_refuses_and_rust_does_not(ONE_COLUMN, "N 0; S; S; R 0");
}

#[test]
fn an_element_without_parents_whose_type_has_some() {
    document_refuses_and_rust_does_not("T 0", "N 0; S; E 0 0");
}

#[test]
fn an_element_with_parents_whose_type_has_none_in_an_unreached_structure() {
    document_refuses_and_rust_does_not("T", "N 0; S; S; E 0 0 0");
}
