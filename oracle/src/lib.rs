//! Runs the published `flatten_rule` and `infer_scope` on document 01's records.
//!
//! The modules `algebra`, `ast`, `flat_eqlog` and `flatten` hold the published
//! code, cut by build.rs out of the unmodified files in published/, under the
//! module paths that it has there. `stand_ins` holds the little that is missing.
//! Everything else is the harness: records to published types and back, panics
//! to refusal numbers, cases, their generator and the stored list.

// The published code is part of a larger program, so much of it is unused here.
#[allow(dead_code, unused_imports)]
mod algebra;
#[allow(dead_code)]
mod ast;
#[allow(dead_code, unused_imports)]
mod flat_eqlog;
#[allow(dead_code, unused_imports)]
mod flatten;
mod stand_ins;

use stand_ins::{grammar_util, options};

pub mod answer;
pub mod bench;
pub mod case;
pub mod desk;
pub mod generate;
pub mod notation;
pub mod outcomes;
mod panics;
mod random;
pub mod reading;
pub mod records;
pub mod stored;
pub mod text;

/// Every line of the published files that is not compiled: path, number, text.
pub const LEFT_OUT: &str = include_str!(concat!(env!("OUT_DIR"), "/left_out.txt"));
