// The published eqlog/src/flatten.rs up to and with `flatten_rule`.
use crate::stand_ins::convert_case;

include!(concat!(env!("OUT_DIR"), "/flatten.rs"));

// A child module, so that it can call the private `flatten_rule`.
pub mod harness;
