// The published eqlog/src/algebra/structure.rs.
use crate::stand_ins::eqlog_runtime;

include!(concat!(env!("OUT_DIR"), "/algebra_structure.rs"));
