// The published eqlog/src/flat_eqlog/scope.rs.
include!(concat!(env!("OUT_DIR"), "/flat_eqlog_scope.rs"));

// A child module, so that it can call the private `infer_scope`.
pub mod harness;
