// The published eqlog/src/ast.rs.
include!(concat!(env!("OUT_DIR"), "/ast.rs"));
