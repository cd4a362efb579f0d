// The published eqlog/src/flat_eqlog/ast.rs.
include!(concat!(env!("OUT_DIR"), "/flat_eqlog_ast.rs"));
