//! The two published files of flat_eqlog that are needed. The others, and the
//! rest of the published mod.rs, serve steps that are left out.

mod ast;
pub mod scope;

pub use ast::*;
