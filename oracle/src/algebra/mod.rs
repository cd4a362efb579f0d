//! The published container types, with the derives that decide the rows' order.

pub mod populate;
pub mod signature;
pub mod structure;
