//! Stand-ins for what the published files name but aren't here.
//!
//! None of it takes part in an answer, except `root_const`: in document 01's
//! domain every element is canonical, so it hands back the element it is given.

pub mod grammar_util {
    /// Where a node stands in the source text: start and end. The harness has
    /// no source text and gives every node the same place.
    #[derive(Copy, Clone, Debug, Default, PartialEq, Eq, PartialOrd, Ord, Hash)]
    pub struct Location(pub usize, pub usize);
}

pub mod options {
    //! Names that flatten.rs imports for `flatten`, which is left out.
    #![allow(dead_code)]

    pub struct CompileOptions;
    pub struct EvaluationMode;
    pub struct ModelMode;
}

pub mod convert_case {
    //! Names that flatten.rs imports for `flatten`, which is left out.
    #![allow(dead_code)]

    pub enum Case {
        Snake,
    }
    pub trait Casing {}
}

pub mod eqlog_runtime {
    //! structure.rs takes `Unification` from this crate. The published
    //! eqlog/src/unification.rs is the same type but for `root_const`.

    #[allow(dead_code)]
    mod unification {
        include!(concat!(env!("OUT_DIR"), "/unification.rs"));

        impl<T: Copy + PartialEq + From<u32> + Into<u32>> Unification<T> {
            /// As `root`, without shortening the path.
            pub fn root_const(&self, mut el: T) -> T {
                let mut parent = self.parents[el.into() as usize];
                while el != parent {
                    el = parent;
                    parent = self.parents[parent.into() as usize];
                }
                el
            }
        }
    }

    pub use unification::Unification;
}
