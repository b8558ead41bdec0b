//! Instructions of pushes and of fetches.
use bstr::BStr;

use crate::{parse::Operation, Instruction};

impl Instruction<'_> {
    /// What the instruction is for.
    ///
    /// ```
    /// use gix_refspec::{instruction::Push, parse::Operation, Instruction};
    ///
    /// let all = Instruction::Push(Push::AllMatchingBranches { allow_non_fast_forward: true });
    /// assert_eq!(all.operation(), Operation::Push);
    /// assert_eq!(all.to_bstring(), "+:");
    /// ```
    pub fn operation(&self) -> Operation {
        match self {
            Instruction::Push(_) => Operation::Push,
            Instruction::Fetch(_) => Operation::Fetch,
        }
    }
}

/// What to push. Sources are local, destinations on the remote.
#[derive(Clone, Copy, Debug, Hash, PartialEq, Eq, PartialOrd, Ord)]
pub enum Push<'a> {
    /// Push each branch that the remote has under the same name, as `:` says.
    AllMatchingBranches {
        /// Whether a branch may move without a fast-forward.
        allow_non_fast_forward: bool,
    },
    /// Delete a ref of the remote, as `:refs/heads/main` says.
    Delete {
        /// The ref.
        ref_or_pattern: &'a BStr,
    },
    /// Push the source to the destination.
    Matching {
        /// A ref name or a pattern; with a destination that is no pattern any expression for an object, such as
        /// `main~2`.
        src: &'a BStr,
        /// A ref name or a pattern; the source if the text has no destination.
        dst: &'a BStr,
        /// Whether the destination may move without a fast-forward.
        allow_non_fast_forward: bool,
    },
    /// Don't push what the source matches.
    Exclude {
        /// A ref name or a pattern. A partial name is taken as it stands.
        src: &'a BStr,
    },
}

/// What to fetch. Sources are on the remote, destinations local.
#[derive(Clone, Copy, Debug, Hash, PartialEq, Eq, PartialOrd, Ord)]
pub enum Fetch<'a> {
    /// Fetch the source, and write no ref.
    Only {
        /// A ref name or an object id.
        src: &'a BStr,
    },
    /// Don't fetch what the source matches.
    Exclude {
        /// A ref name or a pattern. A partial name is taken as it stands.
        src: &'a BStr,
    },
    /// Fetch the source, and write the destination.
    AndUpdate {
        /// A ref name, a pattern or an object id.
        src: &'a BStr,
        /// A ref name, or a pattern if the source is one.
        dst: &'a BStr,
        /// Whether the destination may move without a fast-forward.
        allow_non_fast_forward: bool,
    },
}
