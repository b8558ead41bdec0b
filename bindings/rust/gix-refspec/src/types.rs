//! What a refspec says to do.
use crate::instruction;

/// The sign of a refspec.
#[derive(PartialEq, Eq, Copy, Clone, Debug)]
pub(crate) enum Mode {
    Normal,
    Force,
    Negative,
}

/// What a refspec says to do. [`RefSpecRef::instruction`](crate::RefSpecRef::instruction) returns it.
///
/// ```
/// use gix_refspec::{instruction::Fetch, parse::Operation, Instruction};
///
/// let spec = gix_refspec::parse("^refs/heads/tmp/*".into(), Operation::Fetch).unwrap();
/// assert_eq!(spec.instruction(), Instruction::Fetch(Fetch::Exclude { src: "refs/heads/tmp/*".into() }));
/// ```
#[derive(Clone, Copy, Debug, Hash, PartialEq, Eq, PartialOrd, Ord)]
pub enum Instruction<'a> {
    /// What to push.
    Push(instruction::Push<'a>),
    /// What to fetch.
    Fetch(instruction::Fetch<'a>),
}
