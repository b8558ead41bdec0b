//! Parses Git refspecs, prints, compares and matches them: the public interface of `gix-refspec` 0.45.1, over the
//! proved library for C.
//!
//! ```
//! use bstr::ByteSlice;
//! use gix_refspec::parse::Operation;
//!
//! let spec = gix_refspec::parse("+@:refs/remotes/origin/HEAD".into(), Operation::Fetch).unwrap();
//! assert_eq!(spec.source().unwrap(), "HEAD");
//! assert_eq!(spec.local().unwrap(), "refs/remotes/origin/HEAD");
//! assert_eq!(spec.prefix().unwrap(), "HEAD");
//! assert_eq!(spec.to_bstring().as_bstr(), "+HEAD:refs/remotes/origin/HEAD");
//! ```
//!
//! The library's calls are proved for every input, from the bytes to the outcome; this crate isn't. Where memory runs
//! out, it ends the process by [`std::alloc::handle_alloc_error`], as a `Vec` does.
#![deny(missing_docs)]
#![forbid(unsafe_code)]

use gix_refspec_sys::calls;

pub mod instruction;
pub mod match_group;
pub mod parse;
mod spec;
mod types;
mod write;

pub use match_group::types::MatchGroup;
pub use parse::function::parse;
pub use types::Instruction;

/// A refspec that borrows the text that it was parsed from. Specs are compared, ordered and hashed by their
/// instructions: a push of `main` equals one of `main:main`.
///
/// ```
/// use gix_refspec::parse::Operation;
///
/// let of = |text: &'static str| gix_refspec::parse(text.into(), Operation::Push).unwrap();
/// assert_eq!(of("main"), of("main:main"));
/// assert!(of("a:b") < of("b:a"));
/// ```
#[derive(Eq, Copy, Clone, Debug)]
pub struct RefSpecRef<'a> {
    /// The text, for the calls that parse it again.
    text: &'a bstr::BStr,
    op: parse::Operation,
    mode: types::Mode,
    src: Option<&'a bstr::BStr>,
    dst: Option<&'a bstr::BStr>,
}

/// A refspec that owns its text. It is compared, ordered and hashed as a [`RefSpecRef`].
///
/// ```
/// use gix_refspec::{parse::Operation, RefSpec};
///
/// let owned = {
///     let text = String::from("refs/heads/main:refs/heads/backup");
///     RefSpec::from(gix_refspec::parse(text.as_str().into(), Operation::Fetch).unwrap())
/// };
/// assert_eq!(owned.to_ref().destination().unwrap(), "refs/heads/backup");
/// ```
#[derive(Eq, Clone, Debug)]
pub struct RefSpec {
    text: bstr::BString,
    op: parse::Operation,
    mode: types::Mode,
    src: Option<bstr::BString>,
    dst: Option<bstr::BString>,
}

/// What a call returned. Ends the process if memory ran out.
fn answered<T>(result: Result<T, calls::Outcome>) -> T {
    match result {
        Ok(value) => value,
        Err(calls::Outcome(gix_refspec_sys::NO_MEMORY)) => out_of_memory(),
        Err(outcome) => unreachable!("the call is refused, with outcome {}", outcome.0),
    }
}

fn out_of_memory() -> ! {
    std::alloc::handle_alloc_error(std::alloc::Layout::new::<u8>())
}
