//! Parsing of refspecs.
use std::fmt;

use bstr::BString;

/// Why a text isn't a refspec.
///
/// ```
/// use gix_refspec::parse::{Error, Operation};
///
/// let error = gix_refspec::parse("a*b*:c".into(), Operation::Fetch).unwrap_err();
/// assert!(matches!(&error, Error::PatternUnsupported { pattern } if pattern == "a*b*"));
/// assert_eq!(error.to_string(), "refspec patterns may only contain a single '*' character, found \"a*b*\"");
/// ```
#[derive(Debug)]
pub enum Error {
    /// The text of a push is empty.
    Empty,
    /// A negative spec has a colon.
    NegativeWithDestination,
    /// A negative spec has no source.
    NegativeEmpty,
    /// A negative spec is 40 hex digits or more.
    NegativeObjectHash,
    /// Never returned: a negative spec may be a partial name.
    NegativePartialName,
    /// Never returned: a negative spec may be a pattern.
    NegativeGlobPattern,
    /// Never returned: an invalid destination gives `ReferenceName`.
    InvalidFetchDestination,
    /// A push has a source and nothing after its last colon.
    PushToEmpty,
    /// A side has several stars.
    PatternUnsupported {
        /// That side.
        pattern: BString,
    },
    /// Exactly one side has a star.
    PatternUnbalanced,
    /// A side isn't a valid ref name, or not with a letter for its star.
    ReferenceName(gix_validate::reference::name::Error),
}

impl fmt::Display for Error {
    fn fmt(&self, f: &mut fmt::Formatter<'_>) -> fmt::Result {
        f.write_str(match self {
            Error::Empty => "Empty refspecs are invalid",
            Error::NegativeWithDestination => "Negative refspecs cannot have destinations as they exclude sources",
            Error::NegativeEmpty => "Negative specs must not be empty",
            Error::NegativeObjectHash => "Negative specs must not be object hashes",
            Error::NegativePartialName => "Negative specs must be full ref names, starting with \"refs/\"",
            Error::NegativeGlobPattern => "Negative glob patterns are not allowed",
            Error::InvalidFetchDestination => "Fetch destinations must be ref-names, like 'HEAD:refs/heads/branch'",
            Error::PushToEmpty => "Cannot push into an empty destination",
            Error::PatternUnsupported { pattern } => {
                return write!(f, "refspec patterns may only contain a single '*' character, found {pattern:?}")
            }
            Error::PatternUnbalanced => "Both sides of a two-sided specification need a pattern, like 'a/*:b/*'",
            Error::ReferenceName(error) => return fmt::Display::fmt(error, f),
        })
    }
}

impl std::error::Error for Error {
    fn source(&self) -> Option<&(dyn std::error::Error + 'static)> {
        match self {
            Error::ReferenceName(error) => error.source(),
            _ => None,
        }
    }
}

impl From<gix_validate::reference::name::Error> for Error {
    fn from(error: gix_validate::reference::name::Error) -> Self {
        Error::ReferenceName(error)
    }
}

/// What a refspec is for.
///
/// ```
/// assert!(gix_refspec::parse::Operation::Push < gix_refspec::parse::Operation::Fetch);
/// ```
#[derive(Clone, Copy, Debug, Hash, PartialEq, Eq, PartialOrd, Ord)]
pub enum Operation {
    /// The source is local, the destination on the remote.
    Push,
    /// The source is on the remote, the destination local.
    Fetch,
}

pub(crate) mod function {
    use bstr::{BStr, BString, ByteSlice};
    use gix_refspec_sys::{self as sys, calls};

    use super::{Error, Operation};
    use crate::{types::Mode, RefSpecRef};

    /// Parses a refspec for an operation. The result borrows the text, or the constant `HEAD` for a lone `@` and the
    /// missing source of a fetch. The reasons to refuse a text come in the order of git-fetch(1) and git-push(1):
    /// what the sign rules out, then the source, the destination, and both together.
    ///
    /// ```
    /// use gix_refspec::parse::{Error, Operation};
    ///
    /// assert_eq!(gix_refspec::parse("".into(), Operation::Fetch).unwrap().source().unwrap(), "HEAD");
    /// assert!(matches!(gix_refspec::parse("".into(), Operation::Push), Err(Error::Empty)));
    /// assert!(matches!(gix_refspec::parse("a..b".into(), Operation::Fetch), Err(Error::ReferenceName(_))));
    /// ```
    pub fn parse(spec: &BStr, operation: Operation) -> Result<RefSpecRef<'_>, Error> {
        match calls::read(spec, number_of(operation)) {
            Ok(sides) => Ok(RefSpecRef {
                text: spec,
                op: operation,
                mode: match sides.mode {
                    sys::FORCED => Mode::Force,
                    sys::NEGATIVE => Mode::Negative,
                    _ => Mode::Normal,
                },
                src: sides.source.map(ByteSlice::as_bstr),
                dst: sides.destination.map(ByteSlice::as_bstr),
            }),
            Err(outcome) => Err(error_of(outcome, spec, operation)),
        }
    }

    pub(crate) fn number_of(operation: Operation) -> u32 {
        match operation {
            Operation::Push => sys::PUSH,
            Operation::Fetch => sys::FETCH,
        }
    }

    fn error_of(outcome: calls::Outcome, spec: &BStr, operation: Operation) -> Error {
        match outcome.0 {
            sys::EMPTY => Error::Empty,
            sys::NEGATIVE_WITH_DESTINATION => Error::NegativeWithDestination,
            sys::NEGATIVE_EMPTY => Error::NegativeEmpty,
            sys::NEGATIVE_OBJECT_HASH => Error::NegativeObjectHash,
            sys::PUSH_TO_EMPTY => Error::PushToEmpty,
            sys::PATTERN_UNSUPPORTED => Error::PatternUnsupported { pattern: wrong_side(spec, operation).into() },
            sys::PATTERN_UNBALANCED => Error::PatternUnbalanced,
            sys::NO_MEMORY => crate::out_of_memory(),
            _ => Error::ReferenceName(name_error(wrong_side(spec, operation))),
        }
    }

    /// The side of a refused text that has the wrong bytes: what is before its last colon, or after it.
    fn wrong_side(spec: &BStr, operation: Operation) -> &BStr {
        let unsigned = match spec.first() {
            Some(b'+' | b'^') => &spec[1..],
            _ => spec,
        };
        let (source, destination) = match unsigned.rfind_byte(b':') {
            Some(colon) => (&unsigned[..colon], &unsigned[colon + 1..]),
            None => (unsigned, &unsigned[..0]),
        };
        let wrong = match calls::locate(spec, number_of(operation)).side {
            sys::DESTINATION => destination,
            _ => source,
        };
        wrong.as_bstr()
    }

    /// The error of `gix-validate` for a side that isn't a name, and not with a letter for its star.
    fn name_error(side: &BStr) -> gix_validate::reference::name::Error {
        let lettered: BString = side.replace(b"*", b"a").into();
        let checked = gix_validate::reference::name_partial(lettered.as_bstr()).err();
        match checked.or_else(|| gix_validate::reference::name_partial(b"".as_bstr()).err()) {
            Some(error) => error,
            None => unreachable!("an empty name is invalid"),
        }
    }
}
