//! Parses, prints, compares and matches Git refspecs, lists the ref prefixes to request from a server, plans fetches, tells why a
//! ref is fetched or not, and finds stale refs, upstreams and the fetch values of remotes.
//!
//! ```
//! use refspec::{Operation, Side, Spec};
//!
//! let spec = Spec::parse("+@:refs/remotes/origin/HEAD", Operation::Fetch)?;
//! assert_eq!(spec.to_string(), "+HEAD:refs/remotes/origin/HEAD");
//! assert_eq!(spec.source(), Some(&b"HEAD"[..]));
//!
//! let error = Spec::parse("+a:b..c", Operation::Fetch).unwrap_err();
//! assert_eq!(error.to_string(), "A ref name must not have two dots in a row.");
//! assert_eq!((error.side(), error.position()), (Some(Side::Destination), Some(4)));
//! # Ok::<(), refspec::Error>(())
//! ```
//!
//! The library's calls are proved for every input, from the bytes to the outcome; this crate isn't.
use gix_refspec_sys as sys;
use std::cmp::Ordering;
use std::collections::BTreeMap;
use std::hash::{Hash, Hasher};
use std::ops::Range;
use std::{error, fmt, slice};

/// What a refspec is for.
#[derive(Clone, Copy, Debug, PartialEq, Eq, PartialOrd, Ord, Hash)]
pub enum Operation {
    Push,
    Fetch,
}

impl Operation {
    fn number(self) -> u32 {
        match self {
            Operation::Push => sys::PUSH,
            Operation::Fetch => sys::FETCH,
        }
    }
}

/// What the instruction of a refspec is, in the order that specs are compared by.
#[derive(Clone, Copy, Debug, PartialEq, Eq, PartialOrd, Ord, Hash)]
#[non_exhaustive]
pub enum Kind {
    PushAllMatching,
    PushDelete,
    PushMatching,
    PushExclude,
    FetchOnly,
    FetchExclude,
    FetchAndUpdate,
}

impl Kind {
    fn numbered(number: u32) -> Kind {
        match number {
            sys::PUSH_ALL_MATCHING => Kind::PushAllMatching,
            sys::PUSH_DELETE => Kind::PushDelete,
            sys::PUSH_MATCHING => Kind::PushMatching,
            sys::PUSH_EXCLUDE => Kind::PushExclude,
            sys::FETCH_ONLY => Kind::FetchOnly,
            sys::FETCH_EXCLUDE => Kind::FetchExclude,
            _ => Kind::FetchAndUpdate,
        }
    }
}

/// Why a text isn't a refspec, or why a call fails. It prints as a sentence.
#[derive(Clone, Copy, Debug, PartialEq, Eq, Hash)]
#[non_exhaustive]
pub enum Error {
    /// The text of a push is empty.
    Empty,
    /// A negative spec has a colon.
    NegativeWithDestination,
    /// A negative spec has no source.
    NegativeEmpty,
    /// A negative spec is 40 hex digits or more.
    NegativeObjectHash,
    /// A push has a source and nothing after its last colon.
    PushToEmpty,
    /// A side has several stars.
    PatternUnsupported,
    /// Exactly one side has a star.
    PatternUnbalanced,
    /// A ref name is empty. Never returned.
    NameEmpty,
    /// A slash begins or ends a ref name, or follows another.
    NameEmptyComponent,
    /// A component of a ref name begins with a dot.
    NameStartsWithDot,
    /// A component of a ref name ends with `.lock`.
    NameLockSuffix,
    /// A ref name ends with a dot.
    NameEndsWithDot,
    /// A ref name has two dots in a row.
    NameRepeatedDot,
    /// A ref name has `@{` in it.
    NameReflogPortion,
    /// A ref name has a star in it. Never returned.
    NameAsterisk,
    /// A ref name has a control character, a space or one of `~ ^ : ? [ \` in it.
    NameInvalidByte,
    /// Memory ran out.
    NoMemory,
    /// A destination is an object id, and names don't tell which refs have it.
    NeedsIds,
    /// The source begins with a sign, or the last side has a colon in it.
    OtherParts,
    /// A push is among the fetches.
    Push,
    /// The library ended with an outcome that this crate doesn't know.
    Other(u32),
}

/// The errors that the library has a number for.
const NUMBERED: [(u32, Error); 19] = [
    (sys::EMPTY, Error::Empty),
    (sys::NEGATIVE_WITH_DESTINATION, Error::NegativeWithDestination),
    (sys::NEGATIVE_EMPTY, Error::NegativeEmpty),
    (sys::NEGATIVE_OBJECT_HASH, Error::NegativeObjectHash),
    (sys::PUSH_TO_EMPTY, Error::PushToEmpty),
    (sys::PATTERN_UNSUPPORTED, Error::PatternUnsupported),
    (sys::PATTERN_UNBALANCED, Error::PatternUnbalanced),
    (sys::NAME_EMPTY, Error::NameEmpty),
    (sys::NAME_EMPTY_COMPONENT, Error::NameEmptyComponent),
    (sys::NAME_STARTS_WITH_DOT, Error::NameStartsWithDot),
    (sys::NAME_LOCK_SUFFIX, Error::NameLockSuffix),
    (sys::NAME_ENDS_WITH_DOT, Error::NameEndsWithDot),
    (sys::NAME_REPEATED_DOT, Error::NameRepeatedDot),
    (sys::NAME_REFLOG_PORTION, Error::NameReflogPortion),
    (sys::NAME_ASTERISK, Error::NameAsterisk),
    (sys::NAME_INVALID_BYTE, Error::NameInvalidByte),
    (sys::NO_MEMORY, Error::NoMemory),
    (sys::NEEDS_IDS, Error::NeedsIds),
    (sys::OTHER_PARTS, Error::OtherParts),
];

impl Error {
    fn of(outcome: u32) -> Error {
        let named = NUMBERED.iter().find(|(number, _)| *number == outcome);
        named.map_or(Error::Other(outcome), |(_, error)| *error)
    }

    /// The number of the outcome, as `gix_refspec.h` has it. `None` for a push among fetches.
    pub fn outcome(self) -> Option<u32> {
        match self {
            Error::Other(number) => Some(number),
            named => NUMBERED.iter().find(|(_, error)| *error == named).map(|(number, _)| *number),
        }
    }
}

impl fmt::Display for Error {
    fn fmt(&self, f: &mut fmt::Formatter<'_>) -> fmt::Result {
        let outcome = match self.outcome() {
            Some(number) => number,
            None => return f.write_str("A push is among the fetches."),
        };
        let mut sentence = no_text();
        if unsafe { sys::gix_refspec_explanation(outcome, &mut sentence) } != sys::OK {
            return write!(f, "The library ended with outcome {outcome}, which it doesn't explain.");
        }
        // The text is one of the library's constants.
        f.write_str(&String::from_utf8_lossy(unsafe { bytes_of(&sentence) }))
    }
}

impl error::Error for Error {}

/// A side of a refspec.
#[derive(Clone, Copy, Debug, PartialEq, Eq, Hash)]
pub enum Side {
    /// What comes before the last colon, without the sign.
    Source,
    /// What follows the last colon.
    Destination,
}

/// Why a text isn't a refspec, and where. It prints as the reason does.
#[derive(Clone, Copy, Debug, PartialEq, Eq, Hash)]
pub struct ParseError {
    reason: Error,
    place: Option<(Side, usize)>,
}

impl ParseError {
    /// Finds the place of what is wrong with the text for this reason.
    fn of(reason: Error, text: &[u8], operation: Operation) -> ParseError {
        let mut span = sys::Span::default();
        if matches!(reason.outcome(), Some(sys::EMPTY..=sys::NAME_INVALID_BYTE)) {
            // For a known operation the call doesn't fail.
            unsafe { sys::gix_refspec_locate(text.as_ptr(), text.len(), operation.number(), &mut span) };
        }
        let side = match span.side {
            sys::SOURCE => Some(Side::Source),
            sys::DESTINATION => Some(Side::Destination),
            _ => None,
        };
        ParseError { reason, place: side.map(|side| (side, span.start)) }
    }

    /// Why the text isn't a refspec.
    pub fn reason(&self) -> Error {
        self.reason
    }

    /// The side with the wrong bytes. `None` if something is missing rather than wrong: for `Empty`, `PushToEmpty` and
    /// `NegativeEmpty`, for `NegativeWithDestination` if nothing follows the colon, and if memory ran out.
    pub fn side(&self) -> Option<Side> {
        self.place.map(|(side, _)| side)
    }

    /// The index of the first wrong byte in the text, from 0. `None` if `side` is.
    pub fn position(&self) -> Option<usize> {
        self.place.map(|(_, position)| position)
    }
}

impl fmt::Display for ParseError {
    fn fmt(&self, f: &mut fmt::Formatter<'_>) -> fmt::Result {
        self.reason.fmt(f)
    }
}

impl error::Error for ParseError {}

impl From<ParseError> for Error {
    fn from(error: ParseError) -> Error {
        error.reason
    }
}

/// What the sign of a refspec says: none, `+` or `^`.
#[derive(Clone, Copy, Debug, PartialEq, Eq, Hash)]
pub enum Mode {
    Normal,
    Forced,
    Negative,
}

impl Mode {
    fn number(self) -> u32 {
        match self {
            Mode::Normal => sys::NORMAL,
            Mode::Forced => sys::FORCED,
            Mode::Negative => sys::NEGATIVE,
        }
    }
}

/// A value of `remote.<name>.fetch` that Git writes, or one for reviews.
#[derive(Clone, Copy, Debug, PartialEq, Eq, Hash)]
pub enum RemoteValue<'v> {
    /// That of a branch, as after `git remote add`; of all of them for `*`.
    Branch { remote: &'v [u8], branch: &'v [u8] },
    /// That of a mirror, as after `git remote add --mirror=fetch`: of `heads/main` for a branch, or of all refs for `*`.
    Mirror { branch: &'v [u8] },
    /// That of all pull requests of GitHub.
    PullRequests { remote: &'v [u8] },
    /// That of all merge requests of GitLab.
    MergeRequests { remote: &'v [u8] },
}

/// A refspec. Two are equal exactly if operation and canonical text are equal; their texts, and so their prefixes, may
/// differ. They are ordered as `gix_refspec_compare` orders them, and pushes come before fetches.
#[derive(Clone)]
pub struct Spec {
    kind: Kind,
    // A missing side is empty.
    source: Vec<u8>,
    destination: Vec<u8>,
    forced: bool,
    operation: Operation,
    canonical: Vec<u8>,
    text: Vec<u8>,
}

impl Spec {
    /// Parses a text.
    #[rustfmt::skip]
    pub fn parse(text: impl AsRef<[u8]>, operation: Operation) -> Result<Spec, ParseError> {
        let (text, number) = (text.as_ref(), operation.number());
        let refused = |reason| ParseError::of(reason, text, operation);
        let canonical = filled(text.len() + 8, |buffer, len| unsafe {
            sys::gix_refspec_canonical(
                text.as_ptr(), text.len(), number,
                buffer.as_mut_ptr(), buffer.len(), len,
            )
        })
        .map_err(refused)?;
        let mut parts = sys::Parts { kind: 0, forced: 0, source: no_text(), destination: no_text() };
        let outcome = unsafe { sys::gix_refspec_parts(canonical.as_ptr(), canonical.len(), number, &mut parts) };
        if outcome != sys::OK {
            return Err(refused(Error::of(outcome)));
        }
        // The sides are places in the canonical text, which is still there, or constants of the library.
        let (source, destination) = unsafe { (bytes_of(&parts.source), bytes_of(&parts.destination)) };
        Ok(Spec {
            kind: Kind::numbered(parts.kind),
            source: source.to_vec(),
            destination: destination.to_vec(),
            forced: parts.forced == 1,
            operation,
            canonical,
            text: text.to_vec(),
        })
    }

    /// The spec with this mode and these sides: that of a text of the sign, the source, and a colon and the destination if
    /// there is one. Fails with `OtherParts` if that text has another mode or other sides, and otherwise as `parse` does.
    ///
    /// ```
    /// use refspec::{Error, Mode, Operation, Spec};
    ///
    /// let spec = Spec::from_parts(Mode::Forced, Some(b"main"), Some(b"refs/x"), Operation::Fetch)?;
    /// assert_eq!(spec.as_bytes(), b"+main:refs/x");
    /// let refused = Spec::from_parts(Mode::Normal, Some(b"+main"), None, Operation::Fetch);
    /// assert_eq!(refused.unwrap_err(), Error::OtherParts);
    /// # Ok::<(), Error>(())
    /// ```
    #[rustfmt::skip]
    pub fn from_parts(
        mode: Mode, source: Option<&[u8]>, destination: Option<&[u8]>, operation: Operation,
    ) -> Result<Spec, Error> {
        let sides = sys::Sides {
            mode: mode.number(),
            has_source: u32::from(source.is_some()),
            has_destination: u32::from(destination.is_some()),
            source: source.map_or(no_text(), text_of),
            destination: destination.map_or(no_text(), text_of),
        };
        let text = filled(256, |buffer, len| unsafe {
            sys::gix_refspec_from_parts(&sides, operation.number(), buffer.as_mut_ptr(), buffer.len(), len)
        })?;
        Ok(Spec::parse(text, operation)?)
    }

    /// The spec of a value of `remote.<name>.fetch`. Fails as [`from_parts`](Spec::from_parts) does with such sides.
    ///
    /// ```
    /// use refspec::{RemoteValue, Spec};
    ///
    /// let spec = Spec::for_remote(RemoteValue::Branch { remote: b"origin", branch: b"*" })?;
    /// assert_eq!(spec.as_bytes(), b"+refs/heads/*:refs/remotes/origin/*");
    /// # Ok::<(), refspec::Error>(())
    /// ```
    #[rustfmt::skip]
    pub fn for_remote(value: RemoteValue<'_>) -> Result<Spec, Error> {
        let (number, remote, branch) = match value {
            RemoteValue::Branch { remote, branch } => (sys::BRANCH, remote, branch),
            RemoteValue::Mirror { branch } => (sys::MIRROR, &b""[..], branch),
            RemoteValue::PullRequests { remote } => (sys::PULL_REQUESTS, remote, &b""[..]),
            RemoteValue::MergeRequests { remote } => (sys::MERGE_REQUESTS, remote, &b""[..]),
        };
        let text = filled(256, |buffer, len| unsafe {
            sys::gix_refspec_remote_value(
                number, remote.as_ptr(), remote.len(), branch.as_ptr(), branch.len(),
                buffer.as_mut_ptr(), buffer.len(), len,
            )
        })?;
        Ok(Spec::parse(text, Operation::Fetch)?)
    }

    /// What `git fetch --prefetch` applies in place of this fetch: a negative spec as it is, and one that stores refs forced
    /// and below `refs/prefetch/`. `None` if it ignores the spec, as that stores nothing, or its source begins with
    /// `refs/tags/`. A push is refused.
    ///
    /// ```
    /// use refspec::{Operation, Spec};
    ///
    /// let spec = Spec::parse("refs/heads/*:refs/remotes/origin/*", Operation::Fetch)?;
    /// let prefetched = spec.prefetched()?.unwrap();
    /// assert_eq!(prefetched.as_bytes(), b"+refs/heads/*:refs/prefetch/remotes/origin/*");
    /// # Ok::<(), refspec::Error>(())
    /// ```
    pub fn prefetched(&self) -> Result<Option<Spec>, Error> {
        if self.operation == Operation::Push {
            return Err(Error::Push);
        }
        let own = &self.canonical;
        let text = filled(own.len() + 32, |buffer, len| unsafe {
            sys::gix_refspec_prefetched(own.as_ptr(), own.len(), buffer.as_mut_ptr(), buffer.len(), len)
        })?;
        match text[..] {
            [] => Ok(None),
            _ => Ok(Some(Spec::parse(text, Operation::Fetch)?)),
        }
    }

    // What specs are compared by, from first to last. Operation and canonical text follow from it. Those of one kind have
    // the same sides.
    fn key(&self) -> (Kind, &[u8], &[u8], bool) {
        (self.kind, &self.source, &self.destination, self.forced)
    }

    /// What it was parsed for.
    pub fn operation(&self) -> Operation {
        self.operation
    }

    /// The text that it was parsed from.
    pub fn text(&self) -> &[u8] {
        &self.text
    }

    /// The canonical text.
    pub fn as_bytes(&self) -> &[u8] {
        &self.canonical
    }

    /// The kind of its instruction.
    pub fn kind(&self) -> Kind {
        self.kind
    }

    /// Whether refs may move without a fast-forward.
    pub fn is_forced(&self) -> bool {
        self.forced
    }

    /// The source, if it has one.
    pub fn source(&self) -> Option<&[u8]> {
        side(&self.source)
    }

    /// The destination, if it has one. That of a push of `main` is `main`.
    pub fn destination(&self) -> Option<&[u8]> {
        side(&self.destination)
    }

    /// The side on the remote: the source of a fetch, the destination of a push.
    pub fn remote(&self) -> Option<&[u8]> {
        match self.operation {
            Operation::Push => self.destination(),
            Operation::Fetch => self.source(),
        }
    }

    /// The local side: the destination of a fetch, the source of a push.
    pub fn local(&self) -> Option<&[u8]> {
        match self.operation {
            Operation::Push => self.source(),
            Operation::Fetch => self.destination(),
        }
    }

    /// The mapping that it makes of a name, which is the source, by itself: negative specs exclude nothing here, and a
    /// partial name takes each of its six candidates. `None` if the source doesn't match the name, as an object id
    /// never does. The indexes are 0. Fails if memory runs out.
    ///
    /// ```
    /// use refspec::{Operation, Spec};
    ///
    /// let spec = Spec::parse("+refs/heads/*:refs/remotes/origin/*", Operation::Fetch)?;
    /// let tracking = spec.map("refs/heads/main")?.and_then(|mapping| mapping.destination);
    /// assert_eq!(tracking.as_deref(), Some(&b"refs/remotes/origin/main"[..]));
    /// assert_eq!(spec.map("refs/tags/v1")?, None);
    /// # Ok::<(), refspec::Error>(())
    /// ```
    pub fn map(&self, name: impl AsRef<[u8]>) -> Result<Option<Mapping>, Error> {
        let name = name.as_ref();
        let (made, bytes) = self.made(name, sys::gix_refspec_map)?;
        Ok((made.mapped == 1).then(|| Mapping {
            spec: 0,
            item: Some(0),
            source: name.to_vec(),
            destination: (made.has_destination == 1).then_some(bytes),
            forced: self.forced,
        }))
    }

    /// The mapping that it makes of a name, which is the destination. `None` if the destination doesn't match the name,
    /// or there is none. All else is as in [`map`](Spec::map).
    ///
    /// ```
    /// use refspec::{Operation, Spec};
    ///
    /// let spec = Spec::parse("+refs/heads/*:refs/remotes/origin/*", Operation::Fetch)?;
    /// let fetched = spec.map_back("refs/remotes/origin/main")?.map(|mapping| mapping.source);
    /// assert_eq!(fetched.as_deref(), Some(&b"refs/heads/main"[..]));
    /// # Ok::<(), refspec::Error>(())
    /// ```
    pub fn map_back(&self, name: impl AsRef<[u8]>) -> Result<Option<Mapping>, Error> {
        let name = name.as_ref();
        let (made, source) = self.made(name, sys::gix_refspec_map_back)?;
        Ok((made.mapped == 1).then(|| Mapping {
            spec: 0,
            item: Some(0),
            source,
            destination: Some(name.to_vec()),
            forced: self.forced,
        }))
    }

    // What a call tells of a name, and the name that it makes.
    #[rustfmt::skip]
    fn made(&self, name: &[u8], call: MapCall) -> Result<(sys::Made, Vec<u8>), Error> {
        let (text, number) = (&self.canonical, self.operation.number());
        let mut made = sys::Made::default();
        let bytes = filled(text.len() + name.len(), |buffer, len| {
            let outcome = unsafe {
                call(
                    text.as_ptr(), text.len(), number, name.as_ptr(), name.len(),
                    buffer.as_mut_ptr(), buffer.len(), &mut made,
                )
            };
            *len = made.len;
            outcome
        })?;
        Ok((made, bytes))
    }

    /// Its ref prefix on the remote: a full name, `HEAD`, or what is before the star of a pattern below `refs/`. `None`
    /// for a negative spec, and for any other side. It is that of the text: a push of `refs/heads/main` has none, the equal
    /// one of `refs/heads/main:refs/heads/main` has `refs/heads/main`. Fails if memory runs out.
    ///
    /// ```
    /// use refspec::{Operation, Spec};
    ///
    /// let short = Spec::parse("refs/heads/main", Operation::Push)?;
    /// let long = Spec::parse("refs/heads/main:refs/heads/main", Operation::Push)?;
    /// assert_eq!(short, long);
    /// assert_eq!(short.prefix()?, None);
    /// assert_eq!(long.prefix()?, Some(&b"refs/heads/main"[..]));
    /// # Ok::<(), refspec::Error>(())
    /// ```
    pub fn prefix(&self) -> Result<Option<&[u8]>, Error> {
        let (text, number) = (&self.text, self.operation.number());
        let mut prefix = no_text();
        match unsafe { sys::gix_refspec_prefix(text.as_ptr(), text.len(), number, &mut prefix) } {
            // It is a place in the text, or a constant of the library.
            sys::OK => Ok(side(unsafe { bytes_of(&prefix) })),
            outcome => Err(Error::of(outcome)),
        }
    }

    /// Its prefix, or the six candidates of a partial name; none for an object id or a negative spec, and for a push whose
    /// text has no destination. To ask a server, call [`prefixes`]: this may be empty, contain a star, or for `HEAD` be
    /// incomplete.
    #[rustfmt::skip]
    pub fn expand_prefixes(&self) -> Result<Vec<Vec<u8>>, Error> {
        let (text, number) = (&self.text, self.operation.number());
        let lines = filled(256, |buffer, len| unsafe {
            sys::gix_refspec_expand_prefixes(
                text.as_ptr(), text.len(), number,
                buffer.as_mut_ptr(), buffer.len(), len,
            )
        })?;
        Ok(names_in(&lines))
    }
}

/// A call that makes a name of a name.
type MapCall = unsafe extern "C" fn(*const u8, usize, u32, *const u8, usize, *mut u8, usize, *mut sys::Made) -> u32;

/// A side, if there is one: a present one is never empty.
fn side(bytes: &[u8]) -> Option<&[u8]> {
    (!bytes.is_empty()).then_some(bytes)
}

/// The names of lines.
fn names_in(lines: &[u8]) -> Vec<Vec<u8>> {
    let names = lines.split(|byte| *byte == b'\n').filter(|name| !name.is_empty());
    names.map(<[u8]>::to_vec).collect()
}

impl PartialEq for Spec {
    fn eq(&self, other: &Spec) -> bool {
        self.key() == other.key()
    }
}

impl Eq for Spec {}

impl PartialOrd for Spec {
    fn partial_cmp(&self, other: &Spec) -> Option<Ordering> {
        Some(self.cmp(other))
    }
}

impl Ord for Spec {
    fn cmp(&self, other: &Spec) -> Ordering {
        self.key().cmp(&other.key())
    }
}

impl Hash for Spec {
    fn hash<H: Hasher>(&self, state: &mut H) {
        self.key().hash(state);
    }
}

impl fmt::Display for Spec {
    fn fmt(&self, f: &mut fmt::Formatter<'_>) -> fmt::Result {
        f.write_str(&String::from_utf8_lossy(&self.canonical))
    }
}

impl fmt::Debug for Spec {
    fn fmt(&self, f: &mut fmt::Formatter<'_>) -> fmt::Result {
        f.debug_struct("Spec")
            .field("operation", &self.operation)
            .field("text", &Quoted(&self.text))
            .field("canonical", &Quoted(&self.canonical))
            .finish()
    }
}

/// Bytes that `{:?}` shows as a text, those that aren't UTF-8 with escapes.
struct Quoted<'b>(&'b [u8]);

impl fmt::Debug for Quoted<'_> {
    fn fmt(&self, f: &mut fmt::Formatter<'_>) -> fmt::Result {
        match std::str::from_utf8(self.0) {
            Ok(text) => fmt::Debug::fmt(text, f),
            Err(_) => write!(f, "\"{}\"", self.0.escape_ascii()),
        }
    }
}

/// The version of the library that is linked, such as `0.3.0`.
pub fn library_version() -> String {
    let mut version = no_text();
    // The text is a constant of the library.
    let told = unsafe {
        sys::gix_refspec_version(&mut version);
        bytes_of(&version)
    };
    String::from_utf8_lossy(told).into_owned()
}

/// What to request from a server.
#[derive(Clone, Debug, PartialEq, Eq, Hash)]
pub enum RefPrefixes {
    /// Send no request: one without ref prefixes would be for all refs.
    Nothing,
    /// These ref prefixes, of which none begins with another one. There is at least one.
    Listed(Vec<Vec<u8>>),
    /// All refs: send a request without ref prefixes.
    All,
}

/// The ref prefixes to send to a server, so that it lists each ref that specs fetch. To follow tags, send `refs/tags/` too, and
/// for a clone `HEAD`. A push is refused.
///
/// ```
/// use refspec::{prefixes, Operation, RefPrefixes, Spec};
///
/// let specs = [Spec::parse("+refs/heads/*:refs/remotes/origin/*", Operation::Fetch)?];
/// assert_eq!(prefixes(&specs)?, RefPrefixes::Listed(vec![b"refs/heads/".to_vec()]));
/// # Ok::<(), refspec::Error>(())
/// ```
pub fn prefixes(fetches: &[Spec]) -> Result<RefPrefixes, Error> {
    let fetches = texts_of(fetches)?;
    let lines = filled(256, |buffer, len| unsafe {
        sys::gix_refspec_prefixes(fetches.as_ptr(), fetches.len(), sys::FETCH, buffer.as_mut_ptr(), buffer.len(), len)
    });
    match lines {
        Ok(lines) if lines.is_empty() => Ok(RefPrefixes::Nothing),
        Ok(lines) => Ok(RefPrefixes::Listed(names_in(&lines))),
        Err(Error::Other(sys::NO_LIST)) => Ok(RefPrefixes::All),
        Err(error) => Err(error),
    }
}

/// Which sides of specs are matched.
#[derive(Clone, Copy, Debug, PartialEq, Eq, Hash)]
pub enum Direction {
    /// The sources, over the names of the remote.
    Forward,
    /// The destinations, over local names.
    Backward,
}

impl Direction {
    fn number(self) -> u32 {
        match self {
            Direction::Forward => sys::FORWARD,
            Direction::Backward => sys::BACKWARD,
        }
    }
}

/// A mapping of a source to a destination.
#[derive(Clone, PartialEq, Eq, Hash)]
pub struct Mapping {
    /// The index of the spec.
    pub spec: usize,
    /// The index of the name. `None` for an object requested by its id.
    pub item: Option<usize>,
    /// A name, or an id in lower case.
    pub source: Vec<u8>,
    /// `None` if the spec has none.
    pub destination: Option<Vec<u8>>,
    /// Whether refs may move without a fast-forward.
    pub forced: bool,
}

impl fmt::Debug for Mapping {
    fn fmt(&self, f: &mut fmt::Formatter<'_>) -> fmt::Result {
        f.debug_struct("Mapping")
            .field("spec", &self.spec)
            .field("item", &self.item)
            .field("source", &Quoted(&self.source))
            .field("destination", &self.destination.as_deref().map(Quoted))
            .field("forced", &self.forced)
            .finish()
    }
}

/// How specs map names, forward or backward. A push is refused. Backward fails if a destination is an id: names don't
/// show which refs have it.
///
/// ```
/// use refspec::{matches, Direction, Operation, Spec};
///
/// let specs = [Spec::parse("refs/heads/*:refs/remotes/origin/*", Operation::Fetch)?];
/// let found = matches(&specs, &["refs/heads/main", "refs/tags/v1"], Direction::Forward)?;
/// assert_eq!(found.len(), 1);
/// assert_eq!(found[0].destination.as_deref(), Some(&b"refs/remotes/origin/main"[..]));
/// # Ok::<(), refspec::Error>(())
/// ```
pub fn matches<N: AsRef<[u8]>>(fetches: &[Spec], names: &[N], direction: Direction) -> Result<Vec<Mapping>, Error> {
    let (texts, number) = (texts_of(fetches)?, direction.number());
    let items = names_of(names);
    let lists = listed(names.len(), |lists| unsafe { lists.matched(&texts, &items, number) })?;
    Ok(lists.told().iter().map(|one| lists.mapping(one, names, direction)).collect())
}

/// What becomes of a mapping.
#[derive(Clone, Copy, Debug, PartialEq, Eq, Hash)]
pub enum Validity {
    /// It is kept.
    Kept,
    /// It is removed, as its destination neither begins with `refs/` nor is `HEAD`.
    Removed,
    /// Another source has the same destination, and this is the index of the first mapping to that.
    InConflict { first: usize },
}

/// What becomes of mappings, such as those of [`matches`] that were changed, in order. Whether names are valid isn't checked.
///
/// ```
/// use refspec::{matches, validate, Direction, Operation, Spec, Validity};
///
/// let specs = [Spec::parse("refs/heads/*:refs/x/*", Operation::Fetch)?, Spec::parse("b:refs/x/a", Operation::Fetch)?];
/// let found = matches(&specs, &["refs/heads/a", "refs/heads/b"], Direction::Forward)?;
/// let contested = Validity::InConflict { first: 0 };
/// assert_eq!(validate(&found)?, [contested, Validity::Kept, contested]);
/// # Ok::<(), refspec::Error>(())
/// ```
pub fn validate(mappings: &[Mapping]) -> Result<Vec<Validity>, Error> {
    let pairs: Vec<_> = mappings.iter().map(pair_of).collect();
    let mut told = vec![sys::PairVerdict::default(); pairs.len()];
    // What the call writes overlaps nothing that it reads.
    match unsafe { sys::gix_refspec_validate(pairs.as_ptr(), pairs.len(), told.as_mut_ptr(), told.len()) } {
        sys::OK | sys::IN_CONFLICT => Ok(told.iter().map(validity_of).collect()),
        outcome => Err(Error::of(outcome)),
    }
}

fn pair_of(mapping: &Mapping) -> sys::Pair {
    sys::Pair {
        source: text_of(&mapping.source),
        destination: mapping.destination.as_deref().map_or(no_text(), text_of),
        source_is_id: u32::from(mapping.item.is_none()),
        has_destination: u32::from(mapping.destination.is_some()),
    }
}

fn validity_of(told: &sys::PairVerdict) -> Validity {
    match told.verdict {
        sys::PAIR_KEPT => Validity::Kept,
        sys::PAIR_REMOVED => Validity::Removed,
        _ => Validity::InConflict { first: told.first },
    }
}

/// What to fetch.
#[derive(Clone, Copy)]
pub struct Wish<'w> {
    /// The given specs, as in `git fetch REMOTE SPEC..`. Without any, the configured ones are fetched; else these also
    /// map what the given ones fetch.
    pub given: &'w [Spec],
    /// The values of `remote.<name>.fetch`, or those of `--refmap` in their place.
    pub configured: &'w [Spec],
    /// The values of `branch.<name>.merge` of the current branch, if its `branch.<name>.remote` is this remote: full names,
    /// or `HEAD`. Any other value is ignored; Git takes a ref for a partial name only if the server happens to list it. For
    /// an empty value Git fetches `HEAD`, so pass that.
    pub merges: &'w [&'w [u8]],
    /// Whether to fetch all tags, as by `--tags` or `remote.<name>.tagOpt`.
    pub tags: bool,
}

impl fmt::Debug for Wish<'_> {
    fn fmt(&self, f: &mut fmt::Formatter<'_>) -> fmt::Result {
        f.debug_struct("Wish")
            .field("given", &self.given)
            .field("configured", &self.configured)
            .field("merges", &self.merges.iter().map(|name| Quoted(name)).collect::<Vec<_>>())
            .field("tags", &self.tags)
            .finish()
    }
}

/// What makes an update.
#[derive(Clone, Copy, Debug, PartialEq, Eq, Hash)]
#[non_exhaustive]
pub enum Origin {
    /// The given spec at this index.
    Given(usize),
    /// The configured spec at this index.
    Configured(usize),
    /// The merged ref at this index.
    Merge(usize),
    /// Nothing is asked for, so `HEAD` is fetched.
    Default,
    /// All tags are asked for.
    AllTags,
}

impl Origin {
    fn of(one: &sys::Mapping) -> Origin {
        match one.origin {
            sys::GIVEN => Origin::Given(one.spec),
            sys::CONFIGURED => Origin::Configured(one.spec),
            sys::MERGE => Origin::Merge(one.spec),
            sys::DEFAULT => Origin::Default,
            _ => Origin::AllTags,
        }
    }
}

/// Which side of an update is invalid.
#[derive(Clone, Copy, Debug, PartialEq, Eq, Hash)]
pub enum InvalidSide {
    Source,
    Destination,
    Both,
}

/// What becomes of an update.
#[derive(Clone, Copy, Debug, PartialEq, Eq, Hash)]
#[non_exhaustive]
pub enum Verdict {
    /// If the plan is carried out, it is fetched, and written to its destination if any.
    Written,
    /// It is left out: this side isn't a valid ref name, or is the destination `HEAD`.
    LeftOut(InvalidSide),
    /// Another source has the same destination, so nothing is fetched.
    InConflict,
    /// It isn't written: a given spec or all tags write its destination.
    Overruled,
    /// The destination of another update is a directory of this one's, or the other way round. Git writes one of them, and
    /// ends with status 1.
    DirectoryConflict,
}

impl Verdict {
    fn numbered(number: u32) -> Verdict {
        match number {
            sys::WRITTEN => Verdict::Written,
            sys::INVALID_SOURCE => Verdict::LeftOut(InvalidSide::Source),
            sys::INVALID_DESTINATION => Verdict::LeftOut(InvalidSide::Destination),
            sys::INVALID_SIDES => Verdict::LeftOut(InvalidSide::Both),
            sys::CONTESTED => Verdict::InConflict,
            sys::DIRECTORY_CONFLICT => Verdict::DirectoryConflict,
            _ => Verdict::Overruled,
        }
    }
}

/// A ref or an object that a spec fetches.
#[derive(Clone, PartialEq, Eq, Hash)]
pub struct Update {
    /// The index of the name. `None` for an object requested by its id.
    pub item: Option<usize>,
    /// A name, or an id in lower case.
    pub source: Vec<u8>,
    /// The local ref. `None` if the spec has none.
    pub destination: Option<Vec<u8>>,
    /// What makes it.
    pub origin: Origin,
    /// What becomes of it.
    pub verdict: Verdict,
    /// Whether the ref may move without a fast-forward.
    pub forced: bool,
}

impl fmt::Debug for Update {
    fn fmt(&self, f: &mut fmt::Formatter<'_>) -> fmt::Result {
        f.debug_struct("Update")
            .field("item", &self.item)
            .field("source", &Quoted(&self.source))
            .field("destination", &self.destination.as_deref().map(Quoted))
            .field("origin", &self.origin)
            .field("verdict", &self.verdict)
            .field("forced", &self.forced)
            .finish()
    }
}

/// What a fetch does.
#[derive(Clone, Debug, PartialEq, Eq, Hash)]
pub struct Plan {
    /// The updates, last those that configured specs add to given ones.
    pub updates: Vec<Update>,
    /// The specs whose source the remote lacks.
    pub missing: Vec<Origin>,
}

impl Plan {
    /// Whether no source is missing, and no update is in conflict.
    pub fn is_carried_out(&self) -> bool {
        self.missing.is_empty() && self.updates.iter().all(|update| update.verdict != Verdict::InConflict)
    }

    /// The destinations in conflict, each with its updates.
    pub fn conflicts(&self) -> BTreeMap<&[u8], Vec<&Update>> {
        let mut conflicts: BTreeMap<&[u8], Vec<&Update>> = BTreeMap::new();
        for update in &self.updates {
            if let (Verdict::InConflict, Some(destination)) = (update.verdict, &update.destination) {
                conflicts.entry(destination).or_default().push(update);
            }
        }
        conflicts
    }
}

/// What `git fetch` writes, if the remote has these names. A push is refused.
///
/// ```
/// use refspec::{plan, Operation, Origin, Spec, Wish};
///
/// let given = [Spec::parse("main", Operation::Fetch)?];
/// let configured = [Spec::parse("+refs/heads/*:refs/remotes/origin/*", Operation::Fetch)?];
/// let wish = Wish { given: &given, configured: &configured, merges: &[], tags: false };
/// let plan = plan(&wish, &["refs/heads/main"])?;
/// assert!(plan.is_carried_out());
/// assert_eq!(plan.updates[0].destination, None);
/// assert_eq!(plan.updates[1].destination.as_deref(), Some(&b"refs/remotes/origin/main"[..]));
/// assert_eq!(plan.updates[1].origin, Origin::Configured(0));
/// # Ok::<(), refspec::Error>(())
/// ```
pub fn plan<N: AsRef<[u8]>>(wish: &Wish<'_>, names: &[N]) -> Result<Plan, Error> {
    let (given, configured) = (texts_of(wish.given)?, texts_of(wish.configured)?);
    let (merges, items) = (names_of(wish.merges), names_of(names));
    let wish = sys::Wish {
        given: given.as_ptr(),
        given_count: given.len(),
        configured: configured.as_ptr(),
        configured_count: configured.len(),
        merges: merges.as_ptr(),
        merges_count: merges.len(),
        tags: u32::from(wish.tags),
    };
    let lists = listed(names.len(), |lists| unsafe { lists.planned(&wish, &items) })?;
    let (missing, updates): (Vec<_>, Vec<_>) = lists.told().iter().partition(|one| one.verdict == sys::MISSING);
    Ok(Plan {
        updates: updates.into_iter().map(|one| lists.update(one, names)).collect(),
        missing: missing.into_iter().map(Origin::of).collect(),
    })
}

/// A local ref that looks stale: specs can write it, and a fetch doesn't.
#[derive(Clone, Copy, Debug, PartialEq, Eq, Hash)]
pub struct StaleRef {
    /// The index of its name.
    pub item: usize,
    /// The index of a negative spec that keeps it, as it excludes a ref from which it could be written: any one, if there
    /// are several. If `None`, a pruning fetch should delete it.
    pub kept_by: Option<usize>,
}

/// The local refs that look stale, if the remote has the names of `remote`, in order; of equal names only the first.
/// Symbolic refs are like others here, so leave them out of `local`. A push is refused.
///
/// ```
/// use refspec::{stale, Operation, Spec, StaleRef};
///
/// let specs = [Spec::parse("refs/heads/*:refs/x/*", Operation::Fetch)?];
/// let found = stale(&specs, &["refs/heads/main"], &["refs/x/gone", "refs/x/main"])?;
/// assert_eq!(found, [StaleRef { item: 0, kept_by: None }]);
/// # Ok::<(), refspec::Error>(())
/// ```
#[rustfmt::skip]
pub fn stale<R: AsRef<[u8]>, L: AsRef<[u8]>>(fetches: &[Spec], remote: &[R], local: &[L]) -> Result<Vec<StaleRef>, Error> {
    let (texts, remote, local) = (texts_of(fetches)?, names_of(remote), names_of(local));
    let mut found = vec![sys::StaleRef::default(); 16];
    let mut count = 0;
    loop {
        // What the call writes overlaps nothing that it reads.
        let outcome = unsafe {
            sys::gix_refspec_stale(
                texts.as_ptr(), texts.len(), remote.as_ptr(), remote.len(), local.as_ptr(), local.len(),
                found.as_mut_ptr(), found.len(), &mut count,
            )
        };
        match outcome {
            sys::OK => break,
            sys::TOO_SMALL => found.resize(count, sys::StaleRef::default()),
            outcome => return Err(Error::of(outcome)),
        }
    }
    let kept_by = |one: &sys::StaleRef| (one.kept_by != sys::NO_SPEC).then_some(one.kept_by);
    Ok(found[..count].iter().map(|one| StaleRef { item: one.item, kept_by: kept_by(one) }).collect())
}

/// Why a source doesn't match a name.
#[derive(Clone, Copy, Debug, PartialEq, Eq, Hash)]
#[non_exhaustive]
pub enum Mismatch {
    /// There is none.
    NoSource,
    /// The name doesn't begin with the prefix of the pattern. They begin with this many equal bytes.
    Prefix(usize),
    /// The name begins with the prefix of the pattern, but doesn't end with its suffix. They end with this many equal bytes.
    Suffix(usize),
    /// The name begins with the prefix of the pattern and ends with its suffix, but they would overlap in it.
    Overlap,
    /// The source is another name.
    OtherName,
    /// The source is an object id.
    Object,
    /// The source is a partial name, of which the name is no candidate.
    NoCandidate,
    /// The name is a candidate of the partial name, but that at this index is an earlier one, and so the spec takes that.
    EarlierCandidate(usize),
}

/// Another mapping of a fetch.
#[derive(Clone, Copy, Debug, PartialEq, Eq, Hash)]
pub struct Rival {
    /// The index of its spec.
    pub spec: usize,
    /// The index of the name that is its source. `None` for an object id.
    pub item: Option<usize>,
}

/// What becomes of a ref by one spec: the first of these that applies.
#[derive(Clone, Debug, PartialEq, Eq, Hash)]
#[non_exhaustive]
pub enum Fate {
    /// The source doesn't match the name.
    Unmatched(Mismatch),
    /// The spec is negative, and excludes the ref; a pattern with this part of the name for its star.
    Excludes(Option<Range<usize>>),
    /// The spec at this index, the first negative one that does, excludes the ref; a pattern with this part of the name.
    Excluded { spec: usize, word: Option<Range<usize>> },
    /// The name isn't a valid ref name, so a fetch leaves it out.
    InvalidName,
    /// The destination isn't a valid name below `refs/`, so a fetch leaves it out.
    InvalidDestination,
    /// The earlier spec at this index, the first that does, maps the ref to the same destination.
    Duplicate { spec: usize },
    /// Another source has the same destination, so nothing is fetched.
    InConflict(Rival),
    /// The destination of another mapping is a directory of the destination, or the other way round: Git writes one of both.
    DirectoryConflict(Rival),
    /// If the plan is carried out, it is fetched, and written to the destination if any.
    Written,
}

/// What a spec does with a ref.
#[derive(Clone, PartialEq, Eq, Hash)]
pub struct Effect {
    /// The local ref that the spec maps the ref to, written or not. `None` if it doesn't map it, or has no destination.
    pub destination: Option<Vec<u8>>,
    /// What becomes of the ref by the spec.
    pub fate: Fate,
}

impl fmt::Debug for Effect {
    fn fmt(&self, f: &mut fmt::Formatter<'_>) -> fmt::Result {
        let destination = self.destination.as_deref().map(Quoted);
        f.debug_struct("Effect").field("destination", &destination).field("fate", &self.fate).finish()
    }
}

/// What specs do with a ref.
#[derive(Clone, Debug, PartialEq, Eq, Hash)]
pub struct Effects {
    /// The index of its name. `None` if the remote lacks the ref: then the effects are those that the specs would have.
    pub item: Option<usize>,
    /// The effect of each spec, in order.
    pub of_specs: Vec<Effect>,
}

/// What each spec does with the ref of this name, if the remote has these names, and so why it is fetched or not. A push is
/// refused.
///
/// ```
/// use refspec::{why, Fate, Operation, Spec};
///
/// let specs = [Spec::parse("refs/heads/*:refs/x/*", Operation::Fetch)?, Spec::parse("^refs/heads/a*", Operation::Fetch)?];
/// let effects = why(&specs, &["refs/heads/ab"], "refs/heads/ab")?;
/// assert_eq!(effects.item, Some(0));
/// assert_eq!(effects.of_specs[0].fate, Fate::Excluded { spec: 1, word: Some(12..13) });
/// assert_eq!(effects.of_specs[0].destination.as_deref(), Some(&b"refs/x/ab"[..]));
/// # Ok::<(), refspec::Error>(())
/// ```
#[rustfmt::skip]
pub fn why<N: AsRef<[u8]>>(fetches: &[Spec], names: &[N], name: impl AsRef<[u8]>) -> Result<Effects, Error> {
    let (texts, names, name) = (texts_of(fetches)?, names_of(names), name.as_ref());
    let mut told = vec![sys::Effect::default(); texts.len()];
    let mut item = 0;
    let made = filled(256, |buffer, len| unsafe {
        sys::gix_refspec_why(
            texts.as_ptr(), texts.len(), names.as_ptr(), names.len(), name.as_ptr(), name.len(),
            told.as_mut_ptr(), told.len(), buffer.as_mut_ptr(), buffer.len(), &mut item, len,
        )
    })?;
    let of_specs = told.iter().map(|one| effect_of(one, &made)).collect();
    Ok(Effects { item: item_of(item), of_specs })
}

fn effect_of(told: &sys::Effect, made: &[u8]) -> Effect {
    let rival = Rival { spec: told.spec, item: item_of(told.item) };
    let word = (told.has_word != 0).then(|| told.word_at..told.word_at + told.word_len);
    Effect {
        destination: (told.has_destination != 0).then(|| made[told.made_at..told.made_at + told.made_len].to_vec()),
        fate: match told.fate {
            sys::FATE_UNMATCHED => Fate::Unmatched(mismatch_of(told)),
            sys::FATE_EXCLUDES => Fate::Excludes(word),
            sys::FATE_EXCLUDED => Fate::Excluded { spec: told.spec, word },
            sys::FATE_INVALID_NAME => Fate::InvalidName,
            sys::FATE_INVALID_DESTINATION => Fate::InvalidDestination,
            sys::FATE_DUPLICATE => Fate::Duplicate { spec: told.spec },
            sys::FATE_IN_CONFLICT => Fate::InConflict(rival),
            sys::FATE_DIRECTORY_CONFLICT => Fate::DirectoryConflict(rival),
            _ => Fate::Written,
        },
    }
}

fn mismatch_of(told: &sys::Effect) -> Mismatch {
    match told.mismatch {
        sys::MISMATCH_NO_SOURCE => Mismatch::NoSource,
        sys::MISMATCH_PREFIX => Mismatch::Prefix(told.count),
        sys::MISMATCH_SUFFIX => Mismatch::Suffix(told.count),
        sys::MISMATCH_OVERLAP => Mismatch::Overlap,
        sys::MISMATCH_OTHER_NAME => Mismatch::OtherName,
        sys::MISMATCH_OBJECT => Mismatch::Object,
        sys::MISMATCH_NO_CANDIDATE => Mismatch::NoCandidate,
        _ => Mismatch::EarlierCandidate(told.item),
    }
}

fn item_of(index: usize) -> Option<usize> {
    (index != sys::NO_ITEM).then_some(index)
}

/// The upstream of a branch, or why it has none.
#[derive(Clone, PartialEq, Eq, Hash)]
#[non_exhaustive]
pub enum Upstream {
    /// The spec at this index, the first that can, stores the merged ref in this one.
    Tracked { name: Vec<u8>, spec: usize },
    /// The negative spec at the index `excluded_by` excludes the merged ref, as Git looks for that, from this spec.
    Excluded { spec: usize, excluded_by: usize },
    /// The spec at this index, the first that does, fetches the merged ref, and none stores it.
    NotStored { spec: usize },
    /// No positive spec fetches the merged ref.
    NotFetched,
}

impl fmt::Debug for Upstream {
    fn fmt(&self, f: &mut fmt::Formatter<'_>) -> fmt::Result {
        match self {
            Upstream::Tracked { name, spec } => {
                f.debug_struct("Tracked").field("name", &Quoted(name)).field("spec", spec).finish()
            }
            Upstream::Excluded { spec, excluded_by } => {
                f.debug_struct("Excluded").field("spec", spec).field("excluded_by", excluded_by).finish()
            }
            Upstream::NotStored { spec } => f.debug_struct("NotStored").field("spec", spec).finish(),
            Upstream::NotFetched => f.write_str("NotFetched"),
        }
    }
}

/// The upstream of a branch that merges a ref, by the fetch specs of its remote: what `git rev-parse` makes of
/// `<branch>@{upstream}`. `merge` is the first value of `branch.<name>.merge`. Git compares sides as they are written:
/// `main` isn't `refs/heads/main` here, and a tracking ref isn't completed. A push is refused.
///
/// ```
/// use refspec::{upstream, Operation, Spec, Upstream};
///
/// let specs = [Spec::parse("+refs/heads/*:refs/remotes/origin/*", Operation::Fetch)?];
/// let found = upstream(&specs, "refs/heads/main")?;
/// assert_eq!(found, Upstream::Tracked { name: b"refs/remotes/origin/main".to_vec(), spec: 0 });
/// assert_eq!(upstream(&specs, "main")?, Upstream::NotFetched);
/// # Ok::<(), refspec::Error>(())
/// ```
#[rustfmt::skip]
pub fn upstream(fetches: &[Spec], merge: impl AsRef<[u8]>) -> Result<Upstream, Error> {
    let (texts, merge) = (texts_of(fetches)?, merge.as_ref());
    let mut told = sys::UpstreamRef::default();
    let name = filled(256, |buffer, len| {
        let outcome = unsafe {
            sys::gix_refspec_upstream(
                texts.as_ptr(), texts.len(), merge.as_ptr(), merge.len(),
                buffer.as_mut_ptr(), buffer.len(), &mut told,
            )
        };
        *len = told.len;
        outcome
    })?;
    Ok(match told.kind {
        sys::TRACKED => Upstream::Tracked { name, spec: told.spec },
        sys::EXCLUDED => Upstream::Excluded { spec: told.spec, excluded_by: told.excluded_by },
        sys::NOT_STORED => Upstream::NotStored { spec: told.spec },
        _ => Upstream::NotFetched,
    })
}

/// What `git remote rename` makes of a value of `remote.<old_name>.fetch`: the first `:refs/remotes/<old_name>/` in it gets
/// the new name. `None` if the value doesn't have that: Git then leaves it. Neither the value nor the names are checked.
///
/// ```
/// let value = refspec::renamed("+refs/heads/*:refs/remotes/origin/*", "origin", "up")?;
/// assert_eq!(value.as_deref(), Some(&b"+refs/heads/*:refs/remotes/up/*"[..]));
/// # Ok::<(), refspec::Error>(())
/// ```
#[rustfmt::skip]
pub fn renamed(
    value: impl AsRef<[u8]>, old_name: impl AsRef<[u8]>, new_name: impl AsRef<[u8]>,
) -> Result<Option<Vec<u8>>, Error> {
    let (value, old_name, new_name) = (value.as_ref(), old_name.as_ref(), new_name.as_ref());
    let text = filled(value.len() + new_name.len(), |buffer, len| unsafe {
        sys::gix_refspec_renamed(
            value.as_ptr(), value.len(), old_name.as_ptr(), old_name.len(), new_name.as_ptr(), new_name.len(),
            buffer.as_mut_ptr(), buffer.len(), len,
        )
    })?;
    Ok((!text.is_empty()).then_some(text))
}

/// The lists of a call that tells of mappings, and how much of them is told.
struct Lists {
    mappings: Vec<sys::Mapping>,
    buffer: Vec<u8>,
    count: usize,
    len: usize,
}

impl Lists {
    /// Matches once, with the room that there is, and returns the outcome. The texts and the names are there.
    #[rustfmt::skip]
    unsafe fn matched(&mut self, texts: &[sys::Text], names: &[sys::Text], direction: u32) -> u32 {
        sys::gix_refspec_match(
            texts.as_ptr(), texts.len(), names.as_ptr(), names.len(), direction,
            self.mappings.as_mut_ptr(), self.mappings.len(), self.buffer.as_mut_ptr(), self.buffer.len(),
            &mut self.count, &mut self.len,
        )
    }

    /// Plans once, likewise.
    #[rustfmt::skip]
    unsafe fn planned(&mut self, wish: &sys::Wish, names: &[sys::Text]) -> u32 {
        sys::gix_refspec_plan(
            wish, names.as_ptr(), names.len(),
            self.mappings.as_mut_ptr(), self.mappings.len(), self.buffer.as_mut_ptr(), self.buffer.len(),
            &mut self.count, &mut self.len,
        )
    }

    fn told(&self) -> &[sys::Mapping] {
        &self.mappings[..self.count]
    }

    fn text(&self, at: usize, len: usize) -> Vec<u8> {
        self.buffer[at..at + len].to_vec()
    }

    /// The index of the name, the name or the id, and the name that the spec makes.
    fn sides<N: AsRef<[u8]>>(&self, one: &sys::Mapping, names: &[N]) -> (Option<usize>, Vec<u8>, Vec<u8>) {
        let item = (one.item != sys::NO_ITEM).then_some(one.item);
        let name = match item {
            Some(index) => names[index].as_ref().to_vec(),
            None => self.text(one.id_at, one.id_len),
        };
        (item, name, self.text(one.made_at, one.made_len))
    }

    fn mapping<N: AsRef<[u8]>>(&self, one: &sys::Mapping, names: &[N], direction: Direction) -> Mapping {
        let (item, name, made) = self.sides(one, names);
        let (source, other) = match direction {
            Direction::Forward => (name, made),
            Direction::Backward => (made, name),
        };
        let destination = (one.has_destination == 1).then_some(other);
        Mapping { spec: one.spec, item, source, destination, forced: one.forced == 1 }
    }

    fn update<N: AsRef<[u8]>>(&self, one: &sys::Mapping, names: &[N]) -> Update {
        let (item, source, made) = self.sides(one, names);
        Update {
            item,
            source,
            destination: (one.has_destination == 1).then_some(made),
            origin: Origin::of(one),
            verdict: Verdict::numbered(one.verdict),
            forced: one.forced == 1,
        }
    }
}

/// The lists of a call over so many names, which are made as large as it says that they have to be.
fn listed(names: usize, call: impl Fn(&mut Lists) -> u32) -> Result<Lists, Error> {
    let mut lists = Lists {
        mappings: vec![sys::Mapping::default(); names + 8],
        buffer: vec![0; 64 * names + 256],
        count: 0,
        len: 0,
    };
    loop {
        match call(&mut lists) {
            sys::OK | sys::IN_CONFLICT | sys::MISSING_SOURCE => return Ok(lists),
            sys::TOO_SMALL => {
                lists.mappings.resize(lists.count.max(lists.mappings.len()), sys::Mapping::default());
                lists.buffer.resize(lists.len.max(lists.buffer.len()), 0);
            }
            outcome => return Err(Error::of(outcome)),
        }
    }
}

/// The texts of names.
fn names_of<N: AsRef<[u8]>>(names: &[N]) -> Vec<sys::Text> {
    names.iter().map(|name| text_of(name.as_ref())).collect()
}

/// The canonical texts of fetches.
fn texts_of(fetches: &[Spec]) -> Result<Vec<sys::Text>, Error> {
    if fetches.iter().any(|spec| spec.operation == Operation::Push) {
        return Err(Error::Push);
    }
    Ok(fetches.iter().map(|spec| text_of(&spec.canonical)).collect())
}

fn text_of(bytes: &[u8]) -> sys::Text {
    sys::Text { bytes: bytes.as_ptr(), len: bytes.len() }
}

/// The answer of a call that fills a buffer, which is made as large as the call says that it has to be.
fn filled(room: usize, mut call: impl FnMut(&mut [u8], &mut usize) -> u32) -> Result<Vec<u8>, Error> {
    let mut buffer = vec![0; room];
    let mut len = 0;
    let mut outcome = call(&mut buffer, &mut len);
    if outcome == sys::TOO_SMALL {
        buffer.resize(len, 0);
        outcome = call(&mut buffer, &mut len);
    }
    if outcome != sys::OK {
        return Err(Error::of(outcome));
    }
    buffer.truncate(len);
    Ok(buffer)
}

fn no_text() -> sys::Text {
    sys::Text { bytes: b"".as_ptr(), len: 0 }
}

/// The bytes of a text, whose memory has to be there for as long.
unsafe fn bytes_of<'a>(text: &sys::Text) -> &'a [u8] {
    slice::from_raw_parts(text.bytes, text.len)
}

#[cfg(test)]
mod tests {
    use super::*;

    #[test]
    fn equal_specs_print_the_same() -> Result<(), Error> {
        let short = Spec::parse("main", Operation::Push)?;
        let long = Spec::parse("main:main", Operation::Push)?;
        assert_eq!(short, long);
        assert_eq!(short.destination(), Some(&b"main"[..]));
        assert_ne!(Spec::parse("main", Operation::Fetch)?, short);
        Ok(())
    }

    #[test]
    fn instructions_have_kinds() -> Result<(), Error> {
        let rows = [
            (":", Operation::Push, Kind::PushAllMatching),
            (":main", Operation::Push, Kind::PushDelete),
            ("main", Operation::Push, Kind::PushMatching),
            ("^main", Operation::Push, Kind::PushExclude),
            ("main", Operation::Fetch, Kind::FetchOnly),
            ("^main", Operation::Fetch, Kind::FetchExclude),
            ("+main:main", Operation::Fetch, Kind::FetchAndUpdate),
        ];
        for (text, operation, kind) in rows {
            let spec = Spec::parse(text, operation)?;
            assert_eq!(spec.kind(), kind, "at {text}");
            assert_eq!(spec.is_forced(), text.starts_with('+'), "at {text}");
        }
        Ok(())
    }

    #[test]
    fn mappings_go_there_and_back() -> Result<(), Error> {
        let id = "1".repeat(40);
        let specs = [
            Spec::parse("+refs/heads/*:refs/x/*", Operation::Fetch)?,
            Spec::parse("^refs/heads/b", Operation::Fetch)?,
            Spec::parse(&id, Operation::Fetch)?,
        ];
        let there = matches(&specs, &["refs/heads/a", "refs/heads/b"], Direction::Forward)?;
        let asked = Mapping { spec: 2, item: None, source: id.into_bytes(), destination: None, forced: false };
        let named = Mapping {
            spec: 0,
            item: Some(0),
            source: b"refs/heads/a".to_vec(),
            destination: Some(b"refs/x/a".to_vec()),
            forced: true,
        };
        assert_eq!(there, [asked, named.clone()]);
        assert_eq!(matches(&specs, &["refs/x/a", "refs/x/b"], Direction::Backward)?, [named]);
        let long = format!("refs/heads/{}", "a".repeat(1000));
        assert_eq!(matches(&specs, &[&long], Direction::Forward)?.len(), 2);
        let by_id = Spec::parse(format!("a:{}", "1".repeat(40)), Operation::Fetch)?;
        let error = matches(&[by_id], &["refs/heads/a"], Direction::Backward).unwrap_err();
        assert_eq!(error, Error::NeedsIds);
        assert_eq!(error.outcome(), Some(sys::NEEDS_IDS));
        Ok(())
    }

    #[test]
    fn pushes_are_refused() -> Result<(), Error> {
        let specs = [Spec::parse("main", Operation::Fetch)?, Spec::parse("main", Operation::Push)?];
        let names = ["refs/heads/main"];
        let error = matches(&specs, &names, Direction::Forward).unwrap_err();
        assert!(error == Error::Push && error.outcome().is_none());
        assert_eq!(error.to_string(), "A push is among the fetches.");
        for (given, configured) in [(&specs[..], &[][..]), (&[], &specs)] {
            assert_eq!(plan(&Wish { given, configured, merges: &[], tags: false }, &names), Err(error));
        }
        assert_eq!(stale(&specs, &names, &names), Err(error));
        assert_eq!(prefixes(&specs), Err(error));
        Ok(())
    }

    fn fetches(texts: &[&str]) -> Result<Vec<Spec>, ParseError> {
        texts.iter().map(|text| Spec::parse(text, Operation::Fetch)).collect()
    }

    fn planned(given: &[&str], configured: &[&str], names: &[&str]) -> Result<Plan, Error> {
        let (given, configured) = (fetches(given)?, fetches(configured)?);
        plan(&Wish { given: &given, configured: &configured, merges: &[], tags: false }, names)
    }

    #[test]
    fn plans_tell_each_verdict() -> Result<(), Error> {
        let rows = [
            ("refs/heads/a:refs/x/a", 0, Verdict::Written),
            ("refs/tags/*:other/*", 1, Verdict::LeftOut(InvalidSide::Destination)),
            ("refs/remotes/*ck:refs/x/*", 2, Verdict::LeftOut(InvalidSide::Source)),
            ("refs/remotes/*:refs/y/*", 2, Verdict::LeftOut(InvalidSide::Both)),
            ("+refs/tags/b", 1, Verdict::Written),
            ("refs/heads/a:refs/y", 0, Verdict::InConflict),
            ("+refs/tags/b:refs/y", 1, Verdict::InConflict),
        ];
        let texts = rows.map(|row| row.0);
        let names = ["refs/heads/a", "refs/tags/b", "refs/remotes/a.lock"];
        let all = planned(&texts, &[], &names)?;
        assert!(!all.is_carried_out());
        assert_eq!(all.updates.len(), rows.len());
        for (index, (update, row)) in all.updates.iter().zip(rows).enumerate() {
            assert_eq!((update.item, update.verdict), (Some(row.1), row.2), "of {}", row.0);
            assert_eq!((update.origin, &update.source[..]), (Origin::Given(index), names[row.1].as_bytes()));
        }
        assert_eq!(all.updates[2].destination.as_deref(), Some(&b"refs/x/a.lo"[..]));
        assert!(all.updates[6].forced && all.updates[4].destination.is_none());
        let fine = planned(&texts[..6], &[], &names)?;
        assert!(fine.is_carried_out() && fine.updates[5].verdict == Verdict::Written);
        Ok(())
    }

    #[test]
    fn plans_have_what_the_configuration_adds() -> Result<(), Error> {
        let names = ["HEAD", "refs/heads/main", "refs/tags/v1"];
        let given = planned(&["main"], &["+refs/heads/*:refs/x/*"], &names)?;
        let origins: Vec<_> = given.updates.iter().map(|update| (update.origin, update.forced)).collect();
        assert_eq!(origins, [(Origin::Given(0), false), (Origin::Configured(0), true)]);
        let overruled = planned(&["v1:refs/x/main", "main"], &["+refs/heads/*:refs/x/*"], &names)?;
        assert_eq!(overruled.updates[2].verdict, Verdict::Overruled);
        let nested = planned(&["main:refs/x/a", "v1:refs/x/a/y", "main:refs/x/ab"], &[], &names)?;
        let verdicts: Vec<_> = nested.updates.iter().map(|update| update.verdict).collect();
        assert_eq!(verdicts, [Verdict::DirectoryConflict, Verdict::DirectoryConflict, Verdict::Written]);
        assert!(nested.is_carried_out());
        let missing = planned(&["main", "gone:refs/x/gone"], &[], &names)?;
        assert_eq!((missing.updates.len(), &missing.missing[..]), (1, &[Origin::Given(1)][..]));
        assert!(!missing.is_carried_out());
        let head = planned(&[], &[], &names)?;
        assert_eq!((head.updates[0].origin, &head.updates[0].source[..]), (Origin::Default, &b"HEAD"[..]));
        let merges: [&[u8]; 2] = [b"refs/heads/gone", b"refs/heads/main"];
        let merged = plan(&Wish { given: &[], configured: &[], merges: &merges, tags: true }, &names)?;
        let origins: Vec<_> = merged.updates.iter().map(|update| (update.origin, update.item)).collect();
        assert_eq!(origins, [(Origin::Merge(1), Some(1)), (Origin::AllTags, Some(2))]);
        assert!(merged.is_carried_out());
        // Git fetches `HEAD` for an empty merge. Here it is ignored, as a partial name is.
        let ignored: [&[u8]; 3] = [b"", b"main", b"a..b"];
        assert_eq!(plan(&Wish { given: &[], configured: &[], merges: &ignored, tags: false }, &names)?.updates, []);
        let id = "1".repeat(40);
        let object = planned(&[&id], &[], &names)?;
        assert_eq!((object.updates[0].item, &object.updates[0].source), (None, &id.into_bytes()));
        let long = format!("refs/heads/{}", "a".repeat(1000));
        assert_eq!(planned(&[&long], &[], &[&long])?.updates.len(), 1);
        Ok(())
    }

    #[test]
    fn stale_refs_are_told_from_kept_ones() -> Result<(), Error> {
        let specs = fetches(&["refs/heads/*:refs/x/*", "^refs/heads/dev"])?;
        let local = ["refs/x/main", "refs/x/gone", "refs/x/dev", "refs/y/gone"];
        let found = stale(&specs, &["refs/heads/main", "refs/heads/dev"], &local)?;
        assert_eq!(found, [StaleRef { item: 1, kept_by: None }, StaleRef { item: 2, kept_by: Some(1) }]);
        let many: Vec<String> = (0..40).map(|number| format!("refs/x/{number}")).collect();
        assert_eq!(stale(&specs, &["refs/heads/main"], &many)?.len(), 40);
        assert_eq!(stale(&[], &["refs/heads/main"], &local)?, []);
        let twice = stale(&specs, &["refs/heads/main"], &["refs/x/gone", "refs/x/gone"])?;
        assert_eq!(twice, [StaleRef { item: 0, kept_by: None }]);
        Ok(())
    }

    #[test]
    fn specs_have_effects() -> Result<(), Error> {
        let names = ["refs/heads/a", "refs/heads/b", "refs/tags/a", "refs/heads/d/e"];
        let rows = [
            ("refs/heads/*:refs/x/*", "refs/tags/a", Fate::Unmatched(Mismatch::Prefix(5)), None),
            ("refs/heads/*/a:refs/x/*", "refs/heads/d/e", Fate::Unmatched(Mismatch::Suffix(0)), None),
            ("refs/heads/a*a:refs/x/*", "refs/heads/a", Fate::Unmatched(Mismatch::Overlap), None),
            ("refs/heads/b", "refs/heads/a", Fate::Unmatched(Mismatch::OtherName), None),
            ("1111111111111111111111111111111111111111", "refs/heads/a", Fate::Unmatched(Mismatch::Object), None),
            ("b", "refs/heads/a", Fate::Unmatched(Mismatch::NoCandidate), None),
            ("a:b", "refs/heads/a", Fate::Unmatched(Mismatch::EarlierCandidate(2)), None),
            ("^refs/heads/a", "refs/heads/a", Fate::Excludes(None), None),
            ("^refs/heads/*", "refs/heads/a", Fate::Excludes(Some(11..12)), None),
            ("refs/heads/*:other/*", "refs/heads/a", Fate::InvalidDestination, Some("other/a")),
            ("refs/heads/*:refs/x/*", "refs/heads/a", Fate::Written, Some("refs/x/a")),
        ];
        for (text, name, fate, destination) in rows {
            let wanted = [Effect { destination: destination.map(|made: &str| made.as_bytes().to_vec()), fate }];
            assert_eq!(why(&fetches(&[text])?, &names, name)?.of_specs, wanted, "of {text} and {name}");
        }
        let texts = ["refs/heads/*:refs/x/*", "refs/heads/a:refs/x/a", "refs/tags/a:refs/x/b", "refs/heads/b:refs/x/a/b"];
        let specs = fetches(&texts)?;
        let fates = |name: &str| -> Result<Vec<Fate>, Error> {
            Ok(why(&specs, &names, name)?.of_specs.into_iter().map(|one| one.fate).collect())
        };
        assert_eq!(fates("refs/heads/a")?[1], Fate::Duplicate { spec: 0 });
        assert_eq!(fates("refs/heads/a")?[0], Fate::DirectoryConflict(Rival { spec: 3, item: Some(1) }));
        assert_eq!(fates("refs/heads/b")?[0], Fate::InConflict(Rival { spec: 2, item: Some(2) }));
        assert_eq!(why(&specs, &names, "refs/heads/gone")?.item, None);
        assert_eq!(why(&[Spec::parse("a", Operation::Push)?], &names, "a"), Err(Error::Push));
        Ok(())
    }

    #[test]
    fn upstreams_have_reasons() -> Result<(), Error> {
        let rows = [
            (&["refs/heads/a:x", "^refs/heads/a"][..], Upstream::Excluded { spec: 0, excluded_by: 1 }),
            (&["refs/heads/b:x", "refs/heads/a"], Upstream::NotStored { spec: 1 }),
            (&["a:x"], Upstream::NotFetched),
            (&["a:x", "refs/heads/*:y/*"], Upstream::Tracked { name: b"y/a".to_vec(), spec: 1 }),
        ];
        for (texts, wanted) in rows {
            assert_eq!(upstream(&fetches(texts)?, "refs/heads/a")?, wanted, "by {texts:?}");
        }
        assert_eq!(upstream(&[Spec::parse("a", Operation::Push)?], "a"), Err(Error::Push));
        Ok(())
    }

    #[test]
    fn values_are_prefetched_and_renamed() -> Result<(), Error> {
        for text in ["refs/tags/*:refs/tags/*", "main"] {
            assert_eq!(Spec::parse(text, Operation::Fetch)?.prefetched()?, None, "of {text}");
        }
        let negative = Spec::parse("^refs/heads/a", Operation::Fetch)?;
        assert_eq!(negative.prefetched()?, Some(negative.clone()));
        assert_eq!(Spec::parse("a", Operation::Push)?.prefetched(), Err(Error::Push));
        assert_eq!(renamed("^refs/remotes/origin/a", "origin", "up")?, None);
        assert_eq!(renamed("", "", "")?, None);
        Ok(())
    }

    #[test]
    fn specs_are_made_from_parts() -> Result<(), Error> {
        let delete = Spec::from_parts(Mode::Normal, None, Some(b"a"), Operation::Push)?;
        assert_eq!(delete, Spec::parse(":a", Operation::Push)?);
        assert_eq!(Spec::from_parts(Mode::Negative, Some(b"a"), None, Operation::Fetch)?.as_bytes(), b"^a");
        let bad = Spec::from_parts(Mode::Normal, Some(b"a..b"), None, Operation::Fetch);
        assert_eq!(bad, Err(Error::NameRepeatedDot));
        let all = Spec::for_remote(RemoteValue::Mirror { branch: b"*" })?;
        assert_eq!(all.as_bytes(), b"+refs/*:refs/*");
        let pulls = Spec::for_remote(RemoteValue::PullRequests { remote: b"up" })?;
        assert_eq!(pulls.as_bytes(), b"+refs/pull/*/head:refs/remotes/up/pr/*");
        let merges = Spec::for_remote(RemoteValue::MergeRequests { remote: b"up" })?;
        assert_eq!(merges.as_bytes(), b"+refs/merge-requests/*/head:refs/remotes/up/merge-requests/*");
        let odd = Spec::for_remote(RemoteValue::Branch { remote: b"a:b", branch: b"*" });
        assert_eq!(odd, Err(Error::OtherParts));
        Ok(())
    }

    #[test]
    fn errors_have_names() {
        let rows = [
            ("", Operation::Push, Error::Empty),
            ("^a:b", Operation::Fetch, Error::NegativeWithDestination),
            ("^", Operation::Fetch, Error::NegativeEmpty),
            ("^1111111111111111111111111111111111111111", Operation::Fetch, Error::NegativeObjectHash),
            ("a:", Operation::Push, Error::PushToEmpty),
            ("a*b*:c", Operation::Fetch, Error::PatternUnsupported),
            ("a*:b", Operation::Fetch, Error::PatternUnbalanced),
            ("a//b", Operation::Fetch, Error::NameEmptyComponent),
            ("a/.b", Operation::Fetch, Error::NameStartsWithDot),
            ("a.lock", Operation::Fetch, Error::NameLockSuffix),
            ("a.", Operation::Fetch, Error::NameEndsWithDot),
            ("a..b", Operation::Fetch, Error::NameRepeatedDot),
            ("a@{b", Operation::Fetch, Error::NameReflogPortion),
            ("a b", Operation::Fetch, Error::NameInvalidByte),
        ];
        for (text, operation, error) in rows {
            let refused = Spec::parse(text, operation).unwrap_err();
            assert_eq!((refused.reason(), Error::from(refused)), (error, error), "at {text}");
            assert_eq!(refused.to_string(), error.to_string());
        }
        for (number, error) in NUMBERED {
            assert_eq!((Error::of(number), error.outcome()), (error, Some(number)));
            assert!(error.to_string().ends_with('.'), "of {error:?}");
        }
        assert_eq!(Error::of(99), Error::Other(99));
        assert_eq!(Error::Other(99).outcome(), Some(99));
        for number in [sys::OTHER_PARTS + 1, 99, u32::MAX] {
            let sentence = format!("The library ended with outcome {number}, which it doesn't explain.");
            assert_eq!(Error::of(number).to_string(), sentence);
        }
    }

    #[test]
    fn errors_tell_the_place() {
        let rows = [
            ("a..b", Operation::Fetch, Some((Side::Source, 1))),
            ("+a:b.lock", Operation::Fetch, Some((Side::Destination, 4))),
            ("a*b*:c", Operation::Fetch, Some((Side::Source, 3))),
            ("a:b*", Operation::Push, Some((Side::Destination, 3))),
            ("^a:b", Operation::Fetch, Some((Side::Destination, 3))),
            ("^a:", Operation::Fetch, None),
            ("^", Operation::Fetch, None),
            ("", Operation::Push, None),
            ("a:", Operation::Push, None),
        ];
        for (text, operation, place) in rows {
            let error = Spec::parse(text, operation).unwrap_err();
            assert_eq!(error.side().zip(error.position()), place, "at {text}");
        }
    }

    #[test]
    fn specs_are_ordered_as_the_library_orders_them() -> Result<(), Error> {
        let sides = ["a", "b", "a/b", "HEAD", "refs/heads/*", "refs/x/*", "ab", "\u{e9}"];
        let mut texts = vec![":".to_owned(), "+:".to_owned()];
        for one in sides {
            texts.extend(["", "+", "^", ":"].map(|sign| format!("{sign}{one}")));
            texts.extend(sides.iter().flat_map(|two| [format!("{one}:{two}"), format!("+{one}:{two}")]));
        }
        for operation in [Operation::Push, Operation::Fetch] {
            let specs: Vec<Spec> = texts.iter().filter_map(|text| Spec::parse(text, operation).ok()).collect();
            assert!(specs.len() > 60);
            for (a, b) in specs.iter().flat_map(|a| specs.iter().map(move |b| (a, b))) {
                let (x, y, mut order) = (a.as_bytes(), b.as_bytes(), 7);
                let outcome = unsafe {
                    sys::gix_refspec_compare(x.as_ptr(), x.len(), y.as_ptr(), y.len(), operation.number(), &mut order)
                };
                assert_eq!((outcome, a.cmp(b) as i32), (sys::OK, order), "of {a} and {b}");
                assert_eq!(a == b, order == 0, "of {a} and {b}");
            }
        }
        assert!(Spec::parse("b", Operation::Push)? < Spec::parse("a", Operation::Fetch)?);
        Ok(())
    }

    #[test]
    fn specs_have_a_remote_and_a_local_side() -> Result<(), Error> {
        let rows = [
            ("a:b", Operation::Fetch, Some("a"), Some("b")),
            ("a", Operation::Fetch, Some("a"), None),
            ("a:b", Operation::Push, Some("b"), Some("a")),
            (":b", Operation::Push, Some("b"), None),
            (":", Operation::Push, None, None),
        ];
        for (text, operation, remote, local) in rows {
            let spec = Spec::parse(text, operation)?;
            assert_eq!(spec.remote(), remote.map(str::as_bytes), "at {text}");
            assert_eq!(spec.local(), local.map(str::as_bytes), "at {text}");
        }
        Ok(())
    }

    #[test]
    fn specs_have_prefixes() -> Result<(), Error> {
        let six = "v1 refs/v1 refs/tags/v1 refs/heads/v1 refs/remotes/v1 refs/remotes/v1/HEAD";
        let rows = [
            ("refs/heads/*:refs/x/*", Operation::Fetch, Some("refs/heads/"), "refs/heads/"),
            ("refs/heads/a:refs/x/a", Operation::Push, Some("refs/x/a"), "refs/x/a"),
            ("refs/heads/a", Operation::Push, None, ""),
            ("refs/heads/a:refs/heads/a", Operation::Push, Some("refs/heads/a"), "refs/heads/a"),
            ("@:HEAD", Operation::Push, Some("HEAD"), "HEAD"),
            ("v1", Operation::Push, None, ""),
            ("v1:v1", Operation::Push, None, six),
            ("@", Operation::Fetch, Some("HEAD"), "HEAD"),
            ("v1", Operation::Fetch, None, six),
            ("refs/*:refs/x/*", Operation::Fetch, None, "refs/*"),
            ("^refs/heads/a", Operation::Fetch, None, ""),
            ("1111111111111111111111111111111111111111", Operation::Fetch, None, ""),
        ];
        for (text, operation, prefix, names) in rows {
            let spec = Spec::parse(text, operation)?;
            assert_eq!(spec.prefix()?, prefix.map(str::as_bytes), "at {text}");
            let names: Vec<&[u8]> = names.split_whitespace().map(str::as_bytes).collect();
            assert_eq!(spec.expand_prefixes()?, names, "at {text}");
        }
        Ok(())
    }

    #[test]
    fn specs_map_names() -> Result<(), Error> {
        // What a name is mapped to, and `-` for a mapping without a destination.
        let long = "x".repeat(500);
        let (branch, far) = (format!("refs/heads/{long}"), format!("refs/x/{long}"));
        let rows = [
            ("+refs/heads/*:refs/x/*", Operation::Fetch, "refs/heads/main", Some("refs/x/main")),
            ("+refs/heads/*:refs/x/*", Operation::Fetch, &branch[..], Some(&far[..])),
            ("+refs/heads/*:refs/x/*", Operation::Fetch, "refs/tags/v1", None),
            ("main", Operation::Fetch, "refs/heads/main", Some("-")),
            ("main", Operation::Push, "refs/heads/main", Some("refs/heads/main")),
            ("main:x", Operation::Fetch, "refs/tags/main", Some("refs/heads/x")),
            ("^refs/heads/*", Operation::Fetch, "refs/heads/main", None),
            ("1111111111111111111111111111111111111111:refs/x", Operation::Fetch, "refs/heads/main", None),
        ];
        for (text, operation, name, expected) in rows {
            let made = Spec::parse(text, operation)?.map(name)?;
            let destination = made.as_ref().map(|one| one.destination.as_deref().unwrap_or(b"-"));
            assert_eq!(destination, expected.map(str::as_bytes), "{name} by {text}");
            assert!(made.map_or(true, |one| (&one.source[..], one.item, one.spec) == (name.as_bytes(), Some(0), 0)));
        }
        let spec = Spec::parse("+refs/heads/*:refs/x/*", Operation::Fetch)?;
        let back = spec.map_back(&far)?;
        let (source, destination) = (branch.into_bytes(), Some(far.into_bytes()));
        assert_eq!(back, Some(Mapping { spec: 0, item: Some(0), source, destination, forced: true }));
        assert_eq!(spec.map_back("refs/heads/main")?, None);
        assert_eq!(Spec::parse("main", Operation::Fetch)?.map_back("refs/heads/main")?, None);
        Ok(())
    }

    #[test]
    fn equal_specs_keep_their_texts() -> Result<(), Error> {
        let (short, long) = (Spec::parse("+main", Operation::Push)?, Spec::parse("+main:main", Operation::Push)?);
        assert_eq!((short.text(), long.text()), (&b"+main"[..], &b"+main:main"[..]));
        assert_eq!((short.as_bytes(), short.cmp(&long)), (long.as_bytes(), Ordering::Equal));
        assert_eq!(std::collections::HashSet::from([short, long]).len(), 1);
        Ok(())
    }

    #[test]
    fn names_are_shown_as_texts() -> Result<(), Error> {
        let spec = Spec::parse("+@:refs/x/\u{e9}", Operation::Fetch)?;
        let shown = r#"Spec { operation: Fetch, text: "+@:refs/x/é", canonical: "+HEAD:refs/x/é" }"#;
        assert_eq!(format!("{spec:?}"), shown);
        let specs = [Spec::parse(b"refs/*:refs/x/*", Operation::Fetch)?];
        let found = matches(&specs, &[b"refs/b\xe4d"], Direction::Forward)?;
        let sides = r#"source: "refs/b\xe4d", destination: Some("refs/x/b\xe4d")"#;
        assert_eq!(format!("{found:?}"), format!("[Mapping {{ spec: 0, item: Some(0), {sides}, forced: false }}]"));
        let merges: [&[u8]; 1] = [b"HEAD"];
        let wish = Wish { given: &[], configured: &specs, merges: &merges, tags: false };
        let told = "tags: false }";
        assert!(format!("{wish:?}").ends_with(&format!(r#"canonical: "refs/*:refs/x/*" }}], merges: ["HEAD"], {told}"#)));
        let update = &plan(&wish, &["refs/\"a\"", "HEAD"])?.updates[1];
        let shown = r#"Update { item: Some(1), source: "HEAD", destination: None, origin: Merge(0), verdict: Written, forced: false }"#;
        assert_eq!(format!("{update:?}"), shown);
        Ok(())
    }

    #[test]
    fn conflicts_are_told_by_destination() -> Result<(), Error> {
        let texts = ["refs/heads/a:refs/y", "refs/heads/b:refs/x", "refs/tags/a:refs/x", "refs/tags/b:refs/y"];
        let all = planned(&texts, &[], &["refs/heads/a", "refs/heads/b", "refs/tags/a", "refs/tags/b"])?;
        let origins_of = |updates: Vec<&Update>| updates.iter().map(|update| update.origin).collect::<Vec<_>>();
        let told: Vec<_> = all.conflicts().into_iter().map(|(name, updates)| (name, origins_of(updates))).collect();
        let (x, y) = (vec![Origin::Given(1), Origin::Given(2)], vec![Origin::Given(0), Origin::Given(3)]);
        assert_eq!(told, [(&b"refs/x"[..], x), (b"refs/y", y)]);
        assert!(planned(&texts[..2], &[], &["refs/heads/a", "refs/heads/b"])?.conflicts().is_empty());
        Ok(())
    }

    #[test]
    fn the_library_has_the_version_of_this_crate() {
        assert_eq!(library_version(), env!("CARGO_PKG_VERSION"));
    }

    #[test]
    fn some_groups_have_no_list() -> Result<(), Error> {
        let specs = [Spec::parse("*:refs/x/*", Operation::Fetch)?];
        assert_eq!(prefixes(&specs)?, RefPrefixes::All);
        assert_eq!(prefixes(&[])?, RefPrefixes::Nothing);
        let long = Spec::parse(format!("refs/heads/{}", "a".repeat(1000)), Operation::Fetch)?;
        assert_eq!(prefixes(std::slice::from_ref(&long))?, RefPrefixes::Listed(vec![long.as_bytes().to_vec()]));
        let texts = ["refs/heads/main", "refs/heads/*:refs/x/*"];
        let specs = texts.map(|text| Spec::parse(text, Operation::Fetch)).into_iter().collect::<Result<Vec<_>, _>>()?;
        assert_eq!(prefixes(&specs)?, RefPrefixes::Listed(vec![b"refs/heads/".to_vec()]));
        Ok(())
    }
}
