//! The calls of the original.
use crate::answers::{Direction, Mapping, Parts};
use bstr::{BStr, BString, ByteSlice};
use gix_hash::{Kind, ObjectId};
use gix_refspec::instruction::{Fetch, Push};
use gix_refspec::match_group::{match_lhs, validate, Item, Mapping as Theirs, SourceRef};
use gix_refspec::parse::{Error, Operation};
use gix_refspec::{Instruction, MatchGroup, RefSpecRef};
use gix_refspec_sys as sys;
use std::borrow::Cow;
use std::panic::{catch_unwind, AssertUnwindSafe};

/// The answer, or none where the crate panics.
pub fn guarded<T>(answer: impl FnOnce() -> T) -> Option<T> {
    catch_unwind(AssertUnwindSafe(answer)).ok()
}

pub fn operation_of(number: u32) -> Operation {
    if number == sys::PUSH { Operation::Push } else { Operation::Fetch }
}

/// The outcome that a refusal is; the first of those that an invalid name may be.
pub fn refusal(error: &Error) -> u32 {
    match error {
        Error::Empty => sys::EMPTY,
        Error::NegativeWithDestination => sys::NEGATIVE_WITH_DESTINATION,
        Error::NegativeEmpty => sys::NEGATIVE_EMPTY,
        Error::NegativeObjectHash => sys::NEGATIVE_OBJECT_HASH,
        Error::PushToEmpty => sys::PUSH_TO_EMPTY,
        Error::PatternUnsupported { .. } => sys::PATTERN_UNSUPPORTED,
        Error::PatternUnbalanced => sys::PATTERN_UNBALANCED,
        Error::ReferenceName(_) => sys::NAME_EMPTY,
        // The crate keeps these for its callers, and returns none of them.
        Error::NegativePartialName | Error::NegativeGlobPattern | Error::InvalidFetchDestination => u32::MAX,
    }
}

pub fn parse(text: &[u8], operation: u32) -> Result<RefSpecRef<'_>, Error> {
    gix_refspec::parse(text.as_bstr(), operation_of(operation))
}

pub fn parts<'a>(spec: &RefSpecRef<'a>) -> Parts<'a> {
    let (kind, forced, source, destination): (_, _, &'a BStr, &'a BStr) = match spec.instruction() {
        Instruction::Push(push) => match push {
            Push::AllMatchingBranches { allow_non_fast_forward } => {
                (sys::PUSH_ALL_MATCHING, allow_non_fast_forward, b"".as_bstr(), b"".as_bstr())
            }
            Push::Delete { ref_or_pattern } => (sys::PUSH_DELETE, false, b"".as_bstr(), ref_or_pattern),
            Push::Matching { src, dst, allow_non_fast_forward } => (sys::PUSH_MATCHING, allow_non_fast_forward, src, dst),
            Push::Exclude { src } => (sys::PUSH_EXCLUDE, false, src, b"".as_bstr()),
        },
        Instruction::Fetch(fetch) => match fetch {
            Fetch::Only { src } => (sys::FETCH_ONLY, false, src, b"".as_bstr()),
            Fetch::Exclude { src } => (sys::FETCH_EXCLUDE, false, src, b"".as_bstr()),
            Fetch::AndUpdate { src, dst, allow_non_fast_forward } => {
                (sys::FETCH_AND_UPDATE, allow_non_fast_forward, src, dst)
            }
        },
    };
    Parts { kind, forced, source, destination }
}

/// The ref prefixes of a spec, each with a newline.
pub fn expansion(spec: &RefSpecRef<'_>) -> Vec<u8> {
    let mut prefixes: Vec<BString> = Vec::new();
    spec.expand_prefixes(&mut prefixes);
    prefixes.iter().flat_map(|prefix| [&prefix[..], b"\n"].concat()).collect()
}

/// Whether a text is the name of a ref as a whole: `HEAD`, or one below `refs/`.
pub fn is_ref_name(text: &[u8]) -> bool {
    let is_whole = text == b"HEAD" || text.starts_with(b"refs/");
    is_whole && gix_validate::reference::name_partial(text.as_bstr()).is_ok()
}

/// The specs with the items of these names, which all point to one object.
pub struct Matching<'a> {
    specs: Vec<RefSpecRef<'a>>,
    names: Vec<&'a [u8]>,
    target: ObjectId,
}

impl<'a> Matching<'a> {
    pub fn of(specs: &[RefSpecRef<'a>], names: impl IntoIterator<Item = &'a Vec<u8>>) -> Matching<'a> {
        let names = names.into_iter().map(|name| &name[..]).collect();
        Matching { specs: specs.to_vec(), names, target: Kind::Sha1.null() }
    }

    fn group(&self) -> MatchGroup<'a> {
        MatchGroup { specs: self.specs.clone() }
    }

    fn items(&self) -> impl Iterator<Item = Item<'_>> + Clone {
        let target = &self.target;
        self.names.iter().map(move |name| Item { full_ref_name: name.as_bstr(), target, object: None })
    }

    /// The mappings, or none where the crate panics.
    pub fn mappings(&self, direction: Direction) -> Option<Vec<Mapping>> {
        guarded(|| match direction {
            Direction::Forward => self.group().match_lhs(self.items()).mappings.iter().map(mapping_of).collect(),
            Direction::Backward => self.group().match_rhs(self.items()).mappings.iter().map(mapping_of).collect(),
        })
    }

    /// What the validation of these mappings finds: the destinations of its fixes, or each destination in conflict with its
    /// sources.
    pub fn validated(&self, mappings: &[Mapping]) -> Result<Vec<Vec<u8>>, Vec<(Vec<u8>, Vec<Vec<u8>>)>> {
        let mappings = mappings.iter().map(theirs_of).collect();
        match (match_lhs::Outcome { group: self.group(), mappings }).validated() {
            Ok((_, fixes)) => Ok(fixes
                .into_iter()
                .map(|validate::Fix::MappingWithPartialDestinationRemoved { name, .. }| name.into())
                .collect()),
            Err(error) => Err(error
                .issues
                .into_iter()
                .map(|validate::Issue::Conflict { destination_full_ref_name, sources, .. }| {
                    (destination_full_ref_name.into(), sources.iter().map(source_of).collect())
                })
                .collect()),
        }
    }
}

fn source_of(source: &SourceRef<'_>) -> Vec<u8> {
    match source {
        SourceRef::FullName(name) => name.to_vec(),
        SourceRef::ObjectId(id) => id.to_string().into_bytes(),
    }
}

fn mapping_of(told: &Theirs<'_, '_>) -> Mapping {
    Mapping {
        spec: told.spec_index,
        item: told.item_index,
        source: source_of(&told.lhs),
        destination: told.rhs.as_ref().map(|name| name.to_vec()),
    }
}

fn theirs_of(mapping: &Mapping) -> Theirs<'_, '_> {
    let name = |text: &'_ [u8]| -> Cow<'_, BStr> { Cow::Owned(text.into()) };
    Theirs {
        item_index: mapping.item,
        lhs: match mapping.item {
            Some(_) => SourceRef::FullName(Cow::Borrowed(mapping.source.as_bstr())),
            None => SourceRef::ObjectId(ObjectId::from_hex(&mapping.source).expect("an id that the archive wrote")),
        },
        rhs: mapping.destination.as_ref().map(|text| name(text)),
        spec_index: mapping.spec,
    }
}
