//! What is matched, and what that makes of it.
use std::{
    borrow::Cow,
    fmt,
    hash::{Hash, Hasher},
};

use bstr::BStr;
use gix_hash::{oid, ObjectId};

use crate::RefSpecRef;

/// The specs that are matched together, where negative ones exclude what others map.
///
/// ```
/// use gix_refspec::{parse::Operation, MatchGroup};
///
/// let spec = gix_refspec::parse("main".into(), Operation::Fetch).unwrap();
/// assert_eq!(MatchGroup { specs: vec![spec] }.specs.len(), 1);
/// assert!(MatchGroup::default().specs.is_empty());
/// ```
#[derive(Default, Debug, Clone)]
pub struct MatchGroup<'a> {
    /// The specs.
    pub specs: Vec<RefSpecRef<'a>>,
}

/// Matching from left to right.
pub mod match_lhs {
    use crate::{match_group::Mapping, MatchGroup};

    /// What [`MatchGroup::match_lhs`] returns.
    #[derive(Debug, Clone)]
    pub struct Outcome<'spec, 'item> {
        /// The group, unchanged.
        pub group: MatchGroup<'spec>,
        /// The mappings: first those of ids, by spec, and then those of items, by spec and item.
        pub mappings: Vec<Mapping<'item, 'spec>>,
    }
}

/// Matching from right to left.
pub mod match_rhs {
    use crate::{match_group::Mapping, MatchGroup};

    /// What [`MatchGroup::match_rhs`] returns.
    #[derive(Debug, Clone)]
    pub struct Outcome<'spec, 'item> {
        /// The group, unchanged.
        pub group: MatchGroup<'spec>,
        /// The mappings, by spec and item.
        pub mappings: Vec<Mapping<'spec, 'item>>,
    }
}

/// A ref to match.
#[derive(Debug, Copy, Clone)]
pub struct Item<'a> {
    /// Its full name, such as `refs/heads/main`.
    pub full_ref_name: &'a BStr,
    /// The object that it points to.
    pub target: &'a oid,
    /// The object that was tagged, if the target is an annotated tag.
    pub object: Option<&'a oid>,
}

/// The left side of a mapping.
///
/// ```
/// use gix_refspec::match_group::SourceRef;
///
/// let source = SourceRef::FullName(bstr::BString::from("refs/heads/main").into());
/// assert_eq!(source.to_string(), "refs/heads/main");
/// assert_eq!(source.clone().into_owned(), source);
/// ```
#[derive(Debug, Clone, PartialEq, Eq, Hash)]
pub enum SourceRef<'a> {
    /// The full name of a ref. Whether it is a valid one isn't checked.
    FullName(Cow<'a, BStr>),
    /// An object that is asked for by its id. The remote may have it without a ref to it.
    ObjectId(ObjectId),
}

impl SourceRef<'_> {
    /// The same source, which borrows nothing.
    pub fn into_owned(self) -> Source {
        match self {
            SourceRef::FullName(name) => SourceRef::FullName(Cow::Owned(name.into_owned())),
            SourceRef::ObjectId(id) => SourceRef::ObjectId(id),
        }
    }
}

impl fmt::Display for SourceRef<'_> {
    fn fmt(&self, f: &mut fmt::Formatter<'_>) -> fmt::Result {
        match self {
            SourceRef::FullName(name) => fmt::Display::fmt(name, f),
            SourceRef::ObjectId(id) => fmt::Display::fmt(id, f),
        }
    }
}

/// A source that borrows nothing.
pub type Source = SourceRef<'static>;

/// What a spec makes of an item: from a ref of the remote to a local one in a fetch, the other way round in a push.
/// It is hashed by its two sides alone.
#[derive(Debug, Clone)]
pub struct Mapping<'a, 'b> {
    /// The index of the item; `None` for an object that is asked for by its id.
    pub item_index: Option<usize>,
    /// The source.
    pub lhs: SourceRef<'a>,
    /// The destination, if the spec has one.
    pub rhs: Option<Cow<'b, BStr>>,
    /// The index of the spec in the group.
    pub spec_index: usize,
}

impl Hash for Mapping<'_, '_> {
    fn hash<H: Hasher>(&self, state: &mut H) {
        (&self.lhs, &self.rhs).hash(state);
    }
}
