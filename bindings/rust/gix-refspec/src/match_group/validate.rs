//! Whether mappings can be written.
use std::{collections::BTreeMap, fmt};

use bstr::{BStr, BString};
use gix_refspec_sys::{self as sys, calls};

use crate::{
    answered,
    match_group::{match_lhs, Mapping, Source, SourceRef},
    RefSpec,
};

/// Why mappings can't be written.
#[derive(Debug)]
pub struct Error {
    /// The issues, in the byte order of their destinations.
    pub issues: Vec<Issue>,
}

impl fmt::Display for Error {
    fn fmt(&self, f: &mut fmt::Formatter<'_>) -> fmt::Result {
        let noun = if self.issues.len() == 1 { "issue that prevents" } else { "issues that prevent" };
        write!(f, "Found {} {noun} the refspec mapping to be used: \n\t", self.issues.len())?;
        separated(f, "\n\t", &self.issues, |f, issue| write!(f, "{issue}"))
    }
}

impl std::error::Error for Error {}

/// Something that keeps mappings from being written.
#[derive(Debug, PartialEq, Eq)]
pub enum Issue {
    /// Several sources are mapped to one destination, even if they have the same object.
    Conflict {
        /// The destination.
        destination_full_ref_name: BString,
        /// The sources, in the order of their first mappings to the destination.
        sources: Vec<Source>,
        /// The canonical text of the spec of that first mapping, for each source.
        specs: Vec<BString>,
    },
}

impl fmt::Display for Issue {
    fn fmt(&self, f: &mut fmt::Formatter<'_>) -> fmt::Result {
        let Issue::Conflict { destination_full_ref_name, sources, specs } = self;
        write!(f, "Conflicting destination {destination_full_ref_name:?} would be written by ")?;
        separated(f, ", ", sources.iter().zip(specs), |f, (source, spec)| write!(f, "{source} ({spec:?})"))
    }
}

/// Writes what `one` writes of each element, with a separator between them.
fn separated<T>(
    f: &mut fmt::Formatter<'_>,
    separator: &str,
    list: impl IntoIterator<Item = T>,
    one: impl Fn(&mut fmt::Formatter<'_>, T) -> fmt::Result,
) -> fmt::Result {
    for (index, element) in list.into_iter().enumerate() {
        if index > 0 {
            f.write_str(separator)?;
        }
        one(f, element)?;
    }
    Ok(())
}

/// What was changed so that the mappings can be written.
#[derive(Debug, PartialEq, Eq, Clone)]
pub enum Fix {
    /// A mapping was removed, as its destination neither begins with `refs/` nor is `HEAD`.
    MappingWithPartialDestinationRemoved {
        /// The destination.
        name: BString,
        /// The spec of the mapping.
        spec: RefSpec,
    },
}

impl match_lhs::Outcome<'_, '_> {
    /// Removes the mappings whose destination neither begins with `refs/` nor is `HEAD`, and lists them as fixes.
    /// Fails if several sources are mapped to one destination, even to one that would be removed.
    ///
    /// Panics if a mapping that is in conflict or removed names no spec of the group, as one made by hand may.
    ///
    /// ```
    /// use gix_hash::ObjectId;
    /// use gix_refspec::{match_group::Item, parse::Operation, MatchGroup};
    ///
    /// let id = ObjectId::from_hex(&[b'1'; 40]).unwrap();
    /// let of = |text: &'static str| gix_refspec::parse(text.into(), Operation::Fetch).unwrap();
    /// let item = |name: &'static str| Item { full_ref_name: name.into(), target: &id, object: None };
    /// let group = MatchGroup { specs: vec![of("refs/heads/*:refs/x/*"), of("refs/tags/*:refs/x/*")] };
    /// let outcome = group.match_lhs([item("refs/heads/a"), item("refs/tags/a")].iter().copied());
    /// let error = outcome.validated().unwrap_err();
    /// assert_eq!(error.issues[0].to_string(), "Conflicting destination \"refs/x/a\" would be written by \
    ///     refs/heads/a (\"refs/heads/*:refs/x/*\"), refs/tags/a (\"refs/tags/*:refs/x/*\")");
    /// ```
    pub fn validated(mut self) -> Result<(Self, Vec<Fix>), Error> {
        let verdicts = self.verdicts();
        let issues = self.issues(&verdicts);
        if !issues.is_empty() {
            return Err(Error { issues });
        }
        let specs = &self.group.specs;
        let (mut fixes, mut verdicts) = (Vec::new(), verdicts.iter());
        self.mappings.retain(|mapping| match (verdicts.next(), &mapping.rhs) {
            (Some(one), Some(name)) if one.verdict == sys::PAIR_REMOVED => {
                let spec = specs[mapping.spec_index].to_owned();
                fixes.push(Fix::MappingWithPartialDestinationRemoved { name: name.as_ref().into(), spec });
                false
            }
            _ => true,
        });
        Ok((self, fixes))
    }

    /// What becomes of each mapping.
    fn verdicts(&self) -> Vec<sys::PairVerdict> {
        let pairs: Vec<_> = self.mappings.iter().map(pair_of).collect();
        answered(calls::validated(&pairs))
    }

    /// The conflicts, in the byte order of their destinations.
    fn issues(&self, verdicts: &[sys::PairVerdict]) -> Vec<Issue> {
        let in_conflict = verdicts.iter().enumerate().filter(|(_, one)| one.verdict == sys::PAIR_IN_CONFLICT);
        let mut rivals: BTreeMap<&BStr, Vec<usize>> = BTreeMap::new();
        for (index, one) in in_conflict {
            if let Some(destination) = &self.mappings[one.first].rhs {
                rivals.entry(destination.as_ref()).or_default().push(index);
            }
        }
        let firsts = rivals.iter().map(|(destination, indexes)| (destination, self.first_of_each_source(indexes)));
        firsts.map(|(destination, indexes)| self.conflict(destination, &indexes)).collect()
    }

    /// Of mappings in order, those that are the first with their source.
    fn first_of_each_source(&self, indexes: &[usize]) -> Vec<usize> {
        let source = |index: usize| key_of(&self.mappings[index].lhs);
        let mut firsts = indexes.to_vec();
        firsts.sort_by(|a, b| source(*a).cmp(&source(*b)));
        firsts.dedup_by(|later, first| source(*later) == source(*first));
        firsts.sort_unstable();
        firsts
    }

    /// The conflict of the mappings with these indexes.
    fn conflict(&self, destination: &BStr, indexes: &[usize]) -> Issue {
        let mappings = indexes.iter().map(|index| &self.mappings[*index]);
        Issue::Conflict {
            destination_full_ref_name: destination.into(),
            sources: mappings.clone().map(|mapping| mapping.lhs.clone().into_owned()).collect(),
            specs: mappings.map(|mapping| self.group.specs[mapping.spec_index].to_bstring()).collect(),
        }
    }
}

/// A source as sources are told apart: whether it is an id, and its bytes.
fn key_of<'a>(source: &'a SourceRef<'_>) -> (bool, &'a [u8]) {
    match source {
        SourceRef::FullName(name) => (false, name),
        SourceRef::ObjectId(id) => (true, id.as_slice()),
    }
}

fn pair_of<'a>(mapping: &'a Mapping<'_, '_>) -> calls::Pair<'a> {
    let destination = mapping.rhs.as_ref().map(|name| -> &[u8] { name });
    match key_of(&mapping.lhs) {
        (false, name) => calls::Pair::of_name(name, destination),
        (true, id) => calls::Pair::of_id(id, destination),
    }
}
