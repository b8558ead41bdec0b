//! In what the original is known to answer otherwise, by the kinds of `known.py`.
use crate::answers::{Direction, Mapping};
use crate::inputs::{Group, CANDIDATES, TWINS};
pub use crate::kinds::*;
use crate::original::{self, Matching};
use gix_refspec::parse::Error;
use gix_refspec::RefSpecRef;
use gix_refspec_sys as sys;
use std::collections::BTreeSet;

/// A spec without a match, which takes the place of another.
const IDLE: &[u8] = b"refs/idle";

/// The kinds by which the answers to an input differ.
pub type Kinds = BTreeSet<&'static str>;

/// Whether an outcome is what the original's parsing tells. Of the faults of a name each library may tell any.
pub fn refusal(text: &[u8], operation: u32, ours: u32, theirs: &Result<RefSpecRef<'_>, Error>) -> Result<(), String> {
    let wanted = theirs.as_ref().map_or_else(original::refusal, |_| sys::OK);
    let is_name = |outcome| (sys::NAME_EMPTY..=sys::NAME_INVALID_BYTE).contains(&outcome);
    if ours == wanted || is_name(ours) && is_name(wanted) {
        return Ok(());
    }
    Err(format!("check of {} for operation {operation}: outcome {ours}, not {wanted}", text.escape_ascii()))
}

/// Source and destination of a positive spec, empty where there is none.
fn sides(text: &[u8]) -> [&[u8]; 2] {
    let text = text.strip_prefix(b"+").unwrap_or(text);
    match text.iter().rposition(|byte| *byte == b':') {
        Some(colon) => [&text[..colon], &text[colon + 1..]],
        None => [text, b""],
    }
}

fn is_id(side: &[u8]) -> bool {
    matches!(side.len(), 40 | 64) && side.iter().all(u8::is_ascii_hexdigit)
}

/// Whether names don't tell which refs a spec maps back, since its destination is an id.
pub fn needs_ids(text: &[u8]) -> bool {
    !text.starts_with(b"^") && is_id(sides(text)[1])
}

/// Whether a name begins and ends as a pattern does, and has no room for both.
fn overlaps(side: &[u8], name: &[u8]) -> bool {
    let Some(star) = side.iter().position(|byte| *byte == b'*') else { return false };
    let (before, behind) = (&side[..star], &side[star + 1..]);
    name.starts_with(before) && name.ends_with(behind) && name.len() < before.len() + behind.len()
}

/// Whether the original panics as it fills a side of a spec for a name.
pub fn panics_at(text: &[u8], name: &[u8], direction: Direction) -> bool {
    let [source, destination] = sides(text);
    let (matched, filled) = match direction {
        Direction::Forward => (source, destination),
        Direction::Backward => (destination, source),
    };
    !text.starts_with(b"^") && !filled.is_empty() && overlaps(matched, name)
}

/// Whether the original maps a name by a pattern without another side, though its ends overlap there.
pub fn is_taken(text: &[u8], name: &[u8]) -> bool {
    let [source, destination] = sides(text);
    !text.starts_with(b"^") && destination.is_empty() && overlaps(source, name)
}

/// The names that the source of a positive spec may stand for, in order; none if it isn't partial.
fn candidates(text: &[u8]) -> Vec<Vec<u8>> {
    let source = match sides(text)[0] {
        b"" | b"@" => b"HEAD",
        source => source,
    };
    if text.starts_with(b"^") || source.contains(&b'*') || source.starts_with(b"refs/") || is_id(source) {
        return Vec::new();
    }
    CANDIDATES.map(|(before, behind)| [before, source, behind].concat()).to_vec()
}

/// Whether a text is a non-pattern whose source has to be there for a fetch.
pub fn is_needed(text: &[u8]) -> bool {
    let source = sides(text)[0];
    !text.starts_with(b"^") && !source.contains(&b'*') && !is_id(source)
}

struct Known<'a> {
    group: &'a Group,
    specs: &'a [RefSpecRef<'a>],
    direction: Direction,
}

impl Known<'_> {
    /// Whether a partial source has this candidate, and some ref is named as an earlier one.
    fn comes_later(&self, text: &[u8], name: &[u8]) -> bool {
        let is_listed = |candidate: &Vec<u8>| self.group.names.contains(candidate);
        self.direction == Direction::Forward
            && candidates(text).iter().filter(|one| is_listed(one)).skip(1).any(|one| one == name)
    }

    fn excludes_too_much(&self, name: &[u8]) -> bool {
        self.group.specs.iter().any(|text| text.strip_prefix(b"^").is_some_and(|side| overlaps(side, name)))
    }

    /// The mappings of the original by pieces: those of no ref, and then of each alone, without the specs that are left out
    /// for its name.
    fn pieced(&self, is_left_out: impl Fn(&[u8], &[u8]) -> bool) -> Option<Vec<Mapping>> {
        let idle = original::parse(IDLE, sys::FETCH).expect("a spec");
        let mut found = Matching::of(self.specs, []).mappings(self.direction)?;
        for (item, name) in self.group.names.iter().enumerate() {
            let pairs = self.specs.iter().zip(&self.group.specs);
            let kept: Vec<_> = pairs.map(|(spec, text)| if is_left_out(text, name) { idle } else { *spec }).collect();
            let mappings = Matching::of(&kept, [name]).mappings(self.direction)?;
            let of_item = mappings.into_iter().filter(|one| one.item.is_some());
            found.extend(of_item.map(|one| Mapping { item: Some(item), ..one }));
        }
        found.sort_by_key(|one| (one.item.is_some(), one.spec));
        let mut seen = BTreeSet::new();
        found.retain(|one| seen.insert((one.item.is_some(), one.source.clone(), one.destination.clone())));
        Some(found)
    }
}

/// The mappings without the later of the two that have one hash, or all where they aren't both there.
fn without_later_twin(mut found: Vec<Mapping>) -> Vec<Mapping> {
    let at = TWINS.map(|twin| {
        found.iter().position(|one| {
            one.source == [b"refs/heads/", twin].concat() && one.destination == Some([b"refs/x/", twin].concat())
        })
    });
    if let [Some(one), Some(other)] = at {
        found.remove(one.max(other));
    }
    found
}

/// The kinds of known differences that, together, make the original's mappings of these; none may make both alike where a
/// partial source has to make them differ.
pub fn kinds(
    group: &Group,
    specs: &[RefSpecRef<'_>],
    direction: Direction,
    ours: &[Mapping],
    theirs: Option<&[Mapping]>,
) -> Result<Kinds, String> {
    let known = Known { group, specs, direction };
    let later = |text: &[u8], name: &[u8]| known.comes_later(text, name);
    let has = |test: &dyn Fn(&[u8], &[u8]) -> bool| {
        group.specs.iter().any(|text| group.names.iter().any(|name| test(text, name)))
    };
    let panics = |text: &[u8], name: &[u8]| panics_at(text, name, direction);
    if theirs == Some(ours) && !has(&later) {
        return Ok(Kinds::new());
    }
    if has(&panics) != theirs.is_none() {
        return Err(format!("mappings: the original panics: {}", theirs.is_none()));
    }
    let every = known.pieced(panics).ok_or("mappings: the original panics at a piece")?;
    let first = known.pieced(|text, name| panics(text, name) || later(text, name)).expect("fewer pieces");
    let kept: Vec<_> =
        ours.iter().filter(|one| one.item.is_none() || !known.excludes_too_much(&one.source)).cloned().collect();
    if kept != first {
        return Err(format!("mappings: ours are {ours:?}, and the original's {theirs:?}"));
    }
    let mut kinds = Kinds::new();
    match theirs {
        None => drop(kinds.insert(FILLED)),
        Some(theirs) if theirs == every => {}
        Some(theirs) if theirs == without_later_twin(every.clone()) => drop(kinds.insert(HASHED)),
        Some(theirs) => return Err(format!("mappings: by pieces {every:?}, and at once {theirs:?}")),
    }
    if kept.len() != ours.len() {
        kinds.insert(EXCLUDED);
    }
    if first != every {
        kinds.insert(LATER);
    }
    Ok(kinds)
}
