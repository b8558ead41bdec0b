//! Compares what both libraries answer to a text, to it with another one, and to a name that it maps.
use crate::answers::Direction;
use crate::inputs::Group;
use crate::known::{self, Kinds};
use crate::original::{self, Matching};
use crate::{archive, differs};
use gix_refspec::RefSpecRef;
use gix_refspec_sys as sys;
use std::cmp::Ordering;

/// Compares both operations. The text is the first spec, the other one the second, and the name the first.
pub fn compare(input: &Group) -> Result<Kinds, String> {
    let mut kinds = Kinds::new();
    let Some(text) = input.specs.first() else { return Ok(kinds) };
    for operation in [sys::FETCH, sys::PUSH] {
        let spec = original::parse(text, operation);
        known::refusal(text, operation, archive::check(text, operation), &spec)?;
        located(text, operation, spec.is_err())?;
        let Ok(spec) = spec else { continue };
        kinds.extend(printed(text, operation, &spec)?);
        differs("parts", archive::parts(text, operation), Ok(original::parts(&spec)))?;
        differs("prefix", archive::prefix(text, operation), Ok(spec.prefix().map_or(&b""[..], |prefix| prefix)))?;
        differs("expansion", archive::expansion(text, operation), Ok(original::expansion(&spec)))?;
        if let Some(other) = input.specs.get(1) {
            ordered(text, other, operation, &spec)?;
        }
        if let Some(name) = input.names.first() {
            kinds.extend(mapped(text, operation, &spec, name)?);
        }
    }
    Ok(kinds)
}

/// The wrong bytes are within a refused text, and none are in another.
fn located(text: &[u8], operation: u32, is_refused: bool) -> Result<(), String> {
    match archive::locate(text, operation) {
        Ok((0, 0, 0)) => Ok(()),
        Ok((sys::SOURCE..=sys::DESTINATION, start, len))
            if is_refused && len > 0 && start < text.len() && len <= text.len() - start =>
        {
            Ok(())
        }
        other => Err(format!("locate: {other:?}")),
    }
}

fn printed(text: &[u8], operation: u32, spec: &RefSpecRef<'_>) -> Result<Option<&'static str>, String> {
    let (ours, theirs) = (archive::canonical(text, operation), spec.to_bstring());
    if ours.as_deref() == Ok(&theirs[..]) {
        return Ok(None);
    }
    let gains_plus = operation == sys::FETCH && text.starts_with(b"++") && theirs.starts_with(b"+");
    if gains_plus && ours.as_deref() == Ok(&[b"+", &theirs[..]].concat()) {
        return Ok(Some(known::PLUS));
    }
    Err(format!("canonical: ours is {:?}, the original's {theirs:?}", ours.map(|text| text.escape_ascii().to_string())))
}

fn ordered(text: &[u8], other: &[u8], operation: u32, spec: &RefSpecRef<'_>) -> Result<(), String> {
    let Ok(second) = original::parse(other, operation) else { return Ok(()) };
    let order = match spec.cmp(&second) {
        Ordering::Less => -1,
        Ordering::Equal => 0,
        Ordering::Greater => 1,
    };
    differs("compare", archive::compare(text, other, operation), Ok(order))?;
    let are_equal = archive::canonical(text, operation) == archive::canonical(other, operation);
    differs("equal texts", are_equal, order == 0)
}

fn mapped(text: &[u8], operation: u32, spec: &RefSpecRef<'_>, name: &Vec<u8>) -> Result<Option<&'static str>, String> {
    let matching = Matching::of(&[*spec], [name]);
    let mut kind = None;
    for direction in [Direction::Forward, Direction::Backward] {
        let ours = archive::map(text, operation, name, direction);
        let mut theirs = match matching.mappings(direction) {
            Some(mappings) => mappings.into_iter().find(|one| one.item.is_some()).map(|one| match direction {
                Direction::Forward => one.destination,
                Direction::Backward => Some(one.source),
            }),
            None if known::panics_at(text, name, direction) => {
                kind = Some(known::FILLED);
                None
            }
            None => return Err("map: the original panics".into()),
        };
        if direction == Direction::Forward && known::is_taken(text, name) && theirs == Some(None) {
            kind = Some(known::TAKEN);
            theirs = None;
        }
        differs("map", ours, Ok(theirs))?;
    }
    Ok(kind)
}
