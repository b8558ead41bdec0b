//! Compares what both libraries answer to a group: its mappings in both directions, their validation, and what a plan makes of them
//! with what the validation does.
use crate::answers::{Direction, Mapping};
use crate::inputs::Group;
use crate::known::{self, Kinds};
use crate::original::{self, Matching};
use crate::{archive, differs};
use gix_refspec::RefSpecRef;
use gix_refspec_sys as sys;
use std::collections::{BTreeMap, BTreeSet};

pub fn compare(group: &Group) -> Result<Kinds, String> {
    let mut specs = Vec::new();
    for text in &group.specs {
        let spec = original::parse(text, sys::FETCH);
        if spec.is_err() {
            return refused(group, text, spec);
        }
        specs.extend(spec);
    }
    let forward = archive::matches(&group.specs, &group.names, Direction::Forward)
        .map_err(|outcome| format!("match forward: outcome {outcome}"))?;
    let mut kinds = compared(group, &specs, Direction::Forward, &forward)?;
    let matching = Matching::of(&specs, &group.names);
    validated(&matching, &forward)?;
    match archive::matches(&group.specs, &group.names, Direction::Backward) {
        Ok(backward) => {
            kinds.extend(compared(group, &specs, Direction::Backward, &backward)?);
            validated(&matching, &[&forward[..], &backward].concat())?;
        }
        Err(sys::NEEDS_IDS) if group.specs.iter().any(|text| known::needs_ids(text)) => {}
        Err(outcome) => return Err(format!("match backward: outcome {outcome}")),
    }
    planned(group, &specs, &forward)?;
    Ok(kinds)
}

/// Each call has the refusal of the first spec that is refused.
fn refused(
    group: &Group,
    text: &[u8],
    spec: Result<RefSpecRef<'_>, gix_refspec::parse::Error>,
) -> Result<Kinds, String> {
    for direction in [Direction::Forward, Direction::Backward] {
        let ours = archive::matches(&group.specs, &group.names, direction).err().unwrap_or(sys::OK);
        known::refusal(text, sys::FETCH, ours, &spec)?;
    }
    known::refusal(text, sys::FETCH, archive::plan(&group.specs, &group.names).0, &spec)?;
    Ok(Kinds::new())
}

fn compared(
    group: &Group,
    specs: &[RefSpecRef<'_>],
    direction: Direction,
    ours: &[Mapping],
) -> Result<Kinds, String> {
    let theirs = Matching::of(specs, &group.names).mappings(direction);
    known::kinds(group, specs, direction, ours, theirs.as_deref())
}

/// The validation of mappings, which may be of both directions: the original's conflicts, each with its sources, or what it removes.
fn validated(matching: &Matching<'_>, mappings: &[Mapping]) -> Result<(), String> {
    let (outcome, verdicts) = archive::validated(mappings);
    let with_verdict = |wanted| mappings.iter().zip(&verdicts).filter(move |(_, one)| one.verdict == wanted);
    let mut rivals: BTreeMap<_, Vec<_>> = BTreeMap::new();
    for (mapping, verdict) in with_verdict(sys::PAIR_IN_CONFLICT) {
        let first = mappings.iter().position(|one| one.destination == mapping.destination);
        differs("validation: the first", Some(verdict.first), first)?;
        let found = rivals.entry(mapping.destination.clone().unwrap_or_default()).or_default();
        let key = (mapping.item.is_none(), mapping.source.clone());
        if !found.contains(&key) {
            found.push(key);
        }
    }
    let sources = |found: Vec<(bool, Vec<u8>)>| found.into_iter().map(|(_, source)| source).collect::<Vec<_>>();
    let told: Vec<_> = rivals.into_iter().map(|(name, found)| (name, sources(found))).collect();
    match matching.validated(mappings) {
        Err(conflicts) => {
            differs("validation: its outcome", outcome, sys::IN_CONFLICT)?;
            differs("validation: conflicts", told, conflicts)
        }
        Ok(removed) => {
            differs("validation: its outcome", outcome, sys::OK)?;
            differs("validation: conflicts", told, Vec::new())?;
            let told = with_verdict(sys::PAIR_REMOVED).filter_map(|(one, _)| one.destination.clone());
            differs("validation: what is removed", told.collect(), removed)
        }
    }
}

/// A plan has what is mapped, with a verdict on each mapping: invalid sides by the original's check of names, conflicts by its
/// validation, and directory conflicts by looking at all pairs.
fn planned(group: &Group, specs: &[RefSpecRef<'_>], forward: &[Mapping]) -> Result<(), String> {
    let (outcome, updates, missing) = archive::plan(&group.specs, &group.names);
    let wanted = archive::matches(&completed(&group.specs), &group.names, Direction::Forward)
        .map_err(|outcome| format!("match of completed specs: outcome {outcome}"))?;
    let told: Vec<_> = updates.iter().map(|(mapping, _)| mapping.clone()).collect();
    differs("the updates of a plan", &told, &wanted)?;
    differs("missing sources", &missing, &lacking(group, specs))?;

    let matching = Matching::of(specs, &group.names);
    let sound: Vec<_> = wanted.iter().filter(|one| invalid(one) == 0).cloned().collect();
    let conflicts = matching.validated(&sound).err().unwrap_or_default();
    let contested: BTreeMap<_, _> = conflicts.into_iter().collect();
    let is_contested = |name: &Option<Vec<u8>>| name.as_ref().is_some_and(|name| contested.contains_key(name));
    let open: BTreeSet<_> = sound.iter().filter_map(|one| one.destination.clone()).collect();
    let is_nested = |name: &Vec<u8>| open.iter().any(|other| is_below(name, other) || is_below(other, name));
    for (mapping, verdict) in &updates {
        let wanted = match invalid(mapping) {
            0 if is_contested(&mapping.destination) => sys::CONTESTED,
            0 if mapping.destination.as_ref().is_some_and(is_nested) => sys::DIRECTORY_CONFLICT,
            0 => sys::WRITTEN,
            verdict => verdict,
        };
        differs("verdict", verdict, &wanted)?;
    }
    let wanted = match (missing.is_empty(), contested.is_empty()) {
        (false, _) => sys::MISSING_SOURCE,
        (true, false) => sys::IN_CONFLICT,
        (true, true) => sys::OK,
    };
    differs("the outcome of a plan", outcome, wanted)?;
    for (name, sources) in &contested {
        let of_name = updates.iter().filter(|(one, verdict)| *verdict == sys::CONTESTED && one.destination.as_ref() == Some(name));
        let told: BTreeSet<_> = of_name.map(|(one, _)| &one.source).collect();
        differs("the sources of a conflict", told, sources.iter().collect())?;
    }
    // What the validation removes is left out of the plan as well.
    for name in matching.validated(forward).unwrap_or_default() {
        let is_left_out = |verdict| matches!(verdict, sys::INVALID_DESTINATION | sys::INVALID_SIDES);
        let mut of_name = updates.iter().filter(|(one, _)| one.destination.as_ref() == Some(&name));
        differs("a fix", of_name.all(|(_, verdict)| is_left_out(*verdict)), true)?;
    }
    Ok(())
}

/// The specs with the destinations that Git, and so a plan, completes otherwise than the crate where there is no star: it keeps the
/// digits of an id, and makes `refs/heads/m` of `heads/m`.
fn completed(specs: &[Vec<u8>]) -> Vec<Vec<u8>> {
    let complete = |text: &Vec<u8>| {
        let at = text.iter().rposition(|byte| *byte == b':').map_or(text.len(), |colon| colon + 1);
        let (before, side) = text.split_at(at);
        let is_whole = side.is_empty() || side.contains(&b'*') || side.starts_with(b"refs/");
        let is_folder = [&b"heads/"[..], b"tags/", b"remotes/"].iter().any(|folder| side.starts_with(folder));
        match is_whole || text.starts_with(b"^") {
            true => text.clone(),
            false => [before, if is_folder { b"refs/" } else { b"refs/heads/" }, side].concat(),
        }
    };
    specs.iter().map(complete).collect()
}

/// The verdict on invalid sides, or 0.
fn invalid(mapping: &Mapping) -> u32 {
    let is_source = mapping.item.is_none() || original::is_ref_name(&mapping.source);
    let is_destination =
        mapping.destination.as_ref().is_none_or(|name| original::is_ref_name(name) && name != b"HEAD");
    match (is_source, is_destination) {
        (true, true) => 0,
        (false, true) => sys::INVALID_SOURCE,
        (true, false) => sys::INVALID_DESTINATION,
        (false, false) => sys::INVALID_SIDES,
    }
}

fn is_below(name: &[u8], folder: &[u8]) -> bool {
    name.strip_prefix(folder).is_some_and(|rest| rest.starts_with(b"/"))
}

/// The specs that a remote with these names lacks the source of.
fn lacking(group: &Group, specs: &[RefSpecRef<'_>]) -> Vec<usize> {
    let is_lacking = |at: &usize| {
        let mappings = Matching::of(&specs[*at..*at + 1], &group.names).mappings(Direction::Forward);
        known::is_needed(&group.specs[*at]) && mappings.is_some_and(|found| found.is_empty())
    };
    (0..specs.len()).filter(is_lacking).collect()
}
