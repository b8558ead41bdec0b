//! The calls as safe functions. Each fails with the outcome, if that isn't `OK`.
use alloc::vec::Vec;
use core::{marker::PhantomData, slice};

use crate as sys;

/// Why a call fails: any outcome but `OK`.
#[derive(Clone, Copy, Debug, PartialEq, Eq)]
pub struct Outcome(pub u32);

impl Outcome {
    fn check(number: u32) -> Result<(), Outcome> {
        match number {
            sys::OK => Ok(()),
            number => Err(Outcome(number)),
        }
    }
}

/// The mode of a refspec and its sides.
#[derive(Clone, Copy, Debug, PartialEq, Eq)]
pub struct Sides<'a> {
    pub mode: u32,
    pub source: Option<&'a [u8]>,
    pub destination: Option<&'a [u8]>,
}

/// Reads a text, which the sides borrow.
pub fn read(text: &[u8], operation: u32) -> Result<Sides<'_>, Outcome> {
    let mut sides = sys::Sides { mode: 0, has_source: 0, has_destination: 0, source: NO_TEXT, destination: NO_TEXT };
    // SAFETY: the text is as long as it says, and the struct is ours.
    Outcome::check(unsafe { sys::gix_refspec_read(text.as_ptr(), text.len(), operation, &mut sides) })?;
    // SAFETY: a side is in the text, or is the constant `HEAD`.
    let (source, destination) = unsafe { (bytes_of(&sides.source), bytes_of(&sides.destination)) };
    Ok(Sides {
        mode: sides.mode,
        source: (sides.has_source != 0).then_some(source),
        destination: (sides.has_destination != 0).then_some(destination),
    })
}

/// The wrong bytes of a refused text; all fields are 0 for an unknown operation too.
pub fn locate(text: &[u8], operation: u32) -> sys::Span {
    let mut span = sys::Span::default();
    // SAFETY: the text is as long as it says, and the struct is ours.
    let _ = unsafe { sys::gix_refspec_locate(text.as_ptr(), text.len(), operation, &mut span) };
    span
}

/// An instruction. Its sides, and whether it is forced, count only where its kind has them.
#[derive(Clone, Copy, Debug, PartialEq, Eq)]
pub struct Parts<'a> {
    pub kind: u32,
    pub forced: bool,
    pub source: &'a [u8],
    pub destination: &'a [u8],
}

/// The canonical text of an instruction.
pub fn print(parts: &Parts<'_>) -> Result<Vec<u8>, Outcome> {
    let (source, destination) = (text_of(parts.source), text_of(parts.destination));
    let raw = sys::Parts { kind: parts.kind, forced: u32::from(parts.forced), source, destination };
    // A sign, both sides and a colon.
    filled(parts.source.len() + parts.destination.len() + 2, |buffer, room, len| {
        // SAFETY: the sides are as long as they say, and the buffer has that room.
        unsafe { sys::gix_refspec_print(&raw, buffer, room, len) }
    })
}

/// The ref prefix of a refspec, if it has one.
pub fn prefix(text: &[u8], operation: u32) -> Result<Option<&[u8]>, Outcome> {
    let mut prefix = NO_TEXT;
    // SAFETY: the text is as long as it says, and the struct is ours.
    Outcome::check(unsafe { sys::gix_refspec_prefix(text.as_ptr(), text.len(), operation, &mut prefix) })?;
    // SAFETY: the prefix is in the text, or is the constant `HEAD`, or empty.
    let prefix = unsafe { bytes_of(&prefix) };
    Ok((!prefix.is_empty()).then_some(prefix))
}

/// The ref prefix of a refspec or the candidates of its partial name, each with a newline.
pub fn expand_prefixes(text: &[u8], operation: u32) -> Result<Vec<u8>, Outcome> {
    // Six names with at most 18 bytes around the text.
    filled(6 * (text.len() + 18), |buffer, room, len| {
        // SAFETY: the text is as long as it says, and the buffer has that room.
        unsafe { sys::gix_refspec_expand_prefixes(text.as_ptr(), text.len(), operation, buffer, room, len) }
    })
}

/// What a refspec makes of a name.
#[derive(Clone, Debug, PartialEq, Eq)]
pub struct Made {
    pub has_destination: bool,
    /// The destination that it makes; of `map_back` the source.
    pub name: Vec<u8>,
}

/// The destination that a refspec makes of a name by itself. `None` if it doesn't map the name, as for an object id.
pub fn map(text: &[u8], operation: u32, name: &[u8]) -> Result<Option<Made>, Outcome> {
    made(text, operation, name, sys::gix_refspec_map)
}

/// The source that a refspec makes of a name, which is the destination.
pub fn map_back(text: &[u8], operation: u32, name: &[u8]) -> Result<Option<Made>, Outcome> {
    made(text, operation, name, sys::gix_refspec_map_back)
}

type MapCall = unsafe extern "C" fn(*const u8, usize, u32, *const u8, usize, *mut u8, usize, *mut sys::Made) -> u32;

fn made(text: &[u8], operation: u32, name: &[u8], call: MapCall) -> Result<Option<Made>, Outcome> {
    let mut told = sys::Made::default();
    // A side and the name, or a partial side below `refs/heads/`.
    let made = filled(text.len() + name.len() + 11, |buffer, room, len| {
        // SAFETY: text and name are as long as they say, and the buffer has that room.
        let outcome = unsafe {
            call(text.as_ptr(), text.len(), operation, name.as_ptr(), name.len(), buffer, room, &mut told)
        };
        *len = told.len;
        outcome
    })?;
    Ok((told.mapped != 0).then(|| Made { has_destination: told.has_destination != 0, name: made }))
}

/// The text of a refspec, and what it is for.
#[repr(transparent)]
#[derive(Clone, Copy, Debug)]
pub struct Spec<'a> {
    raw: sys::Spec,
    text: PhantomData<&'a [u8]>,
}

impl<'a> Spec<'a> {
    pub fn new(text: &'a [u8], operation: u32) -> Self {
        Spec { raw: sys::Spec { text: text_of(text), operation }, text: PhantomData }
    }
}

/// A ref: its name, and the digits of the ids of its object and of the tagged one; empty where they aren't known.
#[repr(transparent)]
#[derive(Clone, Copy, Debug)]
pub struct Ref<'a> {
    raw: sys::Ref,
    texts: PhantomData<&'a [u8]>,
}

impl<'a> Ref<'a> {
    pub fn new(name: &'a [u8], target: &'a [u8], object: &'a [u8]) -> Self {
        let raw = sys::Ref { name: text_of(name), target: text_of(target), object: text_of(object) };
        Ref { raw, texts: PhantomData }
    }
}

/// Mappings, and their texts.
#[derive(Clone, Debug, Default)]
pub struct Mappings {
    list: Vec<sys::Mapping>,
    text: Vec<u8>,
}

impl Mappings {
    pub fn iter(&self) -> slice::Iter<'_, sys::Mapping> {
        self.list.iter()
    }

    /// The digits of a source that is an id.
    pub fn id(&self, one: &sys::Mapping) -> &[u8] {
        &self.text[one.id_at..one.id_at + one.id_len]
    }

    /// The name that the spec makes.
    pub fn made(&self, one: &sys::Mapping) -> &[u8] {
        &self.text[one.made_at..one.made_at + one.made_len]
    }
}

/// The text of a fetch, or the name of a ref.
#[repr(transparent)]
#[derive(Clone, Copy, Debug)]
pub struct Text<'a> {
    raw: sys::Text,
    text: PhantomData<&'a [u8]>,
}

impl<'a> Text<'a> {
    pub fn new(text: &'a [u8]) -> Self {
        Text { raw: text_of(text), text: PhantomData }
    }

    pub fn bytes(&self) -> &'a [u8] {
        // SAFETY: the text was made of bytes that are borrowed for as long.
        unsafe { bytes_of(&self.raw) }
    }
}

/// How specs map refs.
pub fn matched(specs: &[Spec<'_>], refs: &[Ref<'_>], direction: u32) -> Result<Mappings, Outcome> {
    let room = room_for(specs.iter().map(|spec| &spec.raw.text), refs.iter().map(|one| &one.raw.name));
    listed(room, |list, list_room, text, text_room, count, len| {
        // SAFETY: the lists are as long as they say, their elements are those of C, and both buffers have that room.
        unsafe {
            sys::gix_refspec_match_refs(
                specs.as_ptr().cast(), specs.len(), refs.as_ptr().cast(), refs.len(), direction,
                list, list_room, text, text_room, count, len,
            )
        }
    })
}

/// How fetches map names. Takes less memory than `matched`.
pub fn matched_names(fetches: &[Text<'_>], names: &[Text<'_>], direction: u32) -> Result<Mappings, Outcome> {
    let room = room_for(fetches.iter().map(|fetch| &fetch.raw), names.iter().map(|name| &name.raw));
    listed(room, |list, list_room, text, text_room, count, len| {
        // SAFETY: as in `matched`.
        unsafe {
            sys::gix_refspec_match(
                fetches.as_ptr().cast(), fetches.len(), names.as_ptr().cast(), names.len(), direction,
                list, list_room, text, text_room, count, len,
            )
        }
    })
}

/// What a call lists: at the first attempt with this room for mappings and their texts, then with what it needs.
fn listed(
    room: (usize, usize),
    call: impl Fn(*mut sys::Mapping, usize, *mut u8, usize, &mut usize, &mut usize) -> u32,
) -> Result<Mappings, Outcome> {
    let (mut count, mut len) = room;
    loop {
        let mut found = Mappings { list: Vec::with_capacity(count), text: Vec::with_capacity(len) };
        let (list_room, text_room) = (found.list.capacity(), found.text.capacity());
        let (list, text) = (found.list.as_mut_ptr(), found.text.as_mut_ptr());
        match call(list, list_room, text, text_room, &mut count, &mut len) {
            // `count` and `len` are what is needed.
            sys::TOO_SMALL => continue,
            outcome => Outcome::check(outcome)?,
        }
        // SAFETY: the call has set so many.
        unsafe {
            found.list.set_len(count);
            found.text.set_len(len);
        }
        return Ok(found);
    }
}

/// How many mappings and bytes of texts there mostly are at most: one of each ref for a pattern, and few for other
/// specs.
fn room_for<'t>(
    specs: impl ExactSizeIterator<Item = &'t sys::Text> + Clone,
    names: impl ExactSizeIterator<Item = &'t sys::Text>,
) -> (usize, usize) {
    let longest = specs.clone().map(|spec| spec.len).max().unwrap_or(0);
    // A name made from a partial one begins with `refs/heads/`, and an id has 64 digits.
    let others = (specs.len(), specs.len() * (longest + 64 + 11));
    // SAFETY: the texts are borrowed for as long as the lists that have them are.
    if !specs.clone().any(|spec| unsafe { bytes_of(spec) }.contains(&b'*')) {
        return others;
    }
    let count = names.len();
    let bytes: usize = names.map(|name| name.len).sum();
    (others.0 + count, others.1 + bytes + count * longest)
}

/// A mapping to validate: its source, told apart by its bytes and by whether it is an id, and its destination.
#[repr(transparent)]
#[derive(Clone, Copy, Debug)]
pub struct Pair<'a> {
    raw: sys::Pair,
    texts: PhantomData<&'a [u8]>,
}

impl<'a> Pair<'a> {
    pub fn of_name(name: &'a [u8], destination: Option<&'a [u8]>) -> Self {
        Pair { raw: pair_of(name, 0, destination), texts: PhantomData }
    }

    pub fn of_id(id: &'a [u8], destination: Option<&'a [u8]>) -> Self {
        Pair { raw: pair_of(id, 1, destination), texts: PhantomData }
    }
}

fn pair_of(source: &[u8], source_is_id: u32, destination: Option<&[u8]>) -> sys::Pair {
    let has_destination = u32::from(destination.is_some());
    let destination = destination.map_or(NO_TEXT, text_of);
    sys::Pair { source: text_of(source), destination, source_is_id, has_destination }
}

/// What becomes of each of these mappings, also if some are in conflict.
pub fn validated(pairs: &[Pair<'_>]) -> Result<Vec<sys::PairVerdict>, Outcome> {
    let mut verdicts = Vec::with_capacity(pairs.len());
    let room = verdicts.capacity();
    // SAFETY: the list is as long as it says, its elements are those of C, and there is room for a verdict on each.
    let outcome = unsafe { sys::gix_refspec_validate(pairs.as_ptr().cast(), pairs.len(), verdicts.as_mut_ptr(), room) };
    if outcome != sys::IN_CONFLICT {
        Outcome::check(outcome)?;
    }
    // SAFETY: the call has set so many.
    unsafe { verdicts.set_len(pairs.len()) };
    Ok(verdicts)
}

const NO_TEXT: sys::Text = sys::Text { bytes: b"".as_ptr(), len: 0 };

/// The bytes of a text, whose memory has to be there for as long.
unsafe fn bytes_of<'a>(text: &sys::Text) -> &'a [u8] {
    slice::from_raw_parts(text.bytes, text.len)
}

fn text_of(bytes: &[u8]) -> sys::Text {
    sys::Text { bytes: bytes.as_ptr(), len: bytes.len() }
}

/// The bytes that a call writes to a buffer: at the first attempt with this room, then with what it needs.
fn filled(room: usize, mut call: impl FnMut(*mut u8, usize, &mut usize) -> u32) -> Result<Vec<u8>, Outcome> {
    let mut len = room;
    loop {
        let mut buffer: Vec<u8> = Vec::with_capacity(len);
        match call(buffer.as_mut_ptr(), buffer.capacity(), &mut len) {
            sys::TOO_SMALL => continue,
            outcome => Outcome::check(outcome)?,
        }
        // SAFETY: the call has set so many.
        unsafe { buffer.set_len(len) };
        return Ok(buffer);
    }
}
