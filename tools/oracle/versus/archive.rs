//! The calls of the archive.
use crate::answers::{Direction, Mapping, Parts};
use gix_refspec_sys as sys;

const NO_TEXT: sys::Text = sys::Text { bytes: std::ptr::null(), len: 0 };

fn text_of(text: &[u8]) -> sys::Text {
    sys::Text { bytes: text.as_ptr(), len: text.len() }
}

fn texts_of(list: &[Vec<u8>]) -> Vec<sys::Text> {
    list.iter().map(|text| text_of(text)).collect()
}

fn bytes_of<'a>(text: &sys::Text) -> &'a [u8] {
    // A returned text points into one that is still there, or is a constant of the library.
    if text.len == 0 { b"" } else { unsafe { std::slice::from_raw_parts(text.bytes, text.len) } }
}

/// What a call writes into a buffer: first one that may be too small, then one of just the size that is needed.
fn filled(call: impl Fn(&mut [u8], &mut usize) -> u32) -> Result<Vec<u8>, u32> {
    let (mut buffer, mut len) = (vec![0; 64], 0);
    let mut outcome = call(&mut buffer, &mut len);
    if outcome == sys::TOO_SMALL {
        buffer = vec![0; len];
        outcome = call(&mut buffer, &mut len);
    }
    buffer.truncate(len);
    if outcome == sys::OK { Ok(buffer) } else { Err(outcome) }
}

pub fn check(text: &[u8], operation: u32) -> u32 {
    unsafe { sys::gix_refspec_check(text.as_ptr(), text.len(), operation) }
}

/// The side, the first and how many wrong bytes of a text.
pub fn locate(text: &[u8], operation: u32) -> Result<(u32, usize, usize), u32> {
    let mut span = sys::Span::default();
    match unsafe { sys::gix_refspec_locate(text.as_ptr(), text.len(), operation, &mut span) } {
        sys::OK => Ok((span.side, span.start, span.len)),
        outcome => Err(outcome),
    }
}

pub fn canonical(text: &[u8], operation: u32) -> Result<Vec<u8>, u32> {
    filled(|buffer, len| unsafe {
        sys::gix_refspec_canonical(text.as_ptr(), text.len(), operation, buffer.as_mut_ptr(), buffer.len(), len)
    })
}

pub fn parts(text: &[u8], operation: u32) -> Result<Parts<'_>, u32> {
    let mut parts = sys::Parts { kind: 0, forced: 0, source: NO_TEXT, destination: NO_TEXT };
    match unsafe { sys::gix_refspec_parts(text.as_ptr(), text.len(), operation, &mut parts) } {
        sys::OK => Ok(Parts {
            kind: parts.kind,
            forced: parts.forced == 1,
            source: bytes_of(&parts.source),
            destination: bytes_of(&parts.destination),
        }),
        outcome => Err(outcome),
    }
}

pub fn compare(a: &[u8], b: &[u8], operation: u32) -> Result<i32, u32> {
    let mut order = 7;
    match unsafe { sys::gix_refspec_compare(a.as_ptr(), a.len(), b.as_ptr(), b.len(), operation, &mut order) } {
        sys::OK => Ok(order),
        outcome => Err(outcome),
    }
}

pub fn prefix(text: &[u8], operation: u32) -> Result<&[u8], u32> {
    let mut prefix = NO_TEXT;
    match unsafe { sys::gix_refspec_prefix(text.as_ptr(), text.len(), operation, &mut prefix) } {
        sys::OK => Ok(bytes_of(&prefix)),
        outcome => Err(outcome),
    }
}

pub fn expansion(text: &[u8], operation: u32) -> Result<Vec<u8>, u32> {
    filled(|buffer, len| unsafe {
        sys::gix_refspec_expand_prefixes(text.as_ptr(), text.len(), operation, buffer.as_mut_ptr(), buffer.len(), len)
    })
}

/// What a spec by itself makes of a name: none if it doesn't map it, else the name that it makes, if there is one.
pub fn map(text: &[u8], operation: u32, name: &[u8], direction: Direction) -> Result<Option<Option<Vec<u8>>>, u32> {
    let call = match direction {
        Direction::Forward => sys::gix_refspec_map,
        Direction::Backward => sys::gix_refspec_map_back,
    };
    let made = std::cell::Cell::new(sys::Made::default());
    let bytes = filled(|buffer, len| {
        let mut now = sys::Made::default();
        let (name_len, buffer_len) = (name.len(), buffer.len());
        let outcome = unsafe {
            call(text.as_ptr(), text.len(), operation, name.as_ptr(), name_len, buffer.as_mut_ptr(), buffer_len, &mut now)
        };
        *len = now.len;
        made.set(now);
        outcome
    })?;
    let made = made.get();
    Ok((made.mapped == 1).then_some((made.has_destination == 1).then_some(bytes)))
}

/// A call that fills a list of mappings and a buffer: first with room that may be too small, then with just enough.
fn listed(call: impl Fn(&mut [sys::Mapping], &mut [u8], &mut usize, &mut usize) -> u32) -> (u32, Vec<sys::Mapping>, Vec<u8>) {
    let (mut mappings, mut buffer) = (vec![sys::Mapping::default(); 8], vec![0; 256]);
    let (mut count, mut len) = (0, 0);
    let mut outcome = call(&mut mappings, &mut buffer, &mut count, &mut len);
    if outcome == sys::TOO_SMALL {
        (mappings, buffer) = (vec![sys::Mapping::default(); count], vec![0; len]);
        outcome = call(&mut mappings, &mut buffer, &mut count, &mut len);
    }
    mappings.truncate(count);
    buffer.truncate(len);
    (outcome, mappings, buffer)
}

/// A mapping whose made side is the destination, or backward the source.
fn mapping_of(told: &sys::Mapping, buffer: &[u8], names: &[Vec<u8>], direction: Direction) -> Mapping {
    let made = (told.has_destination == 1).then(|| buffer[told.made_at..told.made_at + told.made_len].to_vec());
    let item = (told.item != sys::NO_ITEM).then_some(told.item);
    let given = match item {
        Some(item) => names[item].clone(),
        None => buffer[told.id_at..told.id_at + told.id_len].to_vec(),
    };
    let (source, destination) = match direction {
        Direction::Forward => (given, made),
        Direction::Backward => (buffer[told.made_at..told.made_at + told.made_len].to_vec(), Some(given)),
    };
    Mapping { spec: told.spec, item, source, destination }
}

pub fn matches(specs: &[Vec<u8>], names: &[Vec<u8>], direction: Direction) -> Result<Vec<Mapping>, u32> {
    let (texts, items) = (texts_of(specs), texts_of(names));
    let number = match direction {
        Direction::Forward => sys::FORWARD,
        Direction::Backward => sys::BACKWARD,
    };
    let (outcome, mappings, buffer) = listed(|mappings, buffer, count, len| unsafe {
        sys::gix_refspec_match(
            texts.as_ptr(), texts.len(), items.as_ptr(), items.len(), number,
            mappings.as_mut_ptr(), mappings.len(), buffer.as_mut_ptr(), buffer.len(), count, len,
        )
    });
    match outcome {
        sys::OK => Ok(mappings.iter().map(|told| mapping_of(told, &buffer, names, direction)).collect()),
        outcome => Err(outcome),
    }
}

fn pair_of(mapping: &Mapping) -> sys::Pair {
    sys::Pair {
        source: text_of(&mapping.source),
        destination: mapping.destination.as_ref().map_or(NO_TEXT, |name| text_of(name)),
        source_is_id: mapping.item.is_none().into(),
        has_destination: mapping.destination.is_some().into(),
    }
}

/// The outcome of a validation, and the verdict on each mapping.
pub fn validated(mappings: &[Mapping]) -> (u32, Vec<sys::PairVerdict>) {
    let pairs: Vec<_> = mappings.iter().map(pair_of).collect();
    let mut verdicts = vec![sys::PairVerdict::default(); pairs.len()];
    let outcome =
        unsafe { sys::gix_refspec_validate(pairs.as_ptr(), pairs.len(), verdicts.as_mut_ptr(), verdicts.len()) };
    (outcome, verdicts)
}

/// The plan of a fetch of these specs: its outcome, each update with its verdict, and the specs whose source is missing.
pub fn plan(specs: &[Vec<u8>], names: &[Vec<u8>]) -> (u32, Vec<(Mapping, u32)>, Vec<usize>) {
    let (texts, items) = (texts_of(specs), texts_of(names));
    let wish = sys::Wish {
        given: texts.as_ptr(),
        given_count: texts.len(),
        configured: std::ptr::null(),
        configured_count: 0,
        merges: std::ptr::null(),
        merges_count: 0,
        tags: 0,
    };
    let (outcome, mappings, buffer) = listed(|mappings, buffer, count, len| unsafe {
        sys::gix_refspec_plan(
            &wish, items.as_ptr(), items.len(),
            mappings.as_mut_ptr(), mappings.len(), buffer.as_mut_ptr(), buffer.len(), count, len,
        )
    });
    let (missing, updates): (Vec<_>, Vec<_>) = mappings.iter().partition(|told| told.verdict == sys::MISSING);
    let updates = updates.into_iter().map(|told| (mapping_of(told, &buffer, names, Direction::Forward), told.verdict));
    (outcome, updates.collect(), missing.into_iter().map(|told| told.spec).collect())
}
