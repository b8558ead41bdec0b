//! The calls of `gix_refspec.h`, which says what each does. `calls` has some of them as safe functions; the crate
//! `refspec` is a safe way to all.
#![no_std]

extern crate alloc;

pub mod calls;

/// The operations.
pub const FETCH: u32 = 1;
pub const PUSH: u32 = 2;

/// Success.
pub const OK: u32 = 0;

/// What is wrong with a text.
pub const EMPTY: u32 = 1;
pub const NEGATIVE_WITH_DESTINATION: u32 = 2;
pub const NEGATIVE_EMPTY: u32 = 3;
pub const NEGATIVE_OBJECT_HASH: u32 = 4;
pub const PUSH_TO_EMPTY: u32 = 5;
pub const PATTERN_UNSUPPORTED: u32 = 6;
pub const PATTERN_UNBALANCED: u32 = 7;
pub const NAME_EMPTY: u32 = 8;
pub const NAME_EMPTY_COMPONENT: u32 = 9;
pub const NAME_STARTS_WITH_DOT: u32 = 10;
pub const NAME_LOCK_SUFFIX: u32 = 11;
pub const NAME_ENDS_WITH_DOT: u32 = 12;
pub const NAME_REPEATED_DOT: u32 = 13;
pub const NAME_REFLOG_PORTION: u32 = 14;
pub const NAME_ASTERISK: u32 = 15;
pub const NAME_INVALID_BYTE: u32 = 16;

/// The other outcomes.
pub const NO_LIST: u32 = 17;
pub const TOO_SMALL: u32 = 18;
pub const NO_MEMORY: u32 = 19;
pub const NO_OPERATION: u32 = 20;
pub const NEEDS_IDS: u32 = 21;
pub const IN_CONFLICT: u32 = 22;
pub const MISSING_SOURCE: u32 = 23;
pub const INVALID_ID: u32 = 24;
pub const OTHER_PARTS: u32 = 25;

/// The kinds of instructions.
pub const PUSH_ALL_MATCHING: u32 = 1;
pub const PUSH_DELETE: u32 = 2;
pub const PUSH_MATCHING: u32 = 3;
pub const PUSH_EXCLUDE: u32 = 4;
pub const FETCH_ONLY: u32 = 5;
pub const FETCH_EXCLUDE: u32 = 6;
pub const FETCH_AND_UPDATE: u32 = 7;

/// The modes of refspecs, by their signs.
pub const NORMAL: u32 = 1;
pub const FORCED: u32 = 2;
pub const NEGATIVE: u32 = 3;

/// The sides of a refspec.
pub const SOURCE: u32 = 1;
pub const DESTINATION: u32 = 2;

/// Which sides of fetches are matched.
pub const FORWARD: u32 = 1;
pub const BACKWARD: u32 = 2;

/// What makes an update of a plan.
pub const GIVEN: u32 = 1;
pub const CONFIGURED: u32 = 2;
pub const MERGE: u32 = 3;
pub const DEFAULT: u32 = 4;
pub const ALL_TAGS: u32 = 5;

/// What becomes of it, as `gix_refspec.h` says. `MISSING` is a refspec whose source the remote lacks.
pub const WRITTEN: u32 = 1;
pub const INVALID_SOURCE: u32 = 2;
pub const INVALID_DESTINATION: u32 = 3;
pub const INVALID_SIDES: u32 = 4;
pub const CONTESTED: u32 = 5;
pub const OVERRULED: u32 = 6;
pub const MISSING: u32 = 7;
pub const DIRECTORY_CONFLICT: u32 = 8;

/// What becomes of a ref by one spec.
pub const FATE_UNMATCHED: u32 = 1;
pub const FATE_EXCLUDES: u32 = 2;
pub const FATE_EXCLUDED: u32 = 3;
pub const FATE_INVALID_NAME: u32 = 4;
pub const FATE_INVALID_DESTINATION: u32 = 5;
pub const FATE_DUPLICATE: u32 = 6;
pub const FATE_IN_CONFLICT: u32 = 7;
pub const FATE_DIRECTORY_CONFLICT: u32 = 8;
pub const FATE_WRITTEN: u32 = 9;

/// Why a source doesn't match a name.
pub const MISMATCH_NO_SOURCE: u32 = 1;
pub const MISMATCH_PREFIX: u32 = 2;
pub const MISMATCH_SUFFIX: u32 = 3;
pub const MISMATCH_OVERLAP: u32 = 4;
pub const MISMATCH_OTHER_NAME: u32 = 5;
pub const MISMATCH_OBJECT: u32 = 6;
pub const MISMATCH_NO_CANDIDATE: u32 = 7;
pub const MISMATCH_EARLIER_CANDIDATE: u32 = 8;

/// The kinds of upstreams.
pub const TRACKED: u32 = 1;
pub const EXCLUDED: u32 = 2;
pub const NOT_STORED: u32 = 3;
pub const NOT_FETCHED: u32 = 4;

/// The values of `remote.<name>.fetch` that Git writes, and those for reviews.
pub const BRANCH: u32 = 1;
pub const MIRROR: u32 = 2;
pub const PULL_REQUESTS: u32 = 3;
pub const MERGE_REQUESTS: u32 = 4;

/// What becomes of a mapping that is validated.
pub const PAIR_KEPT: u32 = 1;
pub const PAIR_REMOVED: u32 = 2;
pub const PAIR_IN_CONFLICT: u32 = 3;

/// The item of an object requested by its id; and no item, of an effect that no other name decides.
pub const NO_ITEM: usize = usize::MAX;
/// The first mapping to a destination that isn't in conflict.
pub const NO_PAIR: usize = usize::MAX;
/// No spec: of `DEFAULT`, `ALL_TAGS`, a stale ref that nothing keeps, and an upstream that isn't fetched or excluded.
pub const NO_SPEC: usize = usize::MAX;

/// A text. The pointer may be null if the length is 0.
#[repr(C)]
#[derive(Clone, Copy, Debug)]
pub struct Text {
    pub bytes: *const u8,
    pub len: usize,
}

/// What a refspec says to do. A missing side is empty; a present one never is.
#[repr(C)]
#[derive(Clone, Copy, Debug)]
pub struct Parts {
    pub kind: u32,
    pub forced: u32,
    pub source: Text,
    pub destination: Text,
}

/// The mode of a refspec and its sides. A missing side is empty; a present one never is.
#[repr(C)]
#[derive(Clone, Copy, Debug)]
pub struct Sides {
    pub mode: u32,
    pub has_source: u32,
    pub has_destination: u32,
    pub source: Text,
    pub destination: Text,
}

/// The wrong bytes of a refused text. If no bytes are wrong, all fields are 0.
#[repr(C)]
#[derive(Clone, Copy, Debug, Default)]
pub struct Span {
    pub side: u32,
    pub start: usize,
    pub len: usize,
}

/// The text of a refspec, and its operation.
#[repr(C)]
#[derive(Clone, Copy, Debug)]
pub struct Spec {
    pub text: Text,
    pub operation: u32,
}

/// A ref, and the digits of its ids; a text is empty where there is no id, or none is known.
#[repr(C)]
#[derive(Clone, Copy, Debug)]
pub struct Ref {
    pub name: Text,
    pub target: Text,
    pub object: Text,
}

/// What a refspec makes of a name. The name that it makes is in the buffer.
#[repr(C)]
#[derive(Clone, Copy, Debug, Default)]
pub struct Made {
    pub mapped: u32,
    pub has_destination: u32,
    pub len: usize,
}

/// What to fetch. `merges`: full names, or `HEAD`. `tags`: nonzero to fetch all tags.
#[repr(C)]
#[derive(Clone, Copy, Debug)]
pub struct Wish {
    pub given: *const Text,
    pub given_count: usize,
    pub configured: *const Text,
    pub configured_count: usize,
    pub merges: *const Text,
    pub merges_count: usize,
    pub tags: u32,
}

/// A mapping, or an update of a plan. Its offsets are into the buffer.
#[repr(C)]
#[derive(Clone, Copy, Debug, Default)]
pub struct Mapping {
    pub spec: usize,
    pub item: usize,
    pub has_destination: u32,
    pub forced: u32,
    pub origin: u32,
    pub verdict: u32,
    pub id_at: usize,
    pub id_len: usize,
    pub made_at: usize,
    pub made_len: usize,
}

/// A local ref that looks stale.
#[repr(C)]
#[derive(Clone, Copy, Debug, Default)]
pub struct StaleRef {
    pub item: usize,
    pub kept_by: usize,
}

/// What a spec does with a ref. The destination is in the buffer.
#[repr(C)]
#[derive(Clone, Copy, Debug, Default)]
pub struct Effect {
    pub fate: u32,
    pub mismatch: u32,
    pub has_destination: u32,
    pub has_word: u32,
    pub spec: usize,
    pub item: usize,
    pub count: usize,
    pub word_at: usize,
    pub word_len: usize,
    pub made_at: usize,
    pub made_len: usize,
}

/// The upstream of a branch, or why it has none. The name of the tracking ref is in the buffer.
#[repr(C)]
#[derive(Clone, Copy, Debug, Default)]
pub struct UpstreamRef {
    pub kind: u32,
    pub spec: usize,
    pub excluded_by: usize,
    pub len: usize,
}

/// A mapping to validate. `source_is_id` and `has_destination`: any number but 0 is yes.
#[repr(C)]
#[derive(Clone, Copy, Debug)]
pub struct Pair {
    pub source: Text,
    pub destination: Text,
    pub source_is_id: u32,
    pub has_destination: u32,
}

/// What becomes of it; in a conflict with the index of the first mapping to its destination.
#[repr(C)]
#[derive(Clone, Copy, Debug, Default)]
pub struct PairVerdict {
    pub verdict: u32,
    pub first: usize,
}

// What is read and what is written are in lines of their own.
#[rustfmt::skip]
extern "C" {
    pub fn gix_refspec_version(version: *mut Text) -> u32;
    pub fn gix_refspec_check(text: *const u8, text_len: usize, operation: u32) -> u32;
    pub fn gix_refspec_locate(text: *const u8, text_len: usize, operation: u32, span: *mut Span) -> u32;
    pub fn gix_refspec_parts(text: *const u8, text_len: usize, operation: u32, parts: *mut Parts) -> u32;
    pub fn gix_refspec_read(text: *const u8, text_len: usize, operation: u32, sides: *mut Sides) -> u32;
    pub fn gix_refspec_print(parts: *const Parts, buffer: *mut u8, buffer_len: usize, len: *mut usize) -> u32;
    pub fn gix_refspec_from_parts(
        sides: *const Sides, operation: u32,
        buffer: *mut u8, buffer_len: usize, len: *mut usize,
    ) -> u32;
    pub fn gix_refspec_canonical(
        text: *const u8, text_len: usize, operation: u32,
        buffer: *mut u8, buffer_len: usize, len: *mut usize,
    ) -> u32;
    pub fn gix_refspec_compare(
        a: *const u8, a_len: usize, b: *const u8, b_len: usize, operation: u32,
        order: *mut i32,
    ) -> u32;
    pub fn gix_refspec_map(
        text: *const u8, text_len: usize, operation: u32, name: *const u8, name_len: usize,
        buffer: *mut u8, buffer_len: usize, made: *mut Made,
    ) -> u32;
    pub fn gix_refspec_map_back(
        text: *const u8, text_len: usize, operation: u32, name: *const u8, name_len: usize,
        buffer: *mut u8, buffer_len: usize, made: *mut Made,
    ) -> u32;
    pub fn gix_refspec_prefix(text: *const u8, text_len: usize, operation: u32, prefix: *mut Text) -> u32;
    pub fn gix_refspec_expand_prefixes(
        text: *const u8, text_len: usize, operation: u32,
        buffer: *mut u8, buffer_len: usize, len: *mut usize,
    ) -> u32;
    pub fn gix_refspec_prefixes(
        texts: *const Text, count: usize, operation: u32,
        buffer: *mut u8, buffer_len: usize, len: *mut usize,
    ) -> u32;
    pub fn gix_refspec_match(
        texts: *const Text, texts_count: usize, names: *const Text, names_count: usize, direction: u32,
        mappings: *mut Mapping, mappings_count: usize, buffer: *mut u8, buffer_len: usize,
        count: *mut usize, len: *mut usize,
    ) -> u32;
    pub fn gix_refspec_match_refs(
        specs: *const Spec, specs_count: usize, refs: *const Ref, refs_count: usize, direction: u32,
        mappings: *mut Mapping, mappings_count: usize, buffer: *mut u8, buffer_len: usize,
        count: *mut usize, len: *mut usize,
    ) -> u32;
    pub fn gix_refspec_plan(
        wish: *const Wish, names: *const Text, names_count: usize,
        mappings: *mut Mapping, mappings_count: usize, buffer: *mut u8, buffer_len: usize,
        count: *mut usize, len: *mut usize,
    ) -> u32;
    pub fn gix_refspec_stale(
        texts: *const Text, texts_count: usize, remote: *const Text, remote_count: usize,
        local: *const Text, local_count: usize,
        stale: *mut StaleRef, stale_count: usize, count: *mut usize,
    ) -> u32;
    pub fn gix_refspec_validate(
        pairs: *const Pair, pairs_count: usize,
        verdicts: *mut PairVerdict, verdicts_count: usize,
    ) -> u32;
    pub fn gix_refspec_why(
        texts: *const Text, texts_count: usize, names: *const Text, names_count: usize,
        name: *const u8, name_len: usize,
        effects: *mut Effect, effects_count: usize, buffer: *mut u8, buffer_len: usize, item: *mut usize, len: *mut usize,
    ) -> u32;
    pub fn gix_refspec_upstream(
        texts: *const Text, count: usize, merge: *const u8, merge_len: usize,
        buffer: *mut u8, buffer_len: usize, upstream: *mut UpstreamRef,
    ) -> u32;
    pub fn gix_refspec_prefetched(
        text: *const u8, text_len: usize,
        buffer: *mut u8, buffer_len: usize, len: *mut usize,
    ) -> u32;
    pub fn gix_refspec_renamed(
        value: *const u8, value_len: usize, old_name: *const u8, old_name_len: usize,
        new_name: *const u8, new_name_len: usize,
        buffer: *mut u8, buffer_len: usize, len: *mut usize,
    ) -> u32;
    pub fn gix_refspec_remote_value(
        value: u32, remote: *const u8, remote_len: usize, branch: *const u8, branch_len: usize,
        buffer: *mut u8, buffer_len: usize, len: *mut usize,
    ) -> u32;
    pub fn gix_refspec_explanation(outcome: u32, sentence: *mut Text) -> u32;
}
