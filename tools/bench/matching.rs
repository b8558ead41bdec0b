//! Times parsing, matching and validation in this process: the library, behind the archive of
//! `gix_refspec_bench`, and the original crate, in turns on the same specs and names. `tools/bench/bench.py`
//! builds it, and once more with `--cfg counting`, to count memory instead.
//!
//!     matching WORK SPECS NAMES TIMES RUNS
//!
//! WORK is `match`, from left to right, `reverse`, which matches from right to left, or `validate`. SPECS and NAMES are
//! files with a fetch spec or the name of a ref in each line. WORK may also be `parse`, which parses the specs, or
//! `print`, which prints them too; these may be refused ones, and the file NAMES holds their operation. A run is a line of two numbers, for the library and for the original: the processor
//! time of one matching in nanoseconds, its result released, or what a validation adds to it; or
//! where memory is counted the most bytes that were held at once by one matching, with or without
//! its validation, and then how many results there were. Where RUNS is `ours` or `theirs`, that side
//! does the work TIMES times, its validation with the matching, and nothing is printed: so that
//! instructions can be counted.

use bstr::ByteSlice;
use gix_hash::{Kind, ObjectId};
use gix_refspec::match_group::Item;
use gix_refspec::parse::Operation;
use gix_refspec::MatchGroup;

extern "C" {
    /// What the library does: the work of a word on specs and names, how often, and where to put the count.
    fn gix_refspec_bench(
        work: *const u8, work_len: usize, specs: *const u8, specs_len: usize, names: *const u8, names_len: usize, times: usize,
        count: &mut usize,
    ) -> u8;
}

#[cfg(not(counting))]
extern "C" {
    fn clock_gettime(clock: i32, time: &mut [i64; 2]) -> i32;
}

/// What either of the two does, and then how many results there were in all.
type Work = fn(&[u8], &[u8], usize) -> usize;

/// The work of the library, and that of the original.
type Both = [Work; 2];

const MATCH: Both = [|specs, names, times| ours("match", specs, names, times), their_matching];
const REVERSE: Both = [|specs, names, times| ours("reverse", specs, names, times), their_reverse];
const PLAN: Both = [|specs, names, times| ours("validate", specs, names, times), their_plan];
const PARSE: Both = [|specs, names, times| ours("parse", specs, names, times), their_parsing];
const PRINT: Both = [|specs, names, times| ours("print", specs, names, times), their_printing];

/// The work that a word names.
fn named(work: &str) -> Both {
    match work {
        "match" => MATCH,
        "reverse" => REVERSE,
        "validate" => PLAN,
        "parse" => PARSE,
        "print" => PRINT,
        _ => panic!("matching: no work is named {work}"),
    }
}

fn ours(work: &str, specs: &[u8], names: &[u8], times: usize) -> usize {
    let mut count = 0;
    // SAFETY: the texts and the count are lent for the call, and don't overlap.
    let status = unsafe {
        gix_refspec_bench(
            work.as_ptr(), work.len(), specs.as_ptr(), specs.len(), names.as_ptr(), names.len(), times, &mut count,
        )
    };
    assert_eq!(status, 0, "the library refused a spec, or had no memory");
    count
}

/// The operation of a word.
fn operation_of(word: &[u8]) -> Operation {
    if word == b"push" { Operation::Push } else { Operation::Fetch }
}

/// The specs of the lines, as the library reads them.
fn group_of(specs: &[u8]) -> MatchGroup<'_> {
    let parsed = specs.split(|b| *b == b'\n').map(|line| gix_refspec::parse(line.as_bstr(), Operation::Fetch));
    MatchGroup::from_fetch_specs(parsed.map(|spec| spec.expect("a spec for a fetch")))
}

/// A ref for each line, as the library makes them.
fn items_of<'a>(names: &'a [u8], target: &'a ObjectId) -> Vec<Item<'a>> {
    let mut items = Vec::with_capacity(names.split(|b| *b == b'\n').count());
    for name in names.split(|b| *b == b'\n') {
        items.push(Item { full_ref_name: name.as_bstr(), target, object: None });
    }
    items
}

/// The same work in the same steps as that of the library: `once` does it with a group that it hands back, and counts.
fn theirs<F>(specs: &[u8], names: &[u8], times: usize, once: F) -> usize
where
    F: for<'a> Fn(MatchGroup<'a>, &[Item<'_>]) -> (MatchGroup<'a>, usize),
{
    let mut group = group_of(specs);
    let target: ObjectId = Kind::Sha1.null();
    let items = items_of(names, &target);
    let mut count = 0;
    for _ in 0..times {
        let (back, found) = once(group, &items);
        group = back;
        count += found;
    }
    count
}

fn their_matching(specs: &[u8], names: &[u8], times: usize) -> usize {
    theirs(specs, names, times, |group, items| {
        let outcome = group.match_lhs(items.iter().copied());
        (outcome.group, outcome.mappings.len())
    })
}

/// Likewise, from right to left.
fn their_reverse(specs: &[u8], names: &[u8], times: usize) -> usize {
    theirs(specs, names, times, |group, items| {
        let outcome = group.match_rhs(items.iter().copied());
        (outcome.group, outcome.mappings.len())
    })
}

/// Likewise.
fn their_plan(specs: &[u8], names: &[u8], times: usize) -> usize {
    theirs(specs, names, times, |group, items| {
        let found = match group.clone().match_lhs(items.iter().copied()).validated() {
            Ok((outcome, fixes)) => outcome.mappings.len() + fixes.len(),
            Err(error) => error.issues.len(),
        };
        (group, found)
    })
}

/// Likewise.
fn their_parsing(specs: &[u8], operation: &[u8], times: usize) -> usize {
    let lines: Vec<&[u8]> = specs.split(|b| *b == b'\n').collect();
    let operation = operation_of(operation);
    let parsed = |line: &&[u8]| gix_refspec::parse(line.as_bstr(), operation).is_ok();
    (0..times).map(|_| lines.iter().filter(|line| parsed(line)).count()).sum()
}

/// Likewise.
fn their_printing(specs: &[u8], operation: &[u8], times: usize) -> usize {
    let lines: Vec<&[u8]> = specs.split(|b| *b == b'\n').collect();
    let operation = operation_of(operation);
    let printed = |line: &&[u8]| match gix_refspec::parse(line.as_bstr(), operation) {
        Ok(spec) => spec.to_bstring().len(),
        Err(_) => 0,
    };
    (0..times).map(|_| lines.iter().map(printed).sum::<usize>()).sum()
}

#[cfg(not(counting))]
mod measure {
    use super::{clock_gettime, named, Both, Work, MATCH};

    /// The processor time of this thread, in nanoseconds.
    fn now() -> i64 {
        const THREAD_CLOCK: i32 = 3; // of Linux
        let mut time = [0; 2];
        // SAFETY: the place for the seconds and nanoseconds is lent for the call.
        assert_eq!(unsafe { clock_gettime(THREAD_CLOCK, &mut time) }, 0);
        time[0] * 1_000_000_000 + time[1]
    }

    fn taken(work: Work, specs: &[u8], names: &[u8], times: usize) -> i64 {
        let began = now();
        std::hint::black_box(work(specs, names, times));
        now() - began
    }

    /// What one time of the work takes, without the reading of the texts.
    fn one(work: Work, specs: &[u8], names: &[u8], times: usize) -> i64 {
        let reading = taken(work, specs, names, 0);
        (taken(work, specs, names, times) - reading) / times as i64
    }

    fn in_turns(works: Both, specs: &[u8], names: &[u8], times: usize, number: usize) -> [i64; 2] {
        let mut took = [0; 2];
        for side in if number % 2 == 0 { [0, 1] } else { [1, 0] } {
            took[side] = one(works[side], specs, names, times);
        }
        took
    }

    pub fn run(work: &str, specs: &[u8], names: &[u8], times: usize, number: usize) {
        let mut took = in_turns(named(work), specs, names, times, number);
        if work == "validate" {
            let matching = in_turns(MATCH, specs, names, times, number);
            took = [took[0] - matching[0], took[1] - matching[1]];
        }
        println!("{} {}", took[0], took[1]);
    }
}

#[cfg(counting)]
mod measure {
    use super::{named, Work};
    use std::alloc::{GlobalAlloc, Layout, System};
    use std::sync::atomic::{AtomicUsize, Ordering::Relaxed};

    static LIVE: AtomicUsize = AtomicUsize::new(0);
    static MOST: AtomicUsize = AtomicUsize::new(0);

    fn grown(size: usize) {
        MOST.fetch_max(LIVE.fetch_add(size, Relaxed) + size, Relaxed);
    }

    struct Counting;

    #[global_allocator]
    static COUNTING: Counting = Counting;

    // SAFETY: the calls are those of the system's allocator.
    unsafe impl GlobalAlloc for Counting {
        unsafe fn alloc(&self, layout: Layout) -> *mut u8 {
            grown(layout.size());
            unsafe { System.alloc(layout) }
        }
        unsafe fn dealloc(&self, block: *mut u8, layout: Layout) {
            LIVE.fetch_sub(layout.size(), Relaxed);
            unsafe { System.dealloc(block, layout) }
        }
        unsafe fn realloc(&self, block: *mut u8, layout: Layout, size: usize) -> *mut u8 {
            LIVE.fetch_sub(layout.size(), Relaxed);
            grown(size);
            unsafe { System.realloc(block, layout, size) }
        }
    }

    /// The answer of the three calls that the library allocates by.
    #[repr(C)]
    pub struct Tried {
        ok: usize,
        block: *mut u8,
    }

    /// Each block of the library begins with its size, in as many bytes as keep it aligned.
    const HEAD: usize = 16;

    fn layout(size: usize) -> Layout {
        Layout::from_size_align(size + HEAD, HEAD).expect("a size below 2 ^ 63")
    }

    fn tried(block: *mut u8, size: usize) -> Tried {
        assert!(!block.is_null());
        // SAFETY: the block has room for its head.
        unsafe { block.cast::<usize>().write(size) };
        Tried { ok: 1, block: block.wrapping_add(HEAD) }
    }

    #[no_mangle]
    pub unsafe extern "C" fn rattle_alloc(size: usize, _align: usize) -> Tried {
        grown(size);
        tried(unsafe { System.alloc(layout(size)) }, size)
    }

    #[no_mangle]
    pub unsafe extern "C" fn rattle_realloc(block: *mut u8, _kept: usize, size: usize, _align: usize) -> Tried {
        let head = block.wrapping_sub(HEAD);
        let old = unsafe { head.cast::<usize>().read() };
        LIVE.fetch_sub(old, Relaxed);
        grown(size);
        tried(unsafe { System.realloc(head, layout(old), size + HEAD) }, size)
    }

    #[no_mangle]
    pub unsafe extern "C" fn rattle_dealloc(block: *mut u8) {
        let head = block.wrapping_sub(HEAD);
        let size = unsafe { head.cast::<usize>().read() };
        LIVE.fetch_sub(size, Relaxed);
        unsafe { System.dealloc(head, layout(size)) }
    }

    /// The most bytes that were held at once beyond those held at first.
    fn most(work: Work, specs: &[u8], names: &[u8], times: usize) -> (usize, usize) {
        let first = LIVE.load(Relaxed);
        MOST.store(first, Relaxed);
        let count = work(specs, names, times);
        (MOST.load(Relaxed) - first, count)
    }

    pub fn run(work: &str, specs: &[u8], names: &[u8], _times: usize, _number: usize) {
        for work in named(work) {
            let (reading, _) = most(work, specs, names, 0);
            let (all, count) = most(work, specs, names, 1);
            print!("{} {count} ", all - reading);
        }
        println!();
    }
}

/// The lines of a file, without the newline at its end.
fn lines(path: &str) -> Vec<u8> {
    let mut text = std::fs::read(path).expect("a file that can be read");
    while text.last() == Some(&b'\n') {
        text.pop();
    }
    text
}

fn main() {
    let words: Vec<String> = std::env::args().collect();
    let [_, work, specs, names, times, runs] = &words[..] else {
        panic!("usage: matching WORK SPECS NAMES TIMES RUNS")
    };
    let (specs, names) = (lines(specs), lines(names));
    let times = times.parse().expect("a number of times");
    match &runs[..] {
        "ours" | "theirs" => {
            let side = usize::from(runs == "theirs");
            std::hint::black_box(named(work)[side](&specs, &names, times));
        }
        _ => {
            for number in 0..runs.parse().expect("a number of runs, `ours` or `theirs`") {
                measure::run(work, &specs, &names, times, number);
            }
        }
    }
}
