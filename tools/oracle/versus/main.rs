//! Compares the archive for C with the original crate in one process, by inputs of a seed:
//!
//!     versus [--texts N] [--groups N] [--seed S] [--jobs J]
//!     versus --seed S --text NUMBER | --group NUMBER      # one input of these
//!
//! Of a text both operations are compared: check, where it is wrong, the canonical text, the parts, prefix and expansion, the order
//! to another text, and what it makes of a name in both directions. Of a group the mappings in both directions, and what a plan
//! makes of them and the validation of mappings with what the original's does. A difference that isn't of the kinds of `known.py` ends the run with
//! status 1, and its input is shrunk to one that has no smaller one of such a difference.
mod answers;
mod archive;
mod chance;
mod groups;
mod inputs;
mod kinds; // made by build.sh
mod known;
mod original;
mod texts;

use inputs::{Group, Inputs};
use known::Kinds;
use std::collections::BTreeMap;
use std::fmt::Debug;
use std::process::exit;
use std::sync::atomic::{AtomicU64, Ordering};
use std::sync::Mutex;
use std::thread;

/// So many inputs are taken at a time.
const SHARE: u64 = 1_000;

/// An error if two answers differ, which tells of what they are.
fn differs<T: PartialEq + Debug>(what: &str, ours: T, theirs: T) -> Result<(), String> {
    match ours == theirs {
        true => Ok(()),
        false => Err(format!("{what}: {ours:?}, and not {theirs:?}")),
    }
}

/// What is compared.
#[derive(Clone, Copy)]
struct Work {
    what: &'static str,
    input: fn(&Inputs, u64, u64) -> Group,
    compare: fn(&Group) -> Result<Kinds, String>,
}

const TEXTS: Work = Work { what: "text", input: Inputs::text, compare: texts::compare };
const GROUPS: Work = Work { what: "group", input: Inputs::group, compare: groups::compare };

struct Options {
    texts: u64,
    groups: u64,
    seed: u64,
    jobs: u64,
    only: Option<(Work, u64)>,
}

fn options() -> Option<Options> {
    let mut options = Options { texts: 200_000, groups: 20_000, seed: 1, jobs: 2, only: None };
    let mut words = std::env::args().skip(1);
    while let Some(word) = words.next() {
        let number = words.next()?.parse().ok()?;
        match word.as_str() {
            "--texts" => options.texts = number,
            "--groups" => options.groups = number,
            "--seed" => options.seed = number,
            "--jobs" => options.jobs = number,
            "--text" => options.only = Some((TEXTS, number)),
            "--group" => options.only = Some((GROUPS, number)),
            _ => return None,
        }
    }
    Some(options)
}

fn shown(list: &[Vec<u8>]) -> String {
    list.iter().map(|text| format!("\"{}\"", text.escape_ascii())).collect::<Vec<_>>().join(" ")
}

/// Ends with what differs, and with the smallest input of it.
fn fail(work: Work, number: u64, seed: u64, mut input: Group, mut what: String) -> ! {
    let class = |what: &str| what.split(':').next().unwrap_or("").to_owned();
    eprintln!("versus: {} {number} of seed {seed}: {} .. {}: {what}", work.what, shown(&input.specs), shown(&input.names));
    let wanted = class(&what);
    loop {
        let smaller = inputs::smaller_groups(&input).find_map(|group| match (work.compare)(&group) {
            Err(other) if class(&other) == wanted => Some((group, other)),
            _ => None,
        });
        match smaller {
            Some(found) => (input, what) = found,
            None => break,
        }
    }
    eprintln!("versus: the smallest: {} .. {}: {what}", shown(&input.specs), shown(&input.names));
    exit(1)
}

fn compare_one(inputs: &Inputs, work: Work, seed: u64, number: u64) -> Kinds {
    let input = (work.input)(inputs, seed, number);
    (work.compare)(&input).unwrap_or_else(|what| fail(work, number, seed, input, what))
}

/// Compares so many inputs, and counts the kinds by which they differ.
fn compare_all(inputs: &Inputs, work: Work, count: u64, options: &Options) {
    let (next, counts) = (AtomicU64::new(0), Mutex::new(BTreeMap::<_, u64>::new()));
    thread::scope(|scope| {
        for _ in 0..options.jobs {
            scope.spawn(|| loop {
                let first = next.fetch_add(SHARE, Ordering::Relaxed);
                if first >= count {
                    break;
                }
                let numbers = first..count.min(first + SHARE);
                let found: Vec<_> = numbers.flat_map(|number| compare_one(inputs, work, options.seed, number)).collect();
                let mut counts = counts.lock().expect("no thread panics");
                found.into_iter().for_each(|kind| *counts.entry(kind).or_default() += 1);
            });
        }
    });
    let counts = counts.into_inner().expect("no thread panics");
    let known: Vec<_> = counts.iter().map(|(kind, count)| format!("{count} times {kind}")).collect();
    let known = if known.is_empty() { "none".into() } else { known.join(", ") };
    println!("versus: {count} {}s of seed {}; known differences: {known}", work.what, options.seed);
}

fn main() {
    let Some(options) = options() else {
        eprintln!("usage: versus [--texts N] [--groups N] [--seed S] [--jobs J] [--text NUMBER | --group NUMBER]");
        exit(2);
    };
    std::panic::set_hook(Box::new(|panic| {
        // Those of the original are caught, and compared.
        let is_caught = |file: &str| file.contains("gix-refspec") || file.contains("bstr");
        if !panic.location().is_some_and(|place| is_caught(place.file())) {
            eprintln!("{panic}");
        }
    }));
    let inputs = Inputs::new();
    if let Some((work, number)) = options.only {
        println!("versus: known differences: {:?}", compare_one(&inputs, work, options.seed, number));
        return;
    }
    compare_all(&inputs, TEXTS, options.texts, &options);
    compare_all(&inputs, GROUPS, options.groups, &options);
}
