//! Times what a user of the crate gix-refspec does, the original or the one of bindings/rust: `crate_bench [RUNS]`
//! prints for each row the median of the CPU times in microseconds, and by how much a run raises the peak of the
//! resident memory, in kB. For Linux.
use std::hint::black_box;

use gix_hash::ObjectId;
use gix_refspec::match_group::Item;
use gix_refspec::parse::Operation;
use gix_refspec::{parse, MatchGroup, RefSpecRef};

#[repr(C)]
struct Time {
    seconds: i64,
    nanoseconds: i64,
}

extern "C" {
    fn clock_gettime(clock: i32, time: *mut Time) -> i32;
}

/// The CPU time of the process, in microseconds.
fn time() -> i64 {
    let mut time = Time { seconds: 0, nanoseconds: 0 };
    // SAFETY: the struct is that of C on Linux with 64 bits, and clock 2 is that of the process.
    unsafe { clock_gettime(2, &mut time) };
    time.seconds * 1_000_000 + time.nanoseconds / 1000
}

/// A line of /proc/self/status, in kB.
fn status(name: &str) -> usize {
    let status = std::fs::read_to_string("/proc/self/status").expect("Linux");
    let line = status.lines().find(|line| line.starts_with(name)).expect(name);
    line.split_whitespace().nth(1).expect(name).parse().expect(name)
}

fn row<T>(runs: usize, name: &str, call: impl Fn() -> T) {
    // Sets the peak to what is resident now.
    std::fs::write("/proc/self/clear_refs", "5").expect("Linux");
    let before = status("VmRSS");
    drop(black_box(call()));
    let peak = status("VmHWM").saturating_sub(before);
    let mut times = Vec::with_capacity(runs);
    for _ in 0..runs {
        let start = time();
        let value = black_box(call());
        times.push(time() - start);
        drop(value);
    }
    times.sort_unstable();
    println!("{name}\t{}\t{peak}", times[runs / 2]);
}

fn main() {
    let runs = std::env::args().nth(1).map_or(25, |word| word.parse().expect("a number"));
    let texts: Vec<String> =
        (0..10_000).map(|n| format!("+refs/heads/topic-{n}:refs/remotes/origin/topic-{n}")).collect();
    let names: Vec<String> = (0..100_000).map(|n| format!("refs/heads/feature/number-{n}")).collect();
    let id = ObjectId::from_hex(&[b'1'; 40]).expect("an id");
    let items: Vec<Item<'_>> =
        names.iter().map(|name| Item { full_ref_name: name.as_str().into(), target: &id, object: None }).collect();
    let read = |text: &'static str| parse(text.into(), Operation::Fetch).expect("a refspec");
    let pattern = read("+refs/heads/*:refs/remotes/origin/*");
    let specs: Vec<RefSpecRef<'_>> =
        texts.iter().map(|text| parse(text.as_str().into(), Operation::Fetch).expect("a refspec")).collect();
    let group = || MatchGroup { specs: vec![pattern] };

    row(runs, "one pattern, 100,000 refs", || group().match_lhs(items.iter().copied()).mappings);
    row(runs, "one pattern, 100,000 refs, validated", || group().match_lhs(items.iter().copied()).validated());
    row(runs, "one spec, one name, 10,000 times", || {
        let one = |n: usize| group().match_lhs(items[n..=n].iter().copied()).mappings.len();
        (0..10_000).map(one).sum::<usize>()
    });
    row(runs, "parse of 10,000 specs", || {
        texts.iter().filter(|text| parse(text.as_str().into(), Operation::Fetch).is_ok()).count()
    });
    row(runs, "print of 10,000 specs", || specs.iter().map(|spec| spec.to_bstring().len()).sum::<usize>());
    row(runs, "== and cmp of 10,000 pairs", || {
        specs.windows(2).filter(|pair| pair[0] == pair[1] || pair[0] < pair[1]).count()
    });
}
