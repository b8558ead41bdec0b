//! Runs a program, and prints the most memory that it had resident, in KiB.
//!
//!     peak PROGRAM WORD..
//!
//! A started program counts what was resident where it was started. So that has to be a small program.

use std::process::{Command, Stdio};

#[repr(C)]
#[derive(Default)]
struct Usage {
    times: [i64; 4],
    most_resident: i64,
    others: [i64; 13],
}

extern "C" {
    fn getrusage(whose: i32, usage: &mut Usage) -> i32;
}

fn main() {
    const CHILDREN: i32 = -1; // of Linux
    let mut words = std::env::args().skip(1);
    let program = words.next().expect("usage: peak PROGRAM WORD..");
    Command::new(program).args(words).stdout(Stdio::null()).status().expect("a program that starts");
    let mut usage = Usage::default();
    // SAFETY: the place for the usage is lent for the call.
    assert_eq!(unsafe { getrusage(CHILDREN, &mut usage) }, 0);
    println!("{}", usage.most_resident);
}
