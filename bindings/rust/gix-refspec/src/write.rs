//! Canonical texts.
use std::io;

use bstr::BString;
use gix_refspec_sys::{self as sys, calls};

use crate::{
    answered,
    instruction::{Fetch, Push},
    Instruction, RefSpecRef,
};

impl RefSpecRef<'_> {
    /// The canonical text, which parses as an equal spec.
    ///
    /// ```
    /// use gix_refspec::parse::Operation;
    ///
    /// let spec = gix_refspec::parse("main".into(), Operation::Push).unwrap();
    /// assert_eq!(spec.to_bstring(), "main:main");
    /// ```
    pub fn to_bstring(&self) -> BString {
        self.instruction().to_bstring()
    }

    /// Writes the canonical text, by one call of `write_all`.
    ///
    /// ```
    /// use gix_refspec::parse::Operation;
    ///
    /// let mut out = Vec::new();
    /// gix_refspec::parse("+:d".into(), Operation::Push).unwrap().write_to(&mut out).unwrap();
    /// assert_eq!(out, b":d");
    /// ```
    pub fn write_to(&self, out: &mut dyn io::Write) -> io::Result<()> {
        self.instruction().write_to(out)
    }
}

impl Instruction<'_> {
    /// The canonical text. That of an instruction made by hand may not parse.
    ///
    /// ```
    /// use gix_refspec::{instruction::Push, Instruction};
    ///
    /// let delete = Instruction::Push(Push::Delete { ref_or_pattern: "refs/heads/*".into() });
    /// assert_eq!(delete.to_bstring(), ":refs/heads/*");
    /// ```
    pub fn to_bstring(&self) -> BString {
        answered(calls::print(&self.parts())).into()
    }

    /// Writes the canonical text, by one call of `write_all`.
    ///
    /// ```
    /// use gix_refspec::{instruction::Fetch, Instruction};
    ///
    /// let mut out = Vec::new();
    /// Instruction::Fetch(Fetch::Only { src: "HEAD".into() }).write_to(&mut out).unwrap();
    /// assert_eq!(out, b"HEAD");
    /// ```
    pub fn write_to(&self, out: &mut dyn io::Write) -> io::Result<()> {
        out.write_all(&self.to_bstring())
    }

    fn parts(&self) -> calls::Parts<'_> {
        let of = |kind, forced, source, destination| calls::Parts { kind, forced, source, destination };
        match *self {
            Instruction::Push(Push::AllMatchingBranches { allow_non_fast_forward: forced }) => {
                of(sys::PUSH_ALL_MATCHING, forced, b"", b"")
            }
            Instruction::Push(Push::Delete { ref_or_pattern }) => of(sys::PUSH_DELETE, false, b"", ref_or_pattern),
            Instruction::Push(Push::Matching { src, dst, allow_non_fast_forward }) => {
                of(sys::PUSH_MATCHING, allow_non_fast_forward, src, dst)
            }
            Instruction::Push(Push::Exclude { src }) => of(sys::PUSH_EXCLUDE, false, src, b""),
            Instruction::Fetch(Fetch::Only { src }) => of(sys::FETCH_ONLY, false, src, b""),
            Instruction::Fetch(Fetch::Exclude { src }) => of(sys::FETCH_EXCLUDE, false, src, b""),
            Instruction::Fetch(Fetch::AndUpdate { src, dst, allow_non_fast_forward }) => {
                of(sys::FETCH_AND_UPDATE, allow_non_fast_forward, src, dst)
            }
        }
    }
}
