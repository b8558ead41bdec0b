//! What a refspec says, and what it asks a remote for.
use std::{
    cmp::Ordering,
    hash::{Hash, Hasher},
};

use bstr::{BStr, BString, ByteSlice};
use gix_refspec_sys::calls;

use crate::{
    answered,
    instruction::{Fetch, Push},
    parse::{function::number_of, Operation},
    types::Mode,
    Instruction, RefSpec, RefSpecRef,
};

impl RefSpec {
    /// The same spec, borrowed from this one.
    ///
    /// ```
    /// use gix_refspec::parse::Operation;
    ///
    /// let owned = gix_refspec::parse("a:b".into(), Operation::Fetch).unwrap().to_owned();
    /// assert_eq!(owned.to_ref().to_bstring(), "a:b");
    /// ```
    pub fn to_ref(&self) -> RefSpecRef<'_> {
        RefSpecRef {
            text: self.text.as_bstr(),
            op: self.op,
            mode: self.mode,
            src: self.src.as_ref().map(|side| side.as_bstr()),
            dst: self.dst.as_ref().map(|side| side.as_bstr()),
        }
    }

    /// Whether the text begins with `+`.
    ///
    /// ```
    /// use gix_refspec::parse::Operation;
    ///
    /// let owned = gix_refspec::parse("+a".into(), Operation::Fetch).unwrap().to_owned();
    /// assert!(owned.allow_non_fast_forward());
    /// ```
    pub fn allow_non_fast_forward(&self) -> bool {
        self.mode == Mode::Force
    }
}

impl<'a> RefSpecRef<'a> {
    /// What is before the colon, with `HEAD` for a lone `@` and for the missing source of a fetch. `None` for a push
    /// that deletes a ref, or pushes all matching branches.
    ///
    /// ```
    /// use gix_refspec::parse::Operation;
    ///
    /// assert_eq!(gix_refspec::parse(":d".into(), Operation::Push).unwrap().source(), None);
    /// assert_eq!(gix_refspec::parse(":d".into(), Operation::Fetch).unwrap().source().unwrap(), "HEAD");
    /// ```
    pub fn source(&self) -> Option<&BStr> {
        self.src
    }

    /// What is after the colon. `None` if nothing is, so also for a push of `main`, though its destination is its
    /// source.
    ///
    /// ```
    /// use gix_refspec::parse::Operation;
    ///
    /// assert_eq!(gix_refspec::parse("main".into(), Operation::Push).unwrap().destination(), None);
    /// ```
    pub fn destination(&self) -> Option<&BStr> {
        self.dst
    }

    /// The side on the remote: the source of a fetch, the destination of a push.
    ///
    /// ```
    /// use gix_refspec::parse::Operation;
    ///
    /// assert_eq!(gix_refspec::parse("a:b".into(), Operation::Push).unwrap().remote().unwrap(), "b");
    /// ```
    pub fn remote(&self) -> Option<&BStr> {
        match self.op {
            Operation::Push => self.dst,
            Operation::Fetch => self.src,
        }
    }

    /// The local side: the destination of a fetch, the source of a push.
    ///
    /// ```
    /// use gix_refspec::parse::Operation;
    ///
    /// assert_eq!(gix_refspec::parse("a:b".into(), Operation::Push).unwrap().local().unwrap(), "a");
    /// ```
    pub fn local(&self) -> Option<&BStr> {
        match self.op {
            Operation::Push => self.src,
            Operation::Fetch => self.dst,
        }
    }

    /// The prefix of the names that the spec asks a remote for: a full name, `HEAD`, or what is before the star of a
    /// pattern below `refs/`. `None` for partial names, ids, negative specs, and pushes without a destination.
    ///
    /// ```
    /// use gix_refspec::parse::Operation;
    ///
    /// let prefix = |text: &'static str| {
    ///     gix_refspec::parse(text.into(), Operation::Fetch).unwrap().prefix().map(ToString::to_string)
    /// };
    /// assert_eq!(prefix("refs/heads/*:refs/x/*").as_deref(), Some("refs/heads/"));
    /// assert_eq!(prefix("main"), None);
    /// ```
    pub fn prefix(&self) -> Option<&BStr> {
        answered(calls::prefix(self.text, number_of(self.op))).map(ByteSlice::as_bstr)
    }

    /// Appends that prefix, or the six candidates of a partial name; nothing for an id, a negative spec, or a push
    /// without a destination.
    ///
    /// ```
    /// use gix_refspec::parse::Operation;
    ///
    /// let mut prefixes = Vec::new();
    /// gix_refspec::parse("main".into(), Operation::Fetch).unwrap().expand_prefixes(&mut prefixes);
    /// assert_eq!(prefixes.len(), 6);
    /// assert_eq!((&prefixes[0], &prefixes[5]), (&"main".into(), &"refs/remotes/main/HEAD".into()));
    /// ```
    pub fn expand_prefixes(&self, out: &mut Vec<BString>) {
        let lines = answered(calls::expand_prefixes(self.text, number_of(self.op)));
        out.extend(lines.lines().map(BString::from));
    }

    /// What the spec says to do.
    ///
    /// ```
    /// use gix_refspec::{instruction::Push, parse::Operation, Instruction};
    ///
    /// let spec = gix_refspec::parse("main".into(), Operation::Push).unwrap();
    /// let (src, dst) = ("main".into(), "main".into());
    /// assert_eq!(spec.instruction(), Instruction::Push(Push::Matching { src, dst, allow_non_fast_forward: false }));
    /// ```
    pub fn instruction(&self) -> Instruction<'a> {
        match self.op {
            Operation::Fetch => Instruction::Fetch(self.fetch()),
            Operation::Push => Instruction::Push(self.push()),
        }
    }

    fn fetch(&self) -> Fetch<'a> {
        // A fetch always has a source.
        let src = self.src.unwrap_or_default();
        match (self.mode, self.dst) {
            (Mode::Negative, _) => Fetch::Exclude { src },
            (_, None) => Fetch::Only { src },
            (mode, Some(dst)) => Fetch::AndUpdate { src, dst, allow_non_fast_forward: mode == Mode::Force },
        }
    }

    fn push(&self) -> Push<'a> {
        let allow_non_fast_forward = self.mode == Mode::Force;
        match (self.mode, self.src, self.dst) {
            (_, None, None) => Push::AllMatchingBranches { allow_non_fast_forward },
            (_, None, Some(dst)) => Push::Delete { ref_or_pattern: dst },
            (Mode::Negative, Some(src), _) => Push::Exclude { src },
            (_, Some(src), dst) => Push::Matching { src, dst: dst.unwrap_or(src), allow_non_fast_forward },
        }
    }

    pub(crate) fn operation(&self) -> Operation {
        self.op
    }

    pub(crate) fn text(&self) -> &'a BStr {
        self.text
    }

    /// The number of the operation.
    pub(crate) fn number(&self) -> u32 {
        number_of(self.op)
    }

    pub(crate) fn call(&self) -> calls::Spec<'a> {
        calls::Spec::new(self.text, self.number())
    }

    /// The source, if it is a full name, which a mapping borrows.
    pub(crate) fn full_source(&self) -> Option<&'a BStr> {
        self.src.filter(|side| is_full_name(side))
    }

    /// The destination, if it is a full name.
    pub(crate) fn full_destination(&self) -> Option<&'a BStr> {
        self.dst.filter(|side| is_full_name(side))
    }

    /// Whether the source may be an object id, by its length.
    pub(crate) fn may_fetch_id(&self) -> bool {
        self.src.map_or(false, |side| side.len() == 40 || side.len() == 64)
    }

    /// Whether the destination may be one.
    pub(crate) fn may_ask_for_id(&self) -> bool {
        self.dst.map_or(false, |side| side.len() == 40 || side.len() == 64)
    }
}

impl RefSpecRef<'_> {
    /// A copy that owns its text.
    ///
    /// ```
    /// use gix_refspec::{parse::Operation, RefSpec};
    ///
    /// let owned: RefSpec = gix_refspec::parse("a:b".into(), Operation::Fetch).unwrap().to_owned();
    /// assert_eq!(owned, owned.clone());
    /// ```
    pub fn to_owned(&self) -> RefSpec {
        RefSpec {
            text: self.text.to_owned(),
            op: self.op,
            mode: self.mode,
            src: self.src.map(BStr::to_owned),
            dst: self.dst.map(BStr::to_owned),
        }
    }
}

fn is_full_name(side: &BStr) -> bool {
    side.starts_with(b"refs/") && !side.contains(&b'*')
}

impl From<RefSpecRef<'_>> for RefSpec {
    fn from(spec: RefSpecRef<'_>) -> Self {
        spec.to_owned()
    }
}

impl Hash for RefSpec {
    fn hash<H: Hasher>(&self, state: &mut H) {
        self.to_ref().hash(state);
    }
}

impl Hash for RefSpecRef<'_> {
    fn hash<H: Hasher>(&self, state: &mut H) {
        self.instruction().hash(state);
    }
}

impl PartialEq for RefSpec {
    fn eq(&self, other: &Self) -> bool {
        self.to_ref() == other.to_ref()
    }
}

impl PartialEq for RefSpecRef<'_> {
    fn eq(&self, other: &Self) -> bool {
        self.instruction() == other.instruction()
    }
}

impl PartialOrd for RefSpec {
    fn partial_cmp(&self, other: &Self) -> Option<Ordering> {
        Some(self.cmp(other))
    }
}

impl PartialOrd for RefSpecRef<'_> {
    fn partial_cmp(&self, other: &Self) -> Option<Ordering> {
        Some(self.cmp(other))
    }
}

impl Ord for RefSpec {
    fn cmp(&self, other: &Self) -> Ordering {
        self.to_ref().cmp(&other.to_ref())
    }
}

impl Ord for RefSpecRef<'_> {
    fn cmp(&self, other: &Self) -> Ordering {
        self.instruction().cmp(&other.instruction())
    }
}
