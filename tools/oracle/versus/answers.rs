//! What both libraries answer.
use std::fmt;

#[derive(Clone, Copy, PartialEq)]
pub enum Direction {
    Forward,
    Backward,
}

/// The instruction of a text, by the numbers of `gix_refspec.h`. A missing side is empty.
#[derive(PartialEq, Debug)]
pub struct Parts<'a> {
    pub kind: u32,
    pub forced: bool,
    pub source: &'a [u8],
    pub destination: &'a [u8],
}

/// What a spec of a group makes of a name, or of no name for an object id.
#[derive(Clone, PartialEq)]
pub struct Mapping {
    pub spec: usize,
    pub item: Option<usize>,
    pub source: Vec<u8>,
    pub destination: Option<Vec<u8>>,
}

impl fmt::Debug for Mapping {
    fn fmt(&self, f: &mut fmt::Formatter<'_>) -> fmt::Result {
        let destination = self.destination.as_ref().map(|name| name.escape_ascii().to_string());
        write!(f, "{}/{:?} {} {destination:?}", self.spec, self.item, self.source.escape_ascii())
    }
}
