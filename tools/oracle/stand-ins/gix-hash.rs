//! A stand-in for the crate `gix-hash`: what gix-refspec 0.45.1 and `refspec_rust` use of it. Ids have 20 or 32 bytes, and
//! both kinds are there.
#![allow(non_camel_case_types)]

use std::fmt;

#[derive(Clone, Copy, PartialEq, Eq, PartialOrd, Ord, Hash, Debug)]
pub enum Kind {
    Sha1,
    Sha256,
}

impl Kind {
    pub const fn shortest() -> Self {
        Kind::Sha1
    }
    pub const fn len_in_bytes(&self) -> usize {
        match self {
            Kind::Sha1 => 20,
            Kind::Sha256 => 32,
        }
    }
    pub const fn len_in_hex(&self) -> usize {
        self.len_in_bytes() * 2
    }
    pub const fn null(&self) -> ObjectId {
        match self {
            Kind::Sha1 => ObjectId::Sha1([0; 20]),
            Kind::Sha256 => ObjectId::Sha256([0; 32]),
        }
    }
}

/// A borrowed id: a byte slice of 20 or 32 bytes.
#[derive(PartialEq, Eq, Hash, PartialOrd, Ord)]
#[repr(transparent)]
pub struct oid {
    bytes: [u8],
}

impl oid {
    fn from_bytes(bytes: &[u8]) -> &oid {
        // SAFETY: repr(transparent) over [u8].
        unsafe { &*(bytes as *const [u8] as *const oid) }
    }
    pub fn as_bytes(&self) -> &[u8] {
        &self.bytes
    }
    pub fn kind(&self) -> Kind {
        match self.bytes.len() {
            20 => Kind::Sha1,
            32 => Kind::Sha256,
            n => unreachable!("no kind of {n} bytes"),
        }
    }
}

impl fmt::Display for oid {
    fn fmt(&self, f: &mut fmt::Formatter<'_>) -> fmt::Result {
        let mut buf = [0u8; 64];
        let n = self.bytes.len() * 2;
        for (pair, b) in buf.chunks_exact_mut(2).zip(&self.bytes) {
            pair[0] = b"0123456789abcdef"[usize::from(b >> 4)];
            pair[1] = b"0123456789abcdef"[usize::from(b & 15)];
        }
        f.write_str(std::str::from_utf8(&buf[..n]).expect("hex digits"))
    }
}

impl fmt::Debug for oid {
    fn fmt(&self, f: &mut fmt::Formatter<'_>) -> fmt::Result {
        fmt::Display::fmt(self, f)
    }
}

#[derive(PartialEq, Eq, Hash, PartialOrd, Ord, Clone, Copy)]
pub enum ObjectId {
    Sha1([u8; 20]),
    Sha256([u8; 32]),
}

#[derive(Debug, Clone, Copy, PartialEq, Eq)]
pub enum DecodeError {
    Length,
    Digit,
}

fn fill(out: &mut [u8], hex: &[u8]) -> Result<(), DecodeError> {
    fn digit(b: u8) -> Result<u8, DecodeError> {
        (b as char).to_digit(16).map(|d| d as u8).ok_or(DecodeError::Digit)
    }
    for (o, pair) in out.iter_mut().zip(hex.chunks_exact(2)) {
        *o = digit(pair[0])? * 16 + digit(pair[1])?;
    }
    Ok(())
}

impl ObjectId {
    pub fn from_hex(hex: &[u8]) -> Result<ObjectId, DecodeError> {
        match hex.len() {
            40 => {
                let mut b = [0; 20];
                fill(&mut b, hex)?;
                Ok(ObjectId::Sha1(b))
            }
            64 => {
                let mut b = [0; 32];
                fill(&mut b, hex)?;
                Ok(ObjectId::Sha256(b))
            }
            _ => Err(DecodeError::Length),
        }
    }
    pub fn as_slice(&self) -> &[u8] {
        match self {
            ObjectId::Sha1(b) => b,
            ObjectId::Sha256(b) => b,
        }
    }
}

impl std::ops::Deref for ObjectId {
    type Target = oid;
    fn deref(&self) -> &oid {
        oid::from_bytes(self.as_slice())
    }
}

impl fmt::Display for ObjectId {
    fn fmt(&self, f: &mut fmt::Formatter<'_>) -> fmt::Result {
        fmt::Display::fmt(&**self, f)
    }
}

impl fmt::Debug for ObjectId {
    fn fmt(&self, f: &mut fmt::Formatter<'_>) -> fmt::Result {
        fmt::Display::fmt(&**self, f)
    }
}

impl PartialEq<&oid> for ObjectId {
    fn eq(&self, other: &&oid) -> bool {
        &**self == *other
    }
}

impl PartialEq<ObjectId> for &oid {
    fn eq(&self, other: &ObjectId) -> bool {
        *self == &**other
    }
}
