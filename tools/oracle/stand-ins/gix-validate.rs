//! A stand-in for the crate `gix-validate`: `reference::name_partial`, which accepts what `git check-ref-format
//! --allow-onelevel` accepts, and `@`. Which of several faults it reports is its own choice.
pub mod reference {
    use bstr::BStr;

    pub mod name {
        #[derive(Debug, Clone, Copy, PartialEq, Eq)]
        pub enum Error {
            Empty,
            EmptyComponent,
            StartsWithDot,
            LockSuffix,
            EndsWithDot,
            RepeatedDot,
            ReflogPortion,
            Asterisk,
            InvalidByte { byte: u8 },
        }
        impl std::fmt::Display for Error {
            fn fmt(&self, to: &mut std::fmt::Formatter<'_>) -> std::fmt::Result {
                std::fmt::Debug::fmt(self, to)
            }
        }
        impl std::error::Error for Error {}
    }

    pub fn name_partial(path: &BStr) -> Result<&BStr, name::Error> {
        use name::Error;
        let bytes: &[u8] = path;
        if bytes.is_empty() {
            return Err(Error::Empty);
        }
        // `prev` is `/` at the beginning of a component.
        let mut prev = b'/';
        let mut start = 0;
        for (i, &b) in bytes.iter().enumerate() {
            match b {
                0..=31 | 127 | b' ' | b'~' | b'^' | b':' | b'?' | b'[' | b'\\' => {
                    return Err(Error::InvalidByte { byte: b });
                }
                b'*' => return Err(Error::Asterisk),
                b'.' if prev == b'/' => return Err(Error::StartsWithDot),
                b'.' if prev == b'.' => return Err(Error::RepeatedDot),
                b'{' if prev == b'@' => return Err(Error::ReflogPortion),
                b'/' if prev == b'/' => return Err(Error::EmptyComponent),
                b'/' => {
                    if bytes[start..i].ends_with(b".lock") {
                        return Err(Error::LockSuffix);
                    }
                    start = i + 1;
                }
                _ => {}
            }
            prev = b;
        }
        if prev == b'/' {
            return Err(Error::EmptyComponent);
        }
        if prev == b'.' {
            return Err(Error::EndsWithDot);
        }
        if bytes[start..].ends_with(b".lock") {
            return Err(Error::LockSuffix);
        }
        Ok(path)
    }
}
