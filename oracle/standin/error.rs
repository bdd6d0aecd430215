//! Stand-in for the Rust's `error` module, which was not sent along: written from how its variants are used
//! in the files that were. Only names and field types matter; no text of the original is known.

pub type Result<T> = std::result::Result<T, Error>;

#[derive(Debug, Clone, PartialEq, Eq)]
pub enum Error {
    BitsExhausted { wanted: usize, remaining: usize },
    ReservedBitPattern { code_type: &'static str, pattern: &'static str },
    HandleCounterTooLarge { code: u8, counter: u8 },
    SignedModularCharOverflow { value: u64, negate: bool },
    SectionMap(String),
    NotDwg { got: [u8; 6] },
    UnsupportedVersion([u8; 6]),
}
