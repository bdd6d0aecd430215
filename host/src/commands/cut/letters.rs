//! Whole drawings, told apart by the letters that a file begins with: AC10 and two digits.

use dwg_hatch::Release;

use crate::commands::failure::Failure;

/// How many letters they are.
pub const COUNT: usize = 6;

/// The letters of a whole drawing.
#[derive(Clone, Copy, Debug, PartialEq, Eq)]
pub struct Letters([u8; COUNT]);

impl Letters {
    /// The letters of a file by its first bytes; `None` where it is no whole drawing.
    pub fn of(bytes: &[u8]) -> Option<Letters> {
        let letters = *bytes.first_chunk::<COUNT>()?;
        (letters.starts_with(b"AC10") && letters[4..].iter().all(u8::is_ascii_digit)).then_some(Letters(letters))
    }

    /// Whether the drawing can be cut: it is of R2000.
    pub fn is_cut(self) -> bool {
        self.release() == Some(Release::R2000)
    }

    fn release(self) -> Option<Release> {
        Release::ALL.into_iter().find(|release| release.signature().as_bytes() == self.0)
    }

    /// The release's name, or the letters where they are of none that is known.
    fn name(self) -> String {
        self.release().map_or_else(|| self.0.iter().copied().map(char::from).collect(), |release| release.to_string())
    }

    /// Why a drawing that cannot be cut is not read.
    pub fn not_cut(self, file: &str) -> Failure {
        let reads = "dwg-hatch reads the hatch bodies and entity prefixes in it, which your DWG reader cuts out";
        Failure::Usage(format!("{file}: this is a whole drawing of {}; {reads} (docs/PAYLOADS.md says where they lie)", self.name()))
    }

    /// Why a whole drawing is not read where a payload is wanted.
    pub fn no_payload(self, file: &str) -> Failure {
        if !self.is_cut() {
            return self.not_cut(file);
        }
        let advice = "leave --release out, and the hatches in it are found and read";
        Failure::Usage(format!("{file}: this is a whole drawing of {}, and --release N goes with a payload alone; {advice}", self.name()))
    }
}

#[cfg(test)]
mod tests {
    use super::*;

    #[test]
    fn a_drawing_begins_with_ac10_and_two_digits() {
        for bytes in [&b""[..], b"AC101", b"AC10A5", b"AC1 15", b"AC1115", b"ac1015", b"AC10\xb1\xb5", b" AC1015", b"hatch 2 0 A9AAA0"] {
            assert_eq!(Letters::of(bytes), None, "{bytes:?}");
        }
        let name = |bytes: &[u8]| Letters::of(bytes).map(Letters::name);
        assert_eq!(name(b"AC1015").as_deref(), Some("R2000"));
        assert_eq!(name(b"AC1032\0\0").as_deref(), Some("R2018"));
        assert_eq!(name(b"AC1009").as_deref(), Some("AC1009"));
    }

    #[test]
    fn r2000_alone_is_cut() {
        let cut = |release: &Release| Letters::of(release.signature().as_bytes()).is_some_and(Letters::is_cut);
        assert!(Release::ALL.into_iter().filter(cut).eq([Release::R2000]));
    }
}
