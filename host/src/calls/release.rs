//! The releases of DWG.

use std::fmt;
use std::str::FromStr;

/// A release of DWG whose hatches and prefixes are read. Later releases are greater.
///
/// It has three spellings: its name, the six letters that a drawing of it begins with, and its number in the line protocol and at the C boundary.
///
/// ```
/// use dwg_hatch::Release;
/// assert_eq!("R2000".parse(), Ok(Release::R2000));
/// assert_eq!("AC1015".parse(), Ok(Release::R2000));
/// assert_eq!("2".parse(), Ok(Release::R2000));
/// assert_eq!(Release::try_from(2), Ok(Release::R2000));
/// assert_eq!((Release::R2000.number(), Release::R2000.signature(), Release::R2000.to_string()), (2, "AC1015", "R2000".to_string()));
/// assert_eq!(
///     "R2001".parse::<Release>().unwrap_err().to_string(),
///     "there is no release \"R2001\": name R14, R2000, R2004, R2007, R2010, R2013 or R2018, or a number from 1 to 7"
/// );
/// ```
#[derive(Clone, Copy, Debug, PartialEq, Eq, PartialOrd, Ord, Hash)]
#[allow(missing_docs)]
pub enum Release {
    R14 = 1,
    R2000 = 2,
    R2004 = 3,
    R2007 = 4,
    R2010 = 5,
    R2013 = 6,
    R2018 = 7,
}

impl Release {
    /// All of them, the earliest first.
    pub const ALL: [Release; 7] =
        [Release::R14, Release::R2000, Release::R2004, Release::R2007, Release::R2010, Release::R2013, Release::R2018];

    /// Its number, 1 to 7.
    pub fn number(self) -> u64 {
        self as u64
    }

    /// Its name.
    pub fn name(self) -> &'static str {
        match self {
            Release::R14 => "R14",
            Release::R2000 => "R2000",
            Release::R2004 => "R2004",
            Release::R2007 => "R2007",
            Release::R2010 => "R2010",
            Release::R2013 => "R2013",
            Release::R2018 => "R2018",
        }
    }

    /// The six letters that a drawing of this release begins with.
    pub fn signature(self) -> &'static str {
        match self {
            Release::R14 => "AC1014",
            Release::R2000 => "AC1015",
            Release::R2004 => "AC1018",
            Release::R2007 => "AC1021",
            Release::R2010 => "AC1024",
            Release::R2013 => "AC1027",
            Release::R2018 => "AC1032",
        }
    }
}

impl fmt::Display for Release {
    fn fmt(&self, f: &mut fmt::Formatter<'_>) -> fmt::Result {
        f.pad(self.name())
    }
}

impl TryFrom<u64> for Release {
    type Error = UnknownRelease;

    fn try_from(number: u64) -> Result<Release, UnknownRelease> {
        let found = Release::ALL.into_iter().find(|release| release.number() == number);
        found.ok_or_else(|| UnknownRelease(number.to_string()))
    }
}

impl FromStr for Release {
    type Err = UnknownRelease;

    /// By its name or the drawing's first letters, in capitals or not, or by its number.
    fn from_str(text: &str) -> Result<Release, UnknownRelease> {
        let is = |release: &Release| {
            let spelt = [release.name(), release.signature()].iter().any(|name| text.eq_ignore_ascii_case(name));
            spelt || text == release.number().to_string()
        };
        Release::ALL.into_iter().find(is).ok_or_else(|| UnknownRelease(text.to_string()))
    }
}

/// What is no release, and what is one.
#[derive(Clone, PartialEq, Eq)]
pub struct UnknownRelease(String);

impl fmt::Display for UnknownRelease {
    fn fmt(&self, f: &mut fmt::Formatter<'_>) -> fmt::Result {
        let names = Release::ALL.map(Release::name);
        let [before @ .., last] = &names;
        write!(f, "there is no release {:?}: name {} or {last}, or a number from 1 to 7", self.0, before.join(", "))
    }
}

/// As it displays, since this is what a program shows whose `main` returns it.
impl fmt::Debug for UnknownRelease {
    fn fmt(&self, f: &mut fmt::Formatter<'_>) -> fmt::Result {
        fmt::Display::fmt(self, f)
    }
}

impl std::error::Error for UnknownRelease {}

#[cfg(test)]
mod tests {
    use super::*;

    #[test]
    fn every_spelling_leads_back() {
        for (at, release) in Release::ALL.into_iter().enumerate() {
            assert_eq!(release.number(), at as u64 + 1);
            let spellings = [release.name().to_string(), release.signature().to_lowercase(), release.number().to_string(), release.to_string()];
            assert!(spellings.iter().all(|text| text.parse() == Ok(release)), "{release}");
            assert_eq!(Release::try_from(release.number()), Ok(release));
        }
    }

    #[test]
    fn nothing_else_is_a_release() {
        for text in ["", "0", "8", "02", "+2", " 2", "2000", "R2001", "AC1016", "AC1015 ", "18446744073709551618"] {
            assert_eq!(text.parse::<Release>(), Err(UnknownRelease(text.to_string())));
        }
        assert_eq!([0, 8, u64::MAX].map(Release::try_from), [0, 8, u64::MAX].map(|number| Err(UnknownRelease(number.to_string()))));
    }
}
