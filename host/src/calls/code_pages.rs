//! Code pages: what characters 8-bit units stand for, and the way back.
//!
//! Before R2007 a text's units are bytes of the drawing's code page. A reading keeps them as they are; converting them is a step of its own, and the
//! caller says by which page, since the page is not in a hatch body. The table stands in the proved library alone.

use std::borrow::Cow;
use std::fmt;
use std::str::FromStr;

use super::codes::OUTSIDE;
use super::refusal::Refusal;
use super::typed::Name;
use crate::boundary::ffi::{self, ConversionAnswer};

/// Converts bytes of code page 1252 to 16-bit units, one for each, and gives how many there are. Entries of `units` past those stay as they are.
///
/// Refuses a byte that stands for no character ([`Reason::UndefinedCharacter`](crate::Reason): 81, 8D, 8F, 90 and 9D in hexadecimal), then an output that is
/// shorter than the input (`ListTooShort`). Then the output is as it was.
///
/// ```
/// use dwg_hatch::{cp1252_to_units, Reason};
/// let mut units = [7; 4];
/// assert_eq!(cp1252_to_units(b"\x80 5", &mut units)?, 3);
/// assert_eq!(units, [0x20ac, 0x20, 0x35, 7]); // the euro sign, a space, 5, and an entry that is not written
///
/// assert_eq!(cp1252_to_units(&[0x41, 0x81], &mut []).unwrap_err().reason, Reason::UndefinedCharacter);
/// assert_eq!(cp1252_to_units(&[0x41, 0x42], &mut units[..1]).unwrap_err().reason, Reason::ListTooShort);
/// assert_eq!(units, [0x20ac, 0x20, 0x35, 7]);
/// # Ok::<(), dwg_hatch::Refusal>(())
/// ```
pub fn cp1252_to_units(bytes: &[u8], units: &mut [u16]) -> Result<usize, Refusal> {
    // SAFETY: the function of ffi.rs takes a slice as its pointer and length, reads no entry outside it, writes nothing but its answer and entries of the
    // output, which is lent for writing, and keeps nothing. A slice's pointer is not null, also where the slice is empty.
    converted(unsafe { ffi::dwg_cp1252_to_units(bytes.as_ptr(), bytes.len(), units.as_mut_ptr(), units.len()) }, bytes.len())
}

/// The way back: converts 16-bit units to bytes of code page 1252, one for each, and gives how many there are. Entries of `bytes` past those stay as they are.
///
/// Refuses a unit that no byte stands for ([`Reason::UndefinedCharacter`](crate::Reason)), then an output that is shorter than the input
/// (`ListTooShort`). Then the output is as it was.
///
/// ```
/// use dwg_hatch::{cp1252_to_bytes, Reason};
/// let mut bytes = [7; 4];
/// assert_eq!(cp1252_to_bytes(&[0x20ac, 0x20, 0x35], &mut bytes)?, 3);
/// assert_eq!(&bytes, b"\x80 5\x07");
///
/// assert_eq!(cp1252_to_bytes(&[0x81], &mut bytes).unwrap_err().reason, Reason::UndefinedCharacter);
/// # Ok::<(), dwg_hatch::Refusal>(())
/// ```
pub fn cp1252_to_bytes(units: &[u16], bytes: &mut [u8]) -> Result<usize, Refusal> {
    // SAFETY: see `cp1252_to_units`.
    converted(unsafe { ffi::dwg_cp1252_to_bytes(units.as_ptr(), units.len(), bytes.as_mut_ptr(), bytes.len()) }, units.len())
}

/// What a conversion gave. Its places are 0 and its count is the input's length, or 0 where it is refused; that is looked at.
fn converted(answer: ConversionAnswer, length: usize) -> Result<usize, Refusal> {
    assert_eq!((answer.place, answer.string_place), (0, 0), "{OUTSIDE}");
    match (answer.refusal, answer.count) {
        (0, count) if count == length => Ok(count),
        (number @ (11 | 14), 0) => Err(Refusal::of_conversion(number)),
        _ => panic!("{OUTSIDE}"),
    }
}

/// A code page, under the Rust's name: what characters the bytes of a text before R2007 stand for. More may come.
///
/// It is made of its number, of the name that a drawing has for it (`$DWGCODEPAGE`), or of its name elsewhere, in capitals or not:
///
/// ```
/// use dwg_hatch::CodePage;
/// for text in ["1252", "ANSI_1252", "cp1252", "windows-1252"] {
///     assert_eq!(text.parse(), Ok(CodePage::Ansi1252));
/// }
/// assert_eq!((CodePage::Ansi1252.number(), CodePage::Ansi1252.to_string()), (1252, "ANSI_1252".to_string()));
/// assert_eq!("1251".parse::<CodePage>().unwrap_err().to_string(), "there is no code page \"1251\" here: name 1252");
/// ```
#[derive(Clone, Copy, Debug, PartialEq, Eq, Hash)]
#[non_exhaustive]
pub enum CodePage {
    /// Windows code page 1252 (Western European), by the Unicode Consortium's CP1252.TXT. Bytes below 80 and from A0 up (hexadecimal) are the characters of
    /// the same numbers; of the others 81, 8D, 8F, 90 and 9D stand for nothing.
    Ansi1252,
}

impl CodePage {
    /// All that there are.
    pub const ALL: &'static [CodePage] = &[CodePage::Ansi1252];

    /// Its number among Windows code pages.
    pub fn number(self) -> u16 {
        match self {
            CodePage::Ansi1252 => 1252,
        }
    }

    /// The name that a drawing has for it.
    pub fn dxf_name(self) -> &'static str {
        match self {
            CodePage::Ansi1252 => "ANSI_1252",
        }
    }

    /// The characters of bytes. Nothing is replaced: bytes of which one stands for nothing are refused
    /// ([`Reason::UndefinedCharacter`](crate::Reason)).
    ///
    /// ```
    /// use dwg_hatch::{CodePage, Reason};
    /// assert_eq!(CodePage::Ansi1252.decode(b"K\xfcche")?, "Küche");
    /// assert_eq!(CodePage::Ansi1252.decode(b"\x80 5")?, "€ 5");
    /// assert_eq!(CodePage::Ansi1252.decode(&[0x81]).unwrap_err().reason, Reason::UndefinedCharacter);
    /// # Ok::<(), dwg_hatch::Refusal>(())
    /// ```
    pub fn decode(self, bytes: &[u8]) -> Result<String, Refusal> {
        let CodePage::Ansi1252 = self;
        let mut units = vec![0; bytes.len()];
        cp1252_to_units(bytes, &mut units)?;
        Ok(String::from_utf16(&units).expect(OUTSIDE))
    }

    /// The bytes of characters. Text of which a character is not in the page is refused ([`Reason::UndefinedCharacter`](crate::Reason)).
    ///
    /// ```
    /// use dwg_hatch::{CodePage, Reason};
    /// assert_eq!(CodePage::Ansi1252.encode("Estación")?, b"Estaci\xf3n");
    /// assert_eq!(CodePage::Ansi1252.encode("Ω").unwrap_err().reason, Reason::UndefinedCharacter);
    /// # Ok::<(), dwg_hatch::Refusal>(())
    /// ```
    pub fn encode(self, text: &str) -> Result<Vec<u8>, Refusal> {
        let CodePage::Ansi1252 = self;
        let units: Vec<u16> = text.encode_utf16().collect();
        let mut bytes = vec![0; units.len()];
        cp1252_to_bytes(&units, &mut bytes)?;
        Ok(bytes)
    }
}

impl fmt::Display for CodePage {
    fn fmt(&self, f: &mut fmt::Formatter<'_>) -> fmt::Result {
        f.pad(self.dxf_name())
    }
}

impl FromStr for CodePage {
    type Err = UnknownCodePage;

    /// By its number, alone or behind `ANSI_`, `cp`, `windows-` or `windows`, in capitals or not.
    fn from_str(text: &str) -> Result<CodePage, UnknownCodePage> {
        let spelt = |before: &str, page: &CodePage| text.eq_ignore_ascii_case(&format!("{before}{}", page.number()));
        let is = |page: &&CodePage| ["", "ANSI_", "cp", "windows-", "windows"].iter().any(|before| spelt(before, page));
        CodePage::ALL.iter().find(is).copied().ok_or_else(|| UnknownCodePage(text.to_string()))
    }
}

/// What is no code page here, and what is one.
#[derive(Clone, PartialEq, Eq)]
pub struct UnknownCodePage(String);

impl fmt::Display for UnknownCodePage {
    fn fmt(&self, f: &mut fmt::Formatter<'_>) -> fmt::Result {
        let pages: Vec<String> = CodePage::ALL.iter().map(|page| page.number().to_string()).collect();
        write!(f, "there is no code page {:?} here: name {}", self.0, pages.join(" or "))
    }
}

/// As it displays, since this is what a program shows whose `main` returns it.
impl fmt::Debug for UnknownCodePage {
    fn fmt(&self, f: &mut fmt::Formatter<'_>) -> fmt::Result {
        fmt::Display::fmt(self, f)
    }
}

impl std::error::Error for UnknownCodePage {}

impl Name {
    /// The name's characters, where the drawing's code page is known: 8-bit units by the page, and 16-bit units as they are. The name keeps its units.
    ///
    /// Refused where an 8-bit unit stands for nothing in the page ([`Reason::UndefinedCharacter`](crate::Reason)): then its units are all that is known.
    ///
    /// ```
    /// use dwg_hatch::{CodePage, Name, Reason};
    /// let name = Name::Bytes(b"K\xfcche".to_vec());
    /// assert_eq!((name.as_str(), name.decoded(CodePage::Ansi1252)?.as_ref()), (None, "Küche"));
    /// assert_eq!(Name::Characters("Ω".to_string()).decoded(CodePage::Ansi1252)?, "Ω");
    /// assert_eq!(Name::Bytes(vec![0x81]).decoded(CodePage::Ansi1252).unwrap_err().reason, Reason::UndefinedCharacter);
    /// # Ok::<(), dwg_hatch::Refusal>(())
    /// ```
    pub fn decoded(&self, page: CodePage) -> Result<Cow<'_, str>, Refusal> {
        match (self, self.as_str()) {
            (_, Some(characters)) => Ok(Cow::Borrowed(characters)),
            (Name::Bytes(bytes), None) => page.decode(bytes).map(Cow::Owned),
            (Name::Characters(characters), None) => Ok(Cow::Borrowed(characters)),
        }
    }

    /// Whether two names are the same, as [`Name::is_same_name`] says it, where the drawing's code page is known: by their characters, whatever the bits of
    /// a unit. A name that has an undefined unit is the same as another of the very same units alone.
    ///
    /// ```
    /// use dwg_hatch::{CodePage, Name};
    /// let [old, new] = [Name::Bytes(b"K\xfcche".to_vec()), Name::Characters("Küche".to_string())];
    /// assert!(!old.is_same_name(&new));
    /// assert!(old.is_same_name_in(&new, CodePage::Ansi1252));
    /// ```
    pub fn is_same_name_in(&self, other: &Name, page: CodePage) -> bool {
        match (self.decoded(page), other.decoded(page)) {
            (Ok(one), Ok(other)) => one == other,
            // Both are 8-bit units, and equal where these are.
            (Err(_), Err(_)) => self == other,
            _ => false,
        }
    }
}

#[cfg(test)]
mod tests {
    use super::*;

    #[test]
    fn every_spelling_leads_back() {
        for page in CodePage::ALL {
            let spellings = [page.number().to_string(), page.dxf_name().to_lowercase(), page.to_string(), format!("CP{}", page.number())];
            assert!(spellings.iter().all(|text| text.parse() == Ok(*page)), "{page}");
        }
    }

    #[test]
    fn nothing_else_is_a_code_page() {
        for text in ["", "0", "30", "125", "12522", "01252", "+1252", " 1252", "1252 ", "ANSI", "ANSI_", "ANSI_1251", "cp", "cp-1252", "windows", "1252cp"] {
            assert_eq!(text.parse::<CodePage>(), Err(UnknownCodePage(text.to_string())), "{text}");
        }
    }

    /// An answer of the library, by its refusal, its places and its count.
    fn answer(refusal: u64, place: usize, string_place: usize, count: usize) -> ConversionAnswer {
        ConversionAnswer { refusal, place, string_place, count }
    }

    #[test]
    fn an_answer_is_looked_at() {
        assert_eq!(converted(answer(0, 0, 0, 3), 3), Ok(3));
        assert_eq!(converted(answer(11, 0, 0, 0), 3), Err(Refusal::of_conversion(11)));
        assert_eq!(converted(answer(14, 0, 0, 0), 3), Err(Refusal::of_conversion(14)));
        let outside = [answer(0, 0, 0, 2), answer(0, 1, 0, 3), answer(0, 0, 1, 3), answer(12, 0, 0, 0), answer(14, 0, 0, 3), answer(14, 8, 0, 0)];
        for answer in outside {
            assert!(std::panic::catch_unwind(|| converted(answer, 3)).is_err());
        }
    }
}
