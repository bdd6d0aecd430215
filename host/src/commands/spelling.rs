//! How names are spelt: which characters their 8-bit units stand for. It hangs on the drawing's code page, which `--code-page` says.

use std::borrow::Cow;

use dwg_hatch::{CodePage, Name};

use crate::commands::failure::{shown, Failure};
use crate::commands::options::{Command, Options};

/// The option.
pub const CODE_PAGE: &str = "--code-page";

/// By which page 8-bit units are converted; by none they are characters only where all are ASCII.
#[derive(Clone, Copy, Debug, Default)]
pub struct Spelling(pub Option<CodePage>);

impl Spelling {
    /// The one that is asked for.
    pub fn asked(command: &Command, options: &Options) -> Result<Spelling, Failure> {
        let Some(value) = options.value(CODE_PAGE) else { return Ok(Spelling::default()) };
        let page = value.to_str().and_then(|text| text.parse().ok());
        let wrong = || {
            let pages: Vec<String> = CodePage::ALL.iter().map(|page| page.number().to_string()).collect();
            command.usage(format!("{CODE_PAGE} is \"{}\", which is none of the pages that there are: {}", shown(value.as_encoded_bytes()), pages.join(", ")))
        };
        page.map(|page| Spelling(Some(page))).ok_or_else(wrong)
    }

    /// A name's characters, if it is known which they are.
    pub fn of(self, name: &Name) -> Option<Cow<'_, str>> {
        match self.0 {
            Some(page) => name.decoded(page).ok(),
            None => name.as_str().map(Cow::Borrowed),
        }
    }
}

#[cfg(test)]
mod tests {
    use super::*;

    #[test]
    fn names_are_spelt_by_the_page_that_is_asked_for() {
        let names = [Name::Bytes(b"NET".to_vec()), Name::Bytes(b"K\xfcche".to_vec()), Name::Bytes(vec![0x4b, 0x81]), Name::Characters("\u{3a9}".to_string())];
        let by = |spelling: Spelling| names.each_ref().map(|name| spelling.of(name).map(Cow::into_owned));
        let some = |text: &str| Some(text.to_string());
        assert_eq!(by(Spelling::default()), [some("NET"), None, None, some("\u{3a9}")]);
        assert_eq!(by(Spelling(Some(CodePage::Ansi1252))), [some("NET"), some("K\u{fc}che"), None, some("\u{3a9}")]);
    }
}
