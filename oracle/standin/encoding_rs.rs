//! Stand-in for the crate `encoding_rs`, which code_page.rs names. The oracle never puts a code page in force, so the
//! page is always `Unknown(0)`, which has no encoding, and nothing here is ever called.

use std::borrow::Cow;

pub struct Encoding;

const NEVER: &str = "the oracle's stand-in for encoding_rs was called: a code page was in force";

impl Encoding {
    pub fn decode_without_bom_handling<'a>(&'static self, _bytes: &'a [u8]) -> (Cow<'a, str>, bool) {
        panic!("{NEVER}")
    }

    pub fn encode<'a>(&'static self, _text: &'a str) -> (Cow<'a, [u8]>, &'static Encoding, bool) {
        panic!("{NEVER}")
    }
}

pub static WINDOWS_1250: &Encoding = &Encoding;
pub static WINDOWS_1251: &Encoding = &Encoding;
pub static WINDOWS_1252: &Encoding = &Encoding;
pub static WINDOWS_1253: &Encoding = &Encoding;
pub static WINDOWS_1254: &Encoding = &Encoding;
pub static WINDOWS_1257: &Encoding = &Encoding;
pub static SHIFT_JIS: &Encoding = &Encoding;
pub static GBK: &Encoding = &Encoding;
pub static EUC_KR: &Encoding = &Encoding;
pub static BIG5: &Encoding = &Encoding;
