//! Requests `cp1252 HEX [L ROOM]` and `uncp1252 UNITS [L ROOM]`: what is converted, and the length of the output.

pub enum Input {
    Bytes(Vec<u8>),
    /// So many zero bytes, which may be more than there is memory for.
    Zeros(u64),
    Units(Vec<u16>),
}

impl Input {
    pub fn length(&self) -> u64 {
        match self {
            Input::Bytes(bytes) => bytes.len() as u64,
            Input::Zeros(count) => *count,
            Input::Units(units) => units.len() as u64,
        }
    }
}

pub struct CodePageRequest {
    pub input: Input,
    /// The output's length; that of the input if none is given.
    pub room: Option<u64>,
}

/// The request that the words behind `cp1252` are; None is answered `bad request`.
pub fn bytes(words: &[&str]) -> Option<CodePageRequest> {
    request(words, |word| match word.strip_prefix('z') {
        Some(count) => number(count).map(Input::Zeros),
        None => digits(word, 2).map(|values| Input::Bytes(values.into_iter().map(|value| value as u8).collect())),
    })
}

/// The same of those behind `uncp1252`.
pub fn units(words: &[&str]) -> Option<CodePageRequest> {
    request(words, |word| digits(word, 4).map(Input::Units))
}

fn request(words: &[&str], input: impl Fn(&str) -> Option<Input>) -> Option<CodePageRequest> {
    match words {
        [list] => Some(CodePageRequest { input: input(list)?, room: None }),
        [list, "L", room] => Some(CodePageRequest { input: input(list)?, room: Some(number(room)?) }),
        _ => None,
    }
}

/// Values of so many hexadecimal digits each; `-` is none of them.
fn digits(word: &str, each: usize) -> Option<Vec<u16>> {
    if word == "-" {
        return Some(Vec::new());
    }
    let plain = word.bytes().all(|b| b.is_ascii_hexdigit()) && !word.is_empty() && word.len() % each == 0;
    let value = |at: usize| u16::from_str_radix(&word[at..at + each], 16).ok();
    if plain { (0..word.len()).step_by(each).map(value).collect() } else { None }
}

fn number(word: &str) -> Option<u64> {
    if word.bytes().all(|b| b.is_ascii_digit()) { word.parse().ok() } else { None }
}
