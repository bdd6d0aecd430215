//! A reader of JSON for the tests, written from RFC 8259: what the tool prints must be JSON by it, to the letter.
#![allow(dead_code)]

/// A value. A number is kept as it is written.
#[derive(Clone, Debug, PartialEq)]
pub enum Value {
    Null,
    Bool(bool),
    Number(String),
    Text(String),
    Array(Vec<Value>),
    Object(Vec<(String, Value)>),
}

/// The value that a text is.
pub fn parse(text: &str) -> Value {
    let mut rest = text;
    let value = value(&mut rest);
    assert!(rest.is_empty(), "behind the value: {rest:.40}");
    value
}

impl Value {
    /// An object's field.
    pub fn at(&self, name: &str) -> &Value {
        let Value::Object(fields) = self else { panic!("no object: {self:?}") };
        let mut found = fields.iter().filter(|field| field.0 == name);
        let value = &found.next().unwrap_or_else(|| panic!("no field {name}: {fields:?}")).1;
        assert!(found.next().is_none(), "two fields {name}");
        value
    }

    /// Whether an object has a field.
    pub fn has(&self, name: &str) -> bool {
        matches!(self, Value::Object(fields) if fields.iter().any(|field| field.0 == name))
    }

    pub fn items(&self) -> &[Value] {
        let Value::Array(items) = self else { panic!("no array: {self:?}") };
        items
    }

    pub fn text(&self) -> &str {
        let Value::Text(text) = self else { panic!("no string: {self:?}") };
        text
    }

    pub fn bool(&self) -> bool {
        let Value::Bool(value) = self else { panic!("no switch: {self:?}") };
        *value
    }

    pub fn whole(&self) -> u64 {
        let Value::Number(digits) = self else { panic!("no number: {self:?}") };
        digits.parse().expect("a whole number")
    }

    /// A double's 64 bits: of a number the nearest double's, of a string those that it has in hexadecimal.
    pub fn bits(&self) -> u64 {
        match self {
            Value::Number(digits) => digits.parse::<f64>().expect("a number").to_bits(),
            Value::Text(bits) => {
                let bits = u64::from_str_radix(bits.strip_prefix("0x").expect("0x"), 16).expect("16 digits");
                assert!(!f64::from_bits(bits).is_finite());
                bits
            }
            _ => panic!("no double: {self:?}"),
        }
    }
}

fn value(rest: &mut &str) -> Value {
    for (word, value) in [("null", Value::Null), ("true", Value::Bool(true)), ("false", Value::Bool(false))] {
        if took(rest, word) {
            return value;
        }
    }
    match rest.chars().next() {
        Some('{') => Value::Object(list(rest, '{', '}', |rest| {
            let name = string(rest);
            assert!(took(rest, ":"), "{rest:.40}");
            (name, value(rest))
        })),
        Some('[') => Value::Array(list(rest, '[', ']', value)),
        Some('"') => Value::Text(string(rest)),
        _ => number(rest),
    }
}

fn list<T>(rest: &mut &str, open: char, close: char, item: impl Fn(&mut &str) -> T) -> Vec<T> {
    assert!(took(rest, &open.to_string()), "{rest:.40}");
    let mut items = Vec::new();
    while !took(rest, &close.to_string()) {
        assert!(items.is_empty() || took(rest, ","), "{rest:.40}");
        items.push(item(rest));
    }
    items
}

fn string(rest: &mut &str) -> String {
    assert!(took(rest, "\""), "{rest:.40}");
    let mut text = String::new();
    loop {
        let letter = rest.chars().next().expect("a closing quote");
        *rest = &rest[letter.len_utf8()..];
        match letter {
            '"' => return text,
            '\\' if took(rest, "u") => {
                let (digits, behind) = rest.split_at(4);
                *rest = behind;
                text.push(char::from_u32(u32::from_str_radix(digits, 16).expect("four digits")).expect("no surrogate"));
            }
            '\\' => {
                assert!(took(rest, "\"") && { text.push('"'); true } || took(rest, "\\") && { text.push('\\'); true }, "{rest:.40}");
            }
            letter => {
                assert!(letter >= ' ', "a control character");
                text.push(letter);
            }
        }
    }
}

/// -? digits without a leading zero, a fraction, an exponent.
fn number(rest: &mut &str) -> Value {
    let end = rest.find([',', '}', ']']).unwrap_or(rest.len());
    let (written, behind) = rest.split_at(end);
    *rest = behind;
    let digits = |text: &str| !text.is_empty() && text.bytes().all(|byte| byte.is_ascii_digit());
    let (mantissa, exponent) = written.split_once('e').unwrap_or((written, "0"));
    let (whole, fraction) = mantissa.split_once('.').unwrap_or((mantissa, "0"));
    let whole = whole.strip_prefix('-').unwrap_or(whole);
    assert!(digits(whole) && (whole == "0" || !whole.starts_with('0')), "{written}");
    assert!(digits(fraction) && digits(exponent.strip_prefix('-').unwrap_or(exponent)), "{written}");
    Value::Number(written.to_string())
}

fn took(rest: &mut &str, word: &str) -> bool {
    let behind = rest.strip_prefix(word);
    *rest = behind.unwrap_or(rest);
    behind.is_some()
}
