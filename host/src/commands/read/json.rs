//! JSON text: values as strings of it. Every digit of a double is kept.

/// A string.
pub fn string(text: &str) -> String {
    let mut quoted = String::with_capacity(text.len() + 2);
    quoted.push('"');
    for letter in text.chars() {
        match letter {
            '"' | '\\' => quoted.extend(['\\', letter]),
            letter if letter.is_control() => quoted.push_str(&format!("\\u{:04x}", u32::from(letter))),
            letter => quoted.push(letter),
        }
    }
    quoted.push('"');
    quoted
}

/// A double by its 64 bits: the shortest number that is read as the same double, or, of a NaN or an infinity, for which JSON has no number,
/// a string with its bits.
pub fn double(bits: u64) -> String {
    let value = f64::from_bits(bits);
    if value.is_finite() { format!("{value:?}") } else { string(&format!("{bits:#018x}")) }
}

/// A list.
pub fn array(items: impl IntoIterator<Item = String>) -> String {
    let mut list = opened('[');
    for item in items {
        part(&mut list);
        list.push_str(&item);
    }
    list.push(']');
    list
}

/// An object.
pub fn object<'a>(fields: impl IntoIterator<Item = (&'a str, String)>) -> String {
    let mut object = opened('{');
    for (name, value) in fields {
        part(&mut object);
        [r#"""#, name, r#"":"#, &value].iter().for_each(|text| object.push_str(text));
    }
    object.push('}');
    object
}

/// A value, or `null` where there is none.
pub fn or_null(value: Option<String>) -> String {
    value.unwrap_or_else(|| "null".to_string())
}

/// A text that starts with a bracket, with room for most objects and lists, so that it seldom has to move as it grows.
fn opened(bracket: char) -> String {
    let mut text = String::with_capacity(120);
    text.push(bracket);
    text
}

/// A comma, if something stands behind the first bracket.
fn part(text: &mut String) {
    if text.len() > 1 {
        text.push(',');
    }
}

#[cfg(test)]
mod tests {
    use super::*;

    #[test]
    fn values_as_text() {
        assert_eq!(string("say \"A\\B\"\n\u{1f600}"), "\"say \\\"A\\\\B\\\"\\u000a\u{1f600}\"");
        assert_eq!([0.1, 5e-324, -0.0].map(|value: f64| double(value.to_bits())), ["0.1", "5e-324", "-0.0"]);
        assert_eq!(double(0x7ff8_0000_0000_0001), "\"0x7ff8000000000001\"");
        assert_eq!(array(["1", "2"].map(str::to_string)), "[1,2]");
        assert_eq!(object([("place", "2".to_string()), ("rgb", "null".to_string())]), "{\"place\":2,\"rgb\":null}");
    }
}
