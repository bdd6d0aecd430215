//! How values are written in answers.

use crate::text_place::Text;

/// Doubles as their 64 bits; for the f64 entries every NaN is the one NaN.
#[derive(Clone, Copy)]
pub struct Show {
    pub f64_entries: bool,
}

impl Show {
    pub fn double(self, value: f64) -> String {
        let one_nan = self.f64_entries && value.is_nan();
        format!("{:016x}", if one_nan { 0x7ff8_0000_0000_0000 } else { value.to_bits() })
    }

    pub fn doubles(self, values: &[f64]) -> String {
        list(values, ",", |value| self.double(*value))
    }
}

/// A list with its separator, `-` if it is empty.
pub fn list<T>(items: &[T], separator: &str, one: impl Fn(&T) -> String) -> String {
    if items.is_empty() {
        return "-".to_string();
    }
    items.iter().map(one).collect::<Vec<String>>().join(separator)
}

/// SOURCE:WIDTH:POSITION:COUNT:UNITS:PADDED.
pub fn text(text: &Text) -> String {
    let digits = text.width / 4;
    let units = list(text.units(), "", |unit| format!("{unit:0digits$x}"));
    let (count, padded) = (text.units().len(), u8::from(text.padded()));
    format!("{}:{}:{}:{count}:{units}:{padded}", text.source, text.width, text.position)
}

/// `0:0` if absent, `1:VALUE` if present.
pub fn presence(value: Option<u32>) -> String {
    match value {
        Some(value) => format!("1:{value}"),
        None => "0:0".to_string(),
    }
}
