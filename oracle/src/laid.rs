//! What an encoder laid out, written down as an answer has it, without a look at the Rust.

use std::collections::BTreeMap;

/// A text: its first unit's place in the bits it was written to, its units, and whether the encoder wrote a zero behind them that is to be dropped.
pub struct LaidText {
    pub width: usize,
    pub place: usize,
    pub units: Vec<u16>,
    pub padded: bool,
}

#[derive(Default)]
pub struct Laid {
    fields: BTreeMap<&'static str, String>,
    pub texts: BTreeMap<&'static str, LaidText>,
    pub words: Vec<u32>,
    pub numbers: Vec<u64>,
}

const ZERO: &str = "0000000000000000";

impl Laid {
    pub fn set(&mut self, name: &'static str, value: String) {
        self.fields.insert(name, value);
    }

    pub fn number(&mut self, name: &'static str, value: u64) {
        self.set(name, value.to_string());
    }

    pub fn double(&mut self, name: &'static str, pattern: u64) {
        self.set(name, format!("{pattern:016x}"));
    }

    pub fn present(&mut self, name: &'static str, value: u64) {
        self.set(name, format!("1:{value}"));
    }

    pub fn list(&mut self, name: &'static str, separator: &str, items: &[String]) {
        self.set(name, if items.is_empty() { "-".to_string() } else { items.join(separator) });
    }

    fn get(&self, name: &str, absent: &str) -> String {
        self.fields.get(name).cloned().unwrap_or(absent.to_string())
    }

    /// SOURCE:WIDTH:POSITION:COUNT:UNITS:PADDED, the place counted from the layout's start bit.
    fn text(&self, name: &str, source: char, start: u64) -> String {
        let Some(text) = self.texts.get(name) else {
            return "-:0:0:0:-:0".to_string();
        };
        let digits = text.width / 4;
        let units: String = text.units.iter().map(|unit| format!("{unit:0digits$x}")).collect();
        let units = if units.is_empty() { "-" } else { &units };
        let (place, count, padded) = (start + text.place as u64, text.units.len(), if text.padded { '1' } else { '0' });
        format!("{source}:{}:{place}:{count}:{units}:{padded}", text.width)
    }

    /// A hatch answer after its places.
    pub fn hatch(&mut self, source: char, text_start: u64) -> String {
        let words: Vec<String> = self.words.iter().map(u32::to_string).collect();
        let numbers: Vec<String> = self.numbers.iter().map(|pattern| format!("{pattern:016x}")).collect();
        self.list("words", ",", &words);
        self.list("nums", ",", &numbers);
        self.number("nw", words.len() as u64);
        self.number("nn", numbers.len() as u64);
        let extrusion = ["extx", "exty", "extz"].map(|name| self.get(name, ZERO)).join(",");
        self.set("ext", extrusion);
        self.set("gname", self.text("gname", source, text_start));
        self.set("name", self.text("name", source, text_start));
        let order = [
            ("grad", "0"), ("gangle", ZERO), ("gshift", ZERO), ("gsingle", "0"), ("gtint", ZERO), ("gn", "0"),
            ("gcols", "-"), ("gname", ""), ("elev", ""), ("ext", ""), ("name", ""), ("solid", ""), ("assoc", ""),
            ("style", ""), ("type", ""), ("pangle", ZERO), ("pscale", ZERO), ("pdouble", "0"), ("pixel", ZERO),
            ("npaths", ""), ("nlines", "0"), ("nseeds", ""), ("nw", ""), ("nn", ""), ("words", ""), ("nums", ""),
        ];
        self.in_order(&order)
    }

    /// A prefix answer after its places. Absent: no-dictionary and nolinks true, the rest zero or false.
    pub fn prefix(&mut self) -> String {
        let mode = match self.get("rawmode", "").as_str() {
            "0" => "ByLayer",
            "1" => "ByPreviousEntity",
            "2" => "InBlock",
            _ => "Reserved",
        };
        self.set("mode", mode.to_string());
        self.set("nonfixed", if self.get("bylayer", "1") == "0" { "1" } else { "0" }.to_string());
        self.set("vis", ["full", "face", "edge"].map(|name| self.get(name, "0")).join(","));
        let order = [
            ("rawmode", ""), ("mode", ""), ("reactors", ""), ("nodict", "1"), ("chain", "0"), ("onlayer", "1"),
            ("nonfixed", ""), ("plot", "0"), ("material", "0"), ("shadow", "0"), ("invis", ""), ("nolinks", "1"),
            ("color", ""), ("rgb", "0:0"), ("alpha", "0:0"), ("scale", ""), ("ltype", "0"), ("vis", ""),
            ("weight", "0"), ("gfx", ""), ("xdata", ""), ("dataend", "0:0"),
        ];
        self.in_order(&order)
    }

    fn in_order(&self, order: &[(&str, &str)]) -> String {
        let one = |(name, absent): &(&str, &str)| format!("{name}={}", self.get(name, absent));
        order.iter().map(one).collect::<Vec<String>>().join(" ")
    }

    /// An inline text's answer.
    pub fn inline(text: LaidText, start: u64) -> String {
        let mut laid = Laid::default();
        laid.texts.insert("tv", text);
        laid.text("tv", 'm', start)
    }
}
