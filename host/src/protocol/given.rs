//! A record and its lists as the fields of a request: the protocol's R, of the form that a hatch's answer prints.

use dwg_hatch::{GivenGradient, GivenHatch, GradientColor, Places, Source, Text};

use crate::protocol::request::{number, pattern};

/// A hatch that a request hands over, with each double as its 64 bits.
#[derive(Clone, Debug, PartialEq)]
pub struct Given {
    /// The record.
    pub hatch: GivenHatch<u64>,
    /// The list of words, whole.
    pub words: Vec<u32>,
    /// The list of numbers, whole.
    pub numbers: Vec<u64>,
}

/// The names of the fields. Each may stand at most once, in any order; `gflag` is taken, and a record has no place for it yet.
const NAMES: [&str; 27] = [
    "grad", "gflag", "gangle", "gshift", "gsingle", "gtint", "gn", "gcols", "gname", "elev", "ext", "name", "solid", "assoc", "style", "type", "pangle",
    "pscale", "pdouble", "pixel", "npaths", "nlines", "nseeds", "nw", "nn", "words", "nums",
];

/// The values of the fields that a request has, by their names' order.
struct Fields<'a>([Option<&'a [u8]>; NAMES.len()]);

impl Given {
    /// The record and its lists; `None` if a field is none of the protocol's, stands twice, or has a value that it cannot have.
    pub fn parse(words: &[&[u8]]) -> Option<Given> {
        let fields = Fields::parse(words)?;
        fields.number("gflag", u32::MAX)?;
        let list = fields.list("words", b',', |word| number(word).and_then(|word| u32::try_from(word).ok()))?;
        let numbers = fields.list("nums", b',', pattern)?;
        let length = |name, length| fields.value(name).map_or(Some(length), |value| number(value).and_then(|value| usize::try_from(value).ok()));
        let (words_used, numbers_used) = (length("nw", list.len())?, length("nn", numbers.len())?);
        let hatch = GivenHatch {
            gradient: fields.gradient()?,
            elevation: fields.double("elev")?,
            extrusion: fields.extrusion()?,
            pattern_name: fields.text("name")?,
            solid_fill: fields.number("solid", u8::MAX)?,
            associative: fields.number("assoc", u8::MAX)?,
            pattern_style: fields.number("style", u16::MAX)?,
            pattern_type: fields.number("type", u16::MAX)?,
            pattern_angle: fields.double("pangle")?,
            pattern_scale: fields.double("pscale")?,
            pattern_double: fields.number("pdouble", u8::MAX)?,
            pixel_size: fields.double("pixel")?,
            num_paths: fields.number("npaths", usize::MAX)?,
            num_pattern_lines: fields.number("nlines", usize::MAX)?,
            num_seed_points: fields.number("nseeds", usize::MAX)?,
            words_used,
            numbers_used,
            places: Places { main: 0, string: 0 },
        };
        Some(Given { hatch, words: list, numbers })
    }
}

impl<'a> Fields<'a> {
    fn parse(words: &[&'a [u8]]) -> Option<Fields<'a>> {
        let mut fields = Fields([None; NAMES.len()]);
        for word in words {
            let at = word.iter().position(|byte| *byte == b'=')?;
            let place = NAMES.iter().position(|name| name.as_bytes() == &word[..at])?;
            if fields.0[place].replace(&word[at + 1..]).is_some() {
                return None;
            }
        }
        Some(fields)
    }

    fn value(&self, name: &str) -> Option<&'a [u8]> {
        NAMES.iter().zip(self.0).find(|(known, _)| **known == name).and_then(|(_, value)| value)
    }

    /// A number that its type can hold; 0 if the field is missing. The greatest says which type it is.
    fn number<Number: TryFrom<u64> + Default>(&self, name: &str, _greatest: Number) -> Option<Number> {
        self.value(name).map_or(Some(Number::default()), |value| number(value).and_then(|value| Number::try_from(value).ok()))
    }

    fn double(&self, name: &str) -> Option<u64> {
        self.value(name).map_or(Some(0), pattern)
    }

    fn extrusion(&self) -> Option<[u64; 3]> {
        let Some(value) = self.value("ext") else { return Some([0; 3]) };
        value.split(|byte| *byte == b',').map(pattern).collect::<Option<Vec<u64>>>()?.try_into().ok()
    }

    /// A list; `-` and a missing field are empty ones.
    fn list<Item>(&self, name: &str, separator: u8, item: impl Fn(&[u8]) -> Option<Item>) -> Option<Vec<Item>> {
        match self.value(name) {
            None | Some(b"-") => Some(Vec::new()),
            Some(value) => value.split(|byte| *byte == separator).map(item).collect(),
        }
    }

    fn text(&self, name: &str) -> Option<Text> {
        self.value(name).map_or(Some(Text { source: Source::None, width: 0, position: 0, count: 0, padded: false }), text)
    }

    fn gradient(&self) -> Option<GivenGradient<u64>> {
        let present = match self.number("grad", u64::MAX)? {
            0 => false,
            1 => true,
            _ => return None,
        };
        let mut gradient = GivenGradient { present, ..GivenGradient::default() };
        let colors = self.list("gcols", b';', color)?;
        gradient.colors.get_mut(..colors.len())?.copy_from_slice(&colors);
        (gradient.angle, gradient.shift, gradient.tint) = (self.double("gangle")?, self.double("gshift")?, self.double("gtint")?);
        gradient.is_single_color = self.number("gsingle", u32::MAX)?;
        gradient.num_colors = self.number("gn", usize::MAX)?;
        gradient.name = self.text("gname")?;
        Some(gradient)
    }
}

/// A colour: DOUBLE/SHORT/RGB/BYTE.
fn color(field: &[u8]) -> Option<GradientColor<u64>> {
    let parts: Vec<&[u8]> = field.split(|byte| *byte == b'/').collect();
    let [double, short, rgb, byte] = parts[..] else { return None };
    Some(GradientColor {
        unknown_double: pattern(double)?,
        unknown_short: signed(short)?,
        rgb: number(rgb)?.try_into().ok()?,
        ignored_color_byte: number(byte)?.try_into().ok()?,
    })
}

/// A plain decimal number with a minus sign or without.
fn signed(field: &[u8]) -> Option<i16> {
    let (sign, digits) = field.strip_prefix(b"-").map_or((1, field), |digits| (-1, digits));
    let value = i64::try_from(number(digits)?).ok()?;
    i16::try_from(sign * value).ok()
}

/// A text: SOURCE:WIDTH:POSITION:COUNT:UNITS:PADDED. Where it lies and whether it is padded is the record's; its units are looked at as digits alone,
/// since no call here takes them.
fn text(field: &[u8]) -> Option<Text> {
    let parts: Vec<&[u8]> = field.split(|byte| *byte == b':').collect();
    let [source, width, position, count, units, padded] = parts[..] else { return None };
    let source = match source {
        b"-" => Source::None,
        b"m" => Source::Main,
        b"s" => Source::String,
        _ => return None,
    };
    let padded = match number(padded)? {
        0 => false,
        1 => true,
        _ => return None,
    };
    let width: u8 = number(width)?.try_into().ok()?;
    let digits = usize::from(width / 4);
    let are_units = matches!(width, 8 | 16) && !units.is_empty() && units.len() % digits == 0 && units.iter().all(u8::is_ascii_hexdigit);
    let (position, count) = (number(position)?.try_into().ok()?, number(count)?.try_into().ok()?);
    (units == b"-" || are_units).then_some(Text { source, width, position, count, padded })
}

#[cfg(test)]
mod tests {
    use super::*;

    fn given(line: &str) -> Option<Given> {
        Given::parse(&line.split(' ').filter(|word| !word.is_empty()).map(str::as_bytes).collect::<Vec<_>>())
    }

    #[test]
    fn missing_fields_are_0_absent_or_empty() {
        let none = given("").expect("a record");
        assert_eq!((none.hatch.gradient.clone(), none.hatch.extrusion, none.hatch.num_paths), (GivenGradient::default(), [0; 3], 0));
        assert!(none.words.is_empty() && none.numbers.is_empty() && none.hatch.pattern_name.source == Source::None);
        let lists = given("nums=0000000000000001,8000000000000000 words=3,4294967295").expect("lists");
        assert_eq!((lists.words, lists.numbers), (vec![3, u32::MAX], vec![1, 1 << 63]));
        assert_eq!((lists.hatch.words_used, lists.hatch.numbers_used), (2, 2));
        let other = given("nw=18446744073709551615 nn=0 words=- nums=0000000000000001").expect("lists");
        assert_eq!((other.hatch.words_used, other.hatch.numbers_used, other.numbers.len()), (usize::MAX, 0, 1));
    }

    #[test]
    fn each_field_has_its_place() {
        let line = "gcols=0000000000000002/-32768/7/255;0000000000000003/5/4294967295/0 gn=18446744073709551615 grad=1 gangle=0000000000000004 \
            gshift=0000000000000005 gsingle=6 gtint=0000000000000007 gname=s:16:8:1:0041:1 elev=0000000000000009 name=m:8:10:2:4142:0 gflag=1 \
            ext=000000000000000a,000000000000000b,000000000000000c solid=255 assoc=2 style=65535 type=13 pangle=000000000000000e pscale=000000000000000f \
            pdouble=3 pixel=0000000000000010 npaths=17 nlines=18 nseeds=19";
        let Given { hatch, .. } = given(line).expect("a record");
        let gradient = &hatch.gradient;
        assert_eq!((gradient.present, gradient.angle, gradient.shift, gradient.is_single_color, gradient.tint), (true, 4, 5, 6, 7));
        let color = |at: usize| (gradient.colors[at].unknown_double, gradient.colors[at].unknown_short, gradient.colors[at].rgb);
        assert_eq!((gradient.num_colors, color(0), color(1), color(2)), (usize::MAX, (2, i16::MIN, 7), (3, 5, u32::MAX), (0, 0, 0)));
        let name = Text { source: Source::String, width: 16, position: 8, count: 1, padded: true };
        assert_eq!((gradient.name, gradient.colors[0].ignored_color_byte), (name, 255));
        assert_eq!((hatch.elevation, hatch.extrusion), (9, [10, 11, 12]));
        assert_eq!((hatch.pattern_name.position, hatch.pattern_name.padded), (10, false));
        assert_eq!((hatch.solid_fill, hatch.associative, hatch.pattern_double), (255, 2, 3));
        assert_eq!((hatch.pattern_style, hatch.pattern_type, hatch.pattern_angle, hatch.pattern_scale, hatch.pixel_size), (65535, 13, 14, 15, 16));
        assert_eq!((hatch.num_paths, hatch.num_pattern_lines, hatch.num_seed_points), (17, 18, 19));
    }

    #[test]
    fn bad_values_are_no_record() {
        let seventeen = vec!["0000000000000000/0/0/0"; 17].join(";");
        let lines = "solid|solid=|solid=256|solid=-1|assoc=256|pdouble=1.0|grad=2|gflag=4294967296|style=65536|type=65536|gsingle=4294967296|npaths=x\
            |npaths=18446744073709551616|nw=18446744073709551616|nn=-|words=|words=1,|words=4294967296|words=1,,2|words=-,1|nums=|nums=0|nums=000000000000000g\
            |nums=00000000000000001|elev=0|ext=0000000000000000,0000000000000000|ext=0000000000000000|name=|name=m:8:0:0:0|name=x:8:0:0:-:0|name=m:256:0:0:-:0\
            |name=m:8:0:0:4:0|name=m:16:0:0:41:0|name=m:8:0:0::0|name=m:7:0:0:41:0|name=m:8:0:0:-|gname=m:8:0:0:4142|name=m:8:0:0:-:0:0|gname=-:0:0:0:-\
            |name=m:8:0:0:-:2|name=m:8:0:0:-:-1|name=m:8:0:0:-:|name=m:8:0:0:-:-|name=m:8:0:0:-:x|name=m:8:0:0:-:18446744073709551616\
            |nothing=1|Solid=1|=1|gcols=|gcols=0000000000000000/0/0\
            |gcols=0000000000000000/32768/0/0|gcols=0000000000000000/0/4294967296/0|gcols=0000000000000000/0/0/256|gcols=0000000000000000/+1/0/0\
            |solid=1 solid=1|nums=- nums=-";
        for line in lines.split('|').chain([format!("gcols={seventeen}").as_str()]) {
            assert_eq!(given(line), None, "{line}");
        }
        assert!(given("name=m:8:0:0:4a:0 name= ").is_none() && given("name=m:7:0:0:-:0 gname=-:0:0:0:-:0").is_some());
    }

    /// Whatever else the text says, since a move does not look at names.
    #[test]
    fn padded_is_0_or_1() {
        let padded = |line: &str| given(line).map(|given| (given.hatch.pattern_name.padded, given.hatch.gradient.name.padded));
        assert_eq!(padded("name=m:8:10:0:-:1"), Some((true, false)));
        assert_eq!(padded("name=m:8:10:2:4142:0 gname=s:16:0:1:0041:1"), Some((false, true)));
        assert_eq!(padded("name=-:0:0:0:-:1 gname=-:0:0:0:-:0"), Some((true, false)));
    }
}
