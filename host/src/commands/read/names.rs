//! The names of all hatches of an input: which of them stand there both padded and not, and so may have been filed as two.

use std::collections::HashMap;

use dwg_hatch::{Name, TypedHatch};

use super::json::{array, object, or_null, string};
use super::json_forms::units;
use super::page::Page;
use super::summary::shown;
use crate::commands::spelling::Spelling;

/// What a name names. The names of either are listed apart, in this order.
#[derive(Clone, Copy, Debug, PartialEq, Eq, PartialOrd, Ord, Hash)]
enum Kind {
    Pattern,
    Gradient,
}

impl Kind {
    fn word(self) -> &'static str {
        match self {
            Kind::Pattern => "pattern",
            Kind::Gradient => "gradient",
        }
    }
}

/// The names of one hatch, each with whether it is padded: the pattern's, and the gradient's if there is one.
pub struct Named {
    pattern: (Name, bool),
    gradient: Option<(Name, bool)>,
}

impl Named {
    /// Those of a hatch that was read.
    pub fn of(typed: TypedHatch<u64>) -> Named {
        let gradient = typed.hatch.gradient.map(|fill| fill.name.padded);
        Named { pattern: (typed.pattern_name, typed.hatch.pattern_name.padded), gradient: typed.gradient_name.zip(gradient) }
    }
}

/// In how many hatches a name stands, and how many other names stood before it.
struct Count {
    before: usize,
    padded: usize,
    not_padded: usize,
}

/// The names of the hatches so far. Each is held once, however often it stands.
#[derive(Default)]
pub struct Names {
    names: HashMap<(Kind, Name), Count>,
    spelling: Spelling,
}

impl Names {
    /// None so far; they are compared as they are spelt.
    pub fn spelt(spelling: Spelling) -> Names {
        Names { names: HashMap::new(), spelling }
    }

    /// Counts the names of one hatch more.
    pub fn add(&mut self, named: Named) {
        self.count(Kind::Pattern, named.pattern);
        named.gradient.into_iter().for_each(|name| self.count(Kind::Gradient, name));
    }

    fn count(&mut self, kind: Kind, (name, padded): (Name, bool)) {
        let before = self.names.len();
        let count = self.names.entry((kind, filed(name, self.spelling))).or_insert(Count { before, padded: 0, not_padded: 0 });
        *if padded { &mut count.padded } else { &mut count.not_padded } += 1;
    }

    /// Those that stand both padded and not: pattern names first, each in the order in which they first stood.
    fn both(&self) -> Vec<(Kind, &Name, &Count)> {
        let names = self.names.iter().map(|((kind, name), count)| (*kind, name, count));
        let mut both: Vec<_> = names.filter(|(_, _, count)| count.padded > 0 && count.not_padded > 0).collect();
        both.sort_unstable_by_key(|(kind, _, count)| (*kind, count.before));
        both
    }

    /// The list for a person, each line with its end.
    pub fn summary(&self) -> String {
        const TITLE: &str = "names that stand both padded and not";
        let both = self.both();
        let mut page = match both.len() {
            0 => Page::titled(format_args!("{TITLE}: none")),
            number => Page::titled(format_args!("{TITLE}: {number}")),
        };
        for (kind, name, count) in both {
            let (name, hatches) = (shown(name, self.spelling), if count.padded == 1 { "hatch" } else { "hatches" });
            page.line(kind.word(), format_args!("{name}: padded in {} {hatches}, not padded in {}", count.padded, count.not_padded));
        }
        page.text()
    }

    /// The list as a JSON object, with a line end. docs/JSON.md has the fields.
    pub fn json(&self) -> String {
        let name = |(kind, name, count): (Kind, &Name, &Count)| {
            object([
                ("kind", string(kind.word())),
                ("string", or_null(name.as_str().map(string))),
                ("units", or_null(name.as_str().is_none().then(|| units(name)))),
                ("padded", count.padded.to_string()),
                ("not_padded", count.not_padded.to_string()),
            ])
        };
        object([("padded_and_not", array(self.both().into_iter().map(name)))]) + "\n"
    }
}

/// What a name is filed under: its characters, if they are known. It is equal for two names exactly where they are the same by [`Name::is_same_name`] or, by a
/// code page, by [`Name::is_same_name_in`].
fn filed(name: Name, spelling: Spelling) -> Name {
    match spelling.of(&name) {
        Some(characters) => Name::Characters(characters.into_owned()),
        None => name,
    }
}

#[cfg(test)]
mod tests {
    use super::*;
    use dwg_hatch::CodePage::Ansi1252;

    fn bytes(units: &[u8]) -> Name {
        Name::Bytes(units.to_vec())
    }

    fn characters(text: &str) -> Name {
        Name::Characters(text.to_string())
    }

    /// The names of hatches that have these pattern names and no gradient.
    fn patterns(names: &[(Name, bool)]) -> Names {
        let mut all = Names::default();
        names.iter().for_each(|pattern| all.add(Named { pattern: pattern.clone(), gradient: None }));
        all
    }

    #[test]
    fn names_are_filed_as_they_are_the_same() {
        let names = ["", "NET", "NET\0", "\0", "net", "N\u{c9}T", "\u{c9}"].map(characters).into_iter();
        let units = [&b""[..], b"NET", b"NET\0", b"\0", b"N\xc9T", b"N\xc3\x89T", b"\xc9", b"\x7f", b"\x80", b"\x81", b"\x8d"].map(bytes);
        let names: Vec<Name> = names.chain(units).collect();
        let mut same = [0, 0];
        for one in &names {
            assert!(one.is_same_name(one));
            for other in &names {
                let is_filed_so = |spelling| filed(one.clone(), spelling) == filed(other.clone(), spelling);
                assert_eq!(one.is_same_name(other), is_filed_so(Spelling::default()), "{one:?} {other:?}");
                assert_eq!(one.is_same_name(other), other.is_same_name(one), "{one:?} {other:?}");
                assert_eq!(one.is_same_name_in(other, Ansi1252), is_filed_so(Spelling(Some(Ansi1252))), "{one:?} {other:?}");
                assert_eq!(one.is_same_name_in(other, Ansi1252), other.is_same_name_in(one, Ansi1252), "{one:?} {other:?}");
                same[0] += usize::from(one.is_same_name(other));
                same[1] += usize::from(one.is_same_name_in(other, Ansi1252));
            }
        }
        // Each with itself, and four names of both widths with one another; by the page two more, whose characters are not ASCII.
        assert_eq!(same, [names.len() + 8, names.len() + 12]);
    }

    #[test]
    fn only_what_stands_both_ways_is_listed() {
        assert_eq!(patterns(&[]).summary(), "names that stand both padded and not: none\n");
        assert_eq!(patterns(&[(bytes(b"A"), true), (bytes(b"B"), false), (bytes(b"A"), true)]).summary(), "names that stand both padded and not: none\n");
        assert_eq!(patterns(&[(bytes(b"A"), true), (bytes(b"B"), false)]).json(), "{\"padded_and_not\":[]}\n");
    }

    #[test]
    fn names_are_listed_as_they_first_stood_and_patterns_first() {
        let mut names = Names::default();
        let gradient = |name: &str, padded: bool| Some((characters(name), padded));
        names.add(Named { pattern: (bytes(b"NET"), false), gradient: gradient("LINEAR", true) });
        names.add(Named { pattern: (bytes(b"\xc9"), true), gradient: gradient("NET", true) });
        names.add(Named { pattern: (bytes(b"\xc9"), false), gradient: gradient("LINEAR", false) });
        names.add(Named { pattern: (characters("NET"), true), gradient: None });
        names.add(Named { pattern: (characters("NET"), true), gradient: None });
        let wanted = [
            "names that stand both padded and not: 3",
            "  pattern   \"NET\": padded in 2 hatches, not padded in 1",
            "  pattern   bytes [c9]: padded in 1 hatch, not padded in 1",
            "  gradient  \"LINEAR\": padded in 1 hatch, not padded in 1",
        ];
        assert_eq!(names.summary().lines().collect::<Vec<_>>(), wanted);
        let wanted = concat!(
            r#"{"padded_and_not":[{"kind":"pattern","string":"NET","units":null,"padded":2,"not_padded":1},"#,
            r#"{"kind":"pattern","string":null,"units":"c9","padded":1,"not_padded":1},"#,
            r#"{"kind":"gradient","string":"LINEAR","units":null,"padded":1,"not_padded":1}]}"#,
        );
        assert_eq!(names.json().trim_end(), wanted);
    }
}
