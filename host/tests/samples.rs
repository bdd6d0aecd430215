//! What is stored under samples/: files and pictures are as they are made, and show what they are to show.

mod calls;
mod requests;
mod svg_text;

#[allow(dead_code)]
#[path = "../examples/samples/files/mod.rs"]
mod files;

use std::collections::BTreeSet;
use std::path::PathBuf;

use dwg_hatch::{CodePage, HatchEdge, HatchPathSegments, Point2D, TypedHatch};
use requests::Request;

/// The repository's folder.
fn root() -> PathBuf {
    PathBuf::from(env!("CARGO_MANIFEST_DIR")).join("..")
}

fn text(file: &str) -> String {
    std::fs::read_to_string(root().join(file)).unwrap_or_else(|error| panic!("{file}: {error}"))
}

fn stored(name: &str) -> String {
    text(&format!("samples/{name}"))
}

/// The pictures that are listed: name, status, and the words of the command.
fn pictures() -> Vec<(String, i32, Vec<String>)> {
    let list = stored("pictures.list");
    let lines = list.lines().filter(|line| !line.starts_with('#'));
    let picture = |line: &str| {
        let words: Vec<String> = line.split(' ').map(str::to_string).collect();
        (words[0].clone(), words[1].parse().expect("a status"), words[2..].to_vec())
    };
    lines.map(picture).collect()
}

#[test]
fn files_are_as_they_are_made() {
    for (name, bytes) in files::all() {
        let stored = std::fs::read(root().join("samples").join(name)).unwrap_or_else(|error| panic!("samples/{name}: {error}"));
        assert!(bytes == stored, "samples/{name} is not what host/examples/samples makes: call host/samples");
    }
}

#[test]
fn pictures_are_as_they_are_drawn() {
    for (name, status, words) in pictures() {
        let output = calls::tool().arg("draw").args(&words).current_dir(root()).output().expect("the tool starts");
        assert_eq!(output.status.code(), Some(status), "{name}");
        let drawn = String::from_utf8(output.stdout).expect("UTF-8");
        assert!(drawn == text(&name), "{name} is not what dwg-hatch draw makes: call host/samples");
        let elements = svg_text::elements(&drawn);
        assert!(!svg_text::path_numbers(&elements).is_empty(), "{name}");
    }
}

#[test]
fn every_file_but_an_object_has_a_picture_and_every_picture_is_listed() {
    let listed: BTreeSet<String> = pictures().into_iter().map(|picture| picture.0).collect();
    let entries = std::fs::read_dir(root().join("samples")).expect("samples").map(|entry| entry.expect("an entry").file_name());
    let names = entries.map(|name| format!("samples/{}", name.into_string().expect("a name")));
    assert_eq!(names.filter(|name| name.ends_with(".svg")).collect::<BTreeSet<_>>(), listed);
    for (name, _) in files::all().into_iter().filter(|file| !file.0.ends_with(".bin")) {
        let name = format!("samples/{name}");
        assert!(pictures().iter().any(|picture| picture.2.last().is_some_and(|word| *word == name)), "{name}");
    }
}

/// README's command for a picture that it shows is the one that makes it.
#[test]
fn pictures_of_the_readme_are_made_by_its_commands() {
    let readme = text("README.md");
    let shown: Vec<&str> = readme.split("](").skip(1).filter_map(|link| link.split(')').next()).filter(|link| link.ends_with(".svg")).collect();
    assert!(shown.len() >= 4, "{shown:?}");
    for name in shown {
        let (_, _, words) = pictures().into_iter().find(|picture| picture.0 == name).unwrap_or_else(|| panic!("{name} is not listed"));
        let command = format!("./dwg-hatch draw --output {} {}", name.rsplit('/').next().expect("a name"), words.join(" "));
        assert!(readme.contains(&command), "README shows {name}, and has no command \"{command}\"");
    }
}

/// Each refusal that bad.txt names is the one that its line is answered with.
#[test]
fn bad_lines_are_refused_by_their_numbers() {
    let text = stored("bad.txt");
    let lines: Vec<&str> = text.lines().collect();
    let named = |pair: &[&str]| Some((pair[0].strip_prefix("# Refusal ")?.split_once(':')?.0.to_string(), pair[1].to_string()));
    let pairs: Vec<(String, String)> = lines.windows(2).filter_map(named).collect();
    assert!(pairs.iter().map(|pair| pair.0.clone()).eq((1..=11).map(|number| number.to_string())));
    let requests: String = pairs.iter().map(|pair| format!("{}\n", pair.1)).collect();
    let answers = calls::answers(&["answer"], requests.as_bytes());
    for (answer, (number, _)) in answers.lines().zip(&pairs) {
        assert!(answer.starts_with(&format!("err {number} ")), "refusal {number}: {answer}");
    }
}

/// The hatches of a file, as doubles.
fn hatches(name: &str) -> Vec<TypedHatch> {
    let hatch = |line: &str| Request::of(line).body().read().expect("a hatch");
    stored(name).lines().filter(|line| line.starts_with("hatch")).map(hatch).collect()
}

/// The campus's hatches, as doubles.
fn campus() -> Vec<TypedHatch> {
    hatches("campus.txt")
}

/// One name padded and not, in units of 8 bits and of 16, and a zero unit alone; README shows what `read --names` says of it.
#[test]
fn padded_names_are_the_same_names() {
    let hatches = hatches("padded.txt");
    let texts = hatches.iter().map(|hatch| hatch.hatch.pattern_name);
    assert_eq!(texts.map(|text| (text.width, text.count, text.padded)).collect::<Vec<_>>(), [(8, 10, false), (8, 10, true), (16, 10, true), (8, 0, true)]);
    assert!(hatches[..3].iter().all(|hatch| hatch.pattern_name.is_same_name(&hatches[0].pattern_name)));
    assert!(!hatches[3].pattern_name.is_same_name(&hatches[0].pattern_name));
    let output = calls::tool().args(["read", "--names", "samples/padded.txt"]).current_dir(root()).output().expect("the tool starts");
    assert!(output.status.success() && output.stderr.is_empty(), "{output:?}");
    let list = "names that stand both padded and not: 1\n  pattern   \"DUCT-INSUL\": padded in 2 hatches, not padded in 1\n";
    assert!(String::from_utf8(output.stdout).expect("UTF-8").ends_with(list));
    assert!(text("README.md").contains(&list.replace("names", "    names").replace("  pattern", "      pattern")), "README has no such list");
}

/// Accented names before R2007, one of them again in 16-bit units, and one with a byte that stands for nothing; README shows what `read` says of them.
#[test]
fn accented_names_are_shown_by_their_page() {
    let hatches = hatches("accented.txt");
    let names = hatches.iter().map(|hatch| hatch.pattern_name.decoded(CodePage::Ansi1252).ok().map(|name| name.into_owned()));
    let shown = [Some("K\u{fc}che"), Some("\u{20ac} 5"), Some("Estaci\u{f3}n"), Some("K\u{fc}che"), None];
    assert!(names.eq(shown.iter().map(|name| name.map(str::to_string))));
    assert_eq!(hatches.iter().map(|hatch| hatch.hatch.pattern_name.width).collect::<Vec<_>>(), [8, 8, 8, 16, 8]);
    let [old, new] = [0, 3].map(|at| &hatches[at].pattern_name);
    assert!(old.is_same_name_in(new, CodePage::Ansi1252) && !old.is_same_name(new));
    let words = ["read", "--names", "--code-page", "1252", "samples/accented.txt"];
    let output = calls::tool().args(words).current_dir(root()).output().expect("the tool starts");
    assert!(output.status.success() && output.stderr.is_empty(), "{output:?}");
    let printed = String::from_utf8(output.stdout).expect("UTF-8");
    let lines: Vec<&str> = printed.lines().filter(|line| line.starts_with("  pattern ")).collect();
    assert_eq!(lines.len(), 6);
    let (readme, picture) = (text("README.md"), stored("accented.svg"));
    assert!(lines.iter().all(|line| readme.contains(&format!("\n    {line}\n"))), "README does not show {lines:?}");
    assert!(readme.contains(&format!("./dwg-hatch {}", words.join(" "))), "README has no such command");
    let titles = ["2: K\u{fc}che", "4: \u{20ac} 5", "6: Estaci\u{f3}n", "8: K\u{fc}che", "10: D\\x81N"];
    assert!(titles.iter().all(|title| picture.contains(&format!("<title>samples/accented.txt:{title}</title>"))));
    assert!(titles.iter().all(|title| picture.contains(&format!(">{title}</text>"))));
}

/// The ends of an edge in doubles, or computed from its numbers in single precision.
fn ends(edge: &HatchEdge, single: bool) -> [Point2D; 2] {
    let narrow = |number: f64| if single { f64::from(number as f32) } else { number };
    match edge {
        HatchEdge::Line { start, end } => [start, end].map(|point| Point2D { x: narrow(point.x), y: narrow(point.y) }),
        HatchEdge::Arc { center, radius, start_angle, end_angle, counter_clockwise } => [start_angle, end_angle].map(|angle| {
            let angle = if *counter_clockwise { narrow(*angle) } else { -narrow(*angle) };
            Point2D { x: narrow(center.x) + narrow(*radius) * angle.cos(), y: narrow(center.y) + narrow(*radius) * angle.sin() }
        }),
        edge => panic!("{edge:?}"),
    }
}

/// The gaps between edges that follow each other, of all elbows.
fn gaps(hatches: &[TypedHatch], single: bool) -> Vec<f64> {
    let mut gaps = Vec::new();
    for path in hatches.iter().flat_map(|hatch| &hatch.paths) {
        let HatchPathSegments::Edges(edges) = &path.segments else { continue };
        let ends: Vec<[Point2D; 2]> = edges.iter().map(|edge| ends(edge, single)).collect();
        let after = ends.iter().cycle().skip(1);
        gaps.extend(ends.iter().zip(after).filter(|_| ends.len() > 1).map(|(one, next)| (one[1].x - next[0].x).hypot(one[1].y - next[0].y)));
    }
    gaps
}

/// In doubles all elbows close to a hundred-millionth of a foot; in single precision most are torn by more than a tenth.
#[test]
fn the_campus_is_whole_in_doubles_and_torn_in_singles() {
    let [doubles, singles] = [false, true].map(|single| gaps(&campus(), single));
    assert_eq!((doubles.len(), singles.len()), (48, 48));
    assert!(doubles.iter().all(|gap| *gap < 1e-8), "{doubles:?}");
    let torn = singles.iter().filter(|gap| **gap > 0.1).count();
    assert!(torn > 40, "{torn} of {}", singles.len());
}

/// Moved to the origin that the picture is counted from, all elbows close in single precision too, to a thousandth of a foot.
#[test]
fn the_campus_is_whole_in_singles_once_it_is_moved() {
    assert!(stored("campus-moved.svg").contains(">counted from 4650000, 9230000</text>"));
    let mut hatches = campus();
    hatches.iter_mut().for_each(|hatch| hatch.move_origin(4_650_000.0, 9_230_000.0).expect("it can be moved"));
    let singles = gaps(&hatches, true);
    assert_eq!(singles.len(), 48);
    assert!(singles.iter().all(|gap| *gap < 1e-3), "{singles:?}");
}

/// Ends of straight pieces that adjoin are the very same doubles.
#[test]
fn adjoining_ends_are_the_same_doubles() {
    let hatches = campus();
    let points: Vec<Vec<Point2D>> = hatches.iter().map(|hatch| hatch.paths.iter().flat_map(|path| path.points()).collect()).collect();
    // Of each building the reducer, the first duct, its elbow, the second duct, its elbow, the third duct, a reducer, the fourth duct.
    for building in 0..6 {
        let first = 1 + 19 * building + 2;
        for piece in first..first + 7 {
            let shared = points[piece].iter().filter(|point| points[piece + 1].contains(point)).count();
            assert_eq!(shared, 2, "pieces {piece} and {}", piece + 1);
        }
    }
}
