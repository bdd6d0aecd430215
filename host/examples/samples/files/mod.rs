//! The files of requests, objects and a drawing, by their names.

mod accented;
mod bad;
mod body;
mod campus;
mod fills;
mod objects;
mod outlines;
mod padded;
mod plan;
mod prefixes;

#[path = "../../../tests/layouts/mod.rs"]
mod layouts;

#[path = "../../../tests/records/mod.rs"]
mod records;

/// All files: name and bytes.
pub fn all() -> Vec<(&'static str, Vec<u8>)> {
    let texts = [
        ("duct.txt", outlines::duct()),
        ("edges.txt", outlines::edges()),
        ("strings.txt", outlines::strings()),
        ("patterns.txt", fills::patterns()),
        ("gradients.txt", fills::gradients()),
        ("padded.txt", padded::text()),
        ("accented.txt", accented::text()),
        ("campus.txt", campus::text()),
        ("prefix.txt", prefixes::text()),
        ("bad.txt", bad::text()),
    ];
    let mut files: Vec<(&str, Vec<u8>)> = texts.into_iter().map(|(name, text)| (name, text.into_bytes())).collect();
    files.push(("plan.dwg", plan::drawing()));
    files.extend(objects::all().into_iter().map(|(name, laid)| (name, laid.bytes)));
    files
}
