//! What a hatch that was read may still have been read wrongly by: a wrong release, start bit or payload may give a whole reading too.

use dwg_hatch::Release;

use crate::commands::written::grouped;
use crate::protocol::request::HatchRequest;

/// So many bits may be left behind a body unread, as a payload is whole bytes.
const LEFT: u128 = 8;

/// The line of warning about a body that was read to this bit, if there is one.
pub fn warning(request: &HatchRequest, end: usize) -> Option<String> {
    let parts: Vec<String> = [no_strings(request), unread(request, end)].into_iter().flatten().collect();
    (!parts.is_empty()).then(|| parts.join("; "))
}

/// From R2007 on the texts of a drawing's hatches come from a string reader.
fn no_strings(request: &HatchRequest) -> Option<String> {
    let release = Release::try_from(request.release).ok().filter(|release| *release >= Release::R2007)?;
    let told = || format!("it is read without strings, though {release}'s drawings have them; lend them by hatchs or --strings");
    request.strings.is_none().then(told)
}

fn unread(request: &HatchRequest, end: usize) -> Option<String> {
    let left = body_bits(request, end).saturating_sub(end as u128);
    (left > LEFT).then(|| format!("{} bits are left unread behind it; check the release and the start bit, and that the payload is its own", grouped(left)))
}

/// Where the body should have ended: with its payload, or where the strings start, if they are lent from the same payload behind it.
fn body_bits(request: &HatchRequest, end: usize) -> u128 {
    match &request.strings {
        Some(strings) if strings.payload == request.payload && strings.start >= end => strings.start as u128,
        _ => request.payload.bits(),
    }
}

#[cfg(test)]
mod tests {
    use super::*;
    use crate::protocol::request::{parse, Request};

    fn told(line: &str, end: usize) -> String {
        let Some(Request::Hatch(request)) = parse(line.as_bytes()) else { panic!("{line}") };
        warning(&request, end).unwrap_or_default()
    }

    #[test]
    fn more_than_a_byte_unread_is_told() {
        assert_eq!(told("hatch 2 0 A9AAA0", 16), "");
        assert!(told("hatch 2 0 A9AAA0", 15).starts_with("9 bits are left unread behind it; "));
        assert!(told("hatch 2 0 z1000", 20).starts_with("7,980 bits are left"));
        assert_eq!(told("hatch 2 0 A9AAA0", usize::MAX), "");
    }

    #[test]
    fn missing_strings_are_told_from_r2007_on() {
        for release in 1..=8 {
            let line = told(&format!("hatch {release} 0 A9AAA0"), 20);
            assert_eq!(line.starts_with("it is read without strings, though R20"), (4..=7).contains(&release), "{release}: {line}");
            assert_eq!(told(&format!("hatchs {release} 0 A9AAA0 0 0 -"), 20), "");
        }
        assert!(told("hatch 7 0 A9AAA0", 0).contains("--strings; 24 bits are left"));
    }

    /// Strings that are lent from behind the body of the same payload are no rest of it; else they are.
    #[test]
    fn strings_behind_the_body_are_not_unread() {
        let line = |start: usize, strings: &str| format!("hatchs 4 0 A9AAA0400000000000 {start} 72 {strings}");
        assert_eq!(told(&line(26, "A9AAA0400000000000"), 20), "");
        assert!(told(&line(29, "A9AAA0400000000000"), 20).starts_with("9 bits"));
        assert!(told(&line(19, "A9AAA0400000000000"), 20).starts_with("52 bits"));
        assert!(told(&line(26, "A9AAA0400000000001"), 20).starts_with("52 bits"));
    }
}
