//! A look at a picture's text that does not lean on what wrote it: elements closed in order, entities whole, numbers finite.
#![allow(dead_code)]

/// The elements of a text that is well formed, as their start tags. Panics where it is not.
pub fn elements(svg: &str) -> Vec<String> {
    let body = svg.strip_prefix("<?xml version=\"1.0\" encoding=\"UTF-8\"?>\n").expect("the declaration");
    let (mut open, mut all, mut rest) = (Vec::new(), Vec::new(), body);
    while let Some((text, after)) = rest.split_once('<') {
        characters(text);
        let (tag, after) = after.split_once('>').expect("a tag ends");
        let name = tag.trim_start_matches('/').split([' ', '/']).next().expect("a name").to_string();
        if tag.starts_with('/') {
            assert_eq!(open.pop(), Some(name), "closed in order");
        } else {
            attributes(tag);
            all.push(tag.to_string());
            open.extend((!tag.ends_with('/')).then_some(name));
        }
        rest = after;
        assert!(!open.is_empty() || rest == "\n", "one root, and nothing behind it: {rest:?}");
    }
    assert!(open.is_empty() && all[0].starts_with("svg "), "{open:?}");
    all
}

fn characters(text: &str) {
    assert!(text.chars().all(|letter| letter == '\n' || !letter.is_control() && !"\u{fffe}\u{ffff}".contains(letter)), "{text:?}");
    for entity in text.split('&').skip(1) {
        assert!(["amp;", "lt;", "gt;", "quot;"].iter().any(|name| entity.starts_with(name)), "{entity}");
    }
}

fn attributes(tag: &str) {
    let parts: Vec<&str> = tag.split('"').collect();
    assert!(parts.len() % 2 == 1, "quotes come in pairs: {tag}");
    assert!(parts.iter().step_by(2).rev().skip(1).all(|part| part.ends_with('=')), "{tag}");
    parts.iter().for_each(|part| characters(part));
}

/// The numbers of all path data, which are finite; and letters are those of its commands alone.
pub fn path_numbers(elements: &[String]) -> Vec<f64> {
    let data = elements.iter().filter_map(|tag| Some(tag.split_once(" d=\"")?.1.split('"').next()?.to_string()));
    let numbers = data.flat_map(|data| {
        let words: Vec<String> = data.split([' ', 'M', 'L', 'C', 'A', 'Z']).filter(|word| !word.is_empty()).map(str::to_string).collect();
        words
    });
    numbers.map(|word| word.parse().ok().filter(|number: &f64| number.is_finite()).unwrap_or_else(|| panic!("{word} is no number"))).collect()
}
