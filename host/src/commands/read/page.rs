//! A text for a person that grows line by line.

use std::fmt::{Arguments, Write};

/// Where the text of a line starts, and the spaces before it where a line is about nothing of its own.
const SPACES: &str = "            ";

/// Lines, each with its end. All are written into one text, as they come.
pub struct Page(String);

impl Page {
    /// A page with its first line. It has room for a hatch of some paths, so that it seldom has to move as it grows.
    pub fn titled(title: Arguments<'_>) -> Page {
        let mut page = Page(String::with_capacity(1000));
        page.rest(title);
        page
    }

    /// A line with what it is about in front.
    pub fn line(&mut self, about: &str, text: Arguments<'_>) {
        let start = self.0.len();
        self.0.push_str("  ");
        self.0.push_str(about);
        self.column(start);
        self.rest(text);
    }

    /// The same about one of many, by its place from 0; they are numbered from 1.
    pub fn numbered(&mut self, about: &str, at: usize, text: Arguments<'_>) {
        let start = self.0.len();
        self.write(format_args!("  {about} {}", at + 1));
        self.column(start);
        self.rest(text);
    }

    /// The lines.
    pub fn text(self) -> String {
        self.0
    }

    /// Spaces up to the column of the texts, one at least, in the line that starts there.
    fn column(&mut self, start: usize) {
        let used = (self.0.len() - start).min(SPACES.len() - 1);
        self.0.push_str(&SPACES[used..]);
    }

    fn rest(&mut self, text: Arguments<'_>) {
        self.write(text);
        self.0.push('\n');
    }

    fn write(&mut self, text: Arguments<'_>) {
        self.0.write_fmt(text).expect("a String takes what is written");
    }
}

#[cfg(test)]
mod tests {
    use super::*;

    #[test]
    fn texts_stand_in_one_column() {
        let mut page = Page::titled(format_args!("file.txt:{}", 7));
        page.line("plane", format_args!("elevation {}", 1.5));
        page.line("", format_args!("no points"));
        page.numbered("path", 0, format_args!("a line"));
        page.numbered("path", 99_999, format_args!("an arc"));
        assert_eq!(page.text(), "file.txt:7\n  plane     elevation 1.5\n            no points\n  path 1    a line\n  path 100000 an arc\n");
    }
}
