//! Why a command of the tool ends, or passes a line over.

use std::fmt;
use std::io;

/// What went wrong, as one line for a person, and the tool's status for it.
#[derive(Debug)]
pub enum Failure {
    /// Bad usage, or a line that is no request: status 2.
    Usage(String),
    /// A file cannot be read: status 1.
    Read(String),
    /// Something cannot be drawn, or a picture cannot be written: status 1.
    Draw(String),
    /// A whole drawing, or an object in it, is not as it should be: status 1.
    Drawing(String),
    /// All is well, and there is nothing to read: status 0.
    Nothing(String),
    /// Standard input cannot be read or standard output not be written, which the error says: status 1.
    Io(io::Error),
}

impl Failure {
    /// The tool's status.
    pub fn status(&self) -> u8 {
        match self {
            Failure::Nothing(_) => 0,
            Failure::Usage(_) => 2,
            Failure::Read(_) | Failure::Draw(_) | Failure::Drawing(_) | Failure::Io(_) => 1,
        }
    }

    /// Whether who reads the answers has closed the pipe, and so wants no more of them.
    pub fn is_closed_pipe(&self) -> bool {
        matches!(self, Failure::Io(error) if error.kind() == io::ErrorKind::BrokenPipe)
    }
}

impl fmt::Display for Failure {
    fn fmt(&self, f: &mut fmt::Formatter<'_>) -> fmt::Result {
        match self {
            Failure::Usage(line) | Failure::Read(line) | Failure::Draw(line) | Failure::Drawing(line) | Failure::Nothing(line) => f.write_str(line),
            Failure::Io(error) => write!(f, "{error}"),
        }
    }
}

impl std::error::Error for Failure {}

impl From<io::Error> for Failure {
    fn from(error: io::Error) -> Failure {
        Failure::Io(error)
    }
}

/// A word or a file's name as it is shown in a line: what would end the line or cannot be shown is escaped, and a long one is cut.
pub fn shown(word: &[u8]) -> String {
    const LONGEST: usize = 200;
    let mut line = String::new();
    for chunk in word[..word.len().min(LONGEST)].utf8_chunks() {
        chunk.valid().chars().for_each(|letter| if letter.is_control() { line.extend(letter.escape_debug()) } else { line.push(letter) });
        line.extend(chunk.invalid().iter().map(|byte| format!("\\x{byte:02x}")));
    }
    if word.len() > LONGEST {
        line.push_str("...");
    }
    line
}

#[cfg(test)]
mod tests {
    use super::*;

    #[test]
    fn bad_usage_is_status_2() {
        assert_eq!(Failure::Usage("no command is given".to_string()).status(), 2);
    }

    #[test]
    fn words_are_shown_on_one_line() {
        assert_eq!(shown(b"a file.txt"), "a file.txt");
        assert_eq!(shown(b"two\nlines\xff"), "two\\nlines\\xff");
        assert_eq!(shown(&[b'0'; 1000]).len(), 203);
    }
}
