//! Errors, and their texts for the user.

use std::fmt;
use std::io;
use std::path::{Path, PathBuf};

/// A failure of the program.
#[derive(Debug)]
pub enum Error {
    /// The command line is wrong.
    Usage(String),
    /// A file can't be opened, read or written.
    File {
        /// The file.
        path: PathBuf,
        /// The system's error.
        error: io::Error,
    },
    /// A line of the file has a fault.
    Data {
        /// The file.
        path: PathBuf,
        /// The line, from 1 on.
        line: u64,
        /// The fault, and the expected text.
        wrong: String,
    },
    /// A text on the command line has a fault.
    Query(QueryError),
    /// The reader of standard output has closed it.
    Closed,
}

/// An error at one position of the text of an option.
#[derive(Clone, Debug, PartialEq, Eq)]
pub struct QueryError {
    /// The byte of the text at which the fault begins.
    pub at: usize,
    /// The fault, and the expected text.
    pub wrong: String,
    /// The option and its text, once both are known.
    pub of: Option<(&'static str, String)>,
}

impl QueryError {
    /// Returns an error at a byte of the text.
    #[must_use]
    pub fn new(at: usize, wrong: impl Into<String>) -> QueryError {
        QueryError {
            at,
            wrong: wrong.into(),
            of: None,
        }
    }

    /// Returns the error with the option and its text.
    #[must_use]
    pub fn of(self, option: &'static str, text: &str) -> QueryError {
        QueryError {
            of: Some((option, text.to_string())),
            ..self
        }
    }
}

impl Error {
    /// Returns the error of a file.
    #[must_use]
    pub fn file(path: &Path, error: io::Error) -> Error {
        Error::File {
            path: path.to_path_buf(),
            error,
        }
    }

    /// Returns the error of a line of a file.
    #[must_use]
    pub fn data(path: &Path, line: u64, wrong: impl Into<String>) -> Error {
        Error::Data {
            path: path.to_path_buf(),
            line,
            wrong: wrong.into(),
        }
    }

    /// Returns the error of standard output. Its reader may have closed it.
    #[must_use]
    pub fn output(error: io::Error) -> Error {
        match error.kind() {
            io::ErrorKind::BrokenPipe => Error::Closed,
            _ => Error::file(Path::new("standard output"), error),
        }
    }
}

impl From<QueryError> for Error {
    fn from(error: QueryError) -> Error {
        Error::Query(error)
    }
}

impl fmt::Display for QueryError {
    /// Writes the message, and the line of the text with a caret below the position.
    fn fmt(&self, f: &mut fmt::Formatter<'_>) -> fmt::Result {
        let Some((option, text)) = &self.of else {
            return f.write_str(&self.wrong);
        };
        let before = &text[..self.at];
        let start = before.rfind('\n').map_or(0, |end| end + 1);
        let line = text[start..].split('\n').next().unwrap_or_default();
        let line: String = line.chars().map(visible).collect();
        let spaces = " ".repeat(text[start..self.at].chars().count());
        write!(f, "{option}: {}\n  {line}\n  {spaces}^", self.wrong)
    }
}

impl fmt::Display for Error {
    fn fmt(&self, f: &mut fmt::Formatter<'_>) -> fmt::Result {
        match self {
            Error::Usage(wrong) => write!(f, "{wrong}; --help lists the options"),
            Error::File { path, error } => write!(f, "{}: {error}", path.display()),
            Error::Data { path, line, wrong } => write!(f, "{}:{line}: {wrong}", path.display()),
            Error::Query(error) => error.fmt(f),
            Error::Closed => write!(f, "standard output is closed"),
        }
    }
}

impl std::error::Error for Error {}

/// Returns a character that moves no cursor: control characters become their pictures.
#[must_use]
pub fn visible(character: char) -> char {
    match u32::from(character) {
        code @ ..0x20 => char::from_u32(0x2400 + code).unwrap_or('?'),
        0x7F => '\u{2421}',
        _ if character.is_control() => '\u{FFFD}',
        _ => character,
    }
}

/// Returns the text of bytes for a terminal, cut to `most` characters.
#[must_use]
pub fn shown(bytes: &[u8], most: usize) -> String {
    let text = String::from_utf8_lossy(&bytes[..bytes.len().min(most * 4 + 4)]);
    let mut text = text.chars().map(visible);
    let mut cut: String = text.by_ref().take(most).collect();
    if text.next().is_some() {
        cut.pop();
        cut.push('…');
    }
    cut
}

#[cfg(test)]
mod tests {
    use super::*;

    #[test]
    fn texts_move_no_cursor() {
        assert_eq!(shown(b"a\x1B[31m\n\x7F", 20), "a␛[31m␊␡");
        assert_eq!(shown("\u{9B}é".as_bytes(), 20), "\u{FFFD}é");
        assert_eq!(shown(b"\xE4", 20), "\u{FFFD}");
    }

    #[test]
    fn long_texts_are_cut() {
        assert_eq!(shown(b"abcde", 5), "abcde");
        assert_eq!(shown(b"abcdef", 5), "abcd…");
        assert_eq!(shown("\u{1F600}".repeat(9).as_bytes(), 2), "\u{1F600}…");
        assert_eq!(shown(&[b'x'; 1000], 3), "xx…");
    }
}
