//! Tests the reader on known texts, on random texts against a plain reader, and on the output of
//! the writer.

use std::io::BufReader;

use super::{CsvError, Dialect, LONGEST_ROW, MOST_FIELDS, Malformed, Reader};
use crate::rows::{Rows, write_row};

const COMMAS: Dialect = Dialect {
    delimiter: b',',
    quote: Some(b'"'),
};

type Row = Vec<Vec<u8>>;
/// The rows before an error, and the error: its line, its field and its kind.
type Read = (Vec<Row>, Option<(u64, usize, Malformed)>);

/// Reads a text through a buffer of `buffer` bytes.
fn read(text: &[u8], dialect: Dialect, buffer: usize) -> Read {
    let mut read = Vec::new();
    let mut reader = match Reader::new(BufReader::with_capacity(buffer, text), dialect) {
        Ok(reader) => reader,
        Err(error) => return (read, Some(place(error))),
    };
    loop {
        let mut rows = Rows::new(0);
        match reader.read_row(&mut rows) {
            Ok(true) => read.push(rows.all_fields().map(<[u8]>::to_vec).collect()),
            Ok(false) => {
                assert_eq!(reader.read(), text.len() as u64);
                return (read, None);
            }
            Err(error) => return (read, Some(place(error))),
        }
    }
}

fn place(error: CsvError) -> (u64, usize, Malformed) {
    match error {
        CsvError::Malformed { line, field, what } => (line, field, what),
        CsvError::Io(error) => panic!("{error}"),
    }
}

fn texts(rows: &[Row]) -> Vec<Vec<&str>> {
    let text = |field: &'_ Vec<u8>| std::str::from_utf8(field).unwrap().to_string().leak() as &str;
    rows.iter()
        .map(|row| row.iter().map(text).collect())
        .collect()
}

#[test]
fn known_texts() {
    let cases: [(&str, &[&[&str]]); 15] = [
        ("", &[]),
        ("a", &[&["a"]]),
        ("a\n", &[&["a"]]),
        ("a,b\r\nc,d", &[&["a", "b"], &["c", "d"]]),
        (",\n,", &[&["", ""], &["", ""]]),
        ("a,\n", &[&["a", ""]]),
        ("\n\na", &[&[""], &[""], &["a"]]),
        ("\"a,b\",c", &[&["a,b", "c"]]),
        ("\"\",\"\"\"\"", &[&["", "\""]]),
        ("\"a\r\nb\n\"\r\nc", &[&["a\r\nb\n"], &["c"]]),
        ("a\"b,\"c\"", &[&["a\"b", "c"]]),
        ("\u{FEFF}a,b", &[&["a", "b"]]),
        ("\u{FEFF}\"a\"", &[&["a"]]),
        ("\u{FEFF}", &[]),
        (
            "é,\u{1F600}\n a , b ",
            &[&["é", "\u{1F600}"], &[" a ", " b "]],
        ),
    ];
    for (text, wanted) in cases {
        for buffer in [1, 2, 3, 64] {
            let (rows, error) = read(text.as_bytes(), COMMAS, buffer);
            assert_eq!(
                (texts(&rows), error),
                (wanted.iter().map(|it| it.to_vec()).collect(), None)
            );
        }
    }
}

#[test]
fn malformed_texts() {
    let cases: [(&[u8], u64, usize, Malformed); 8] = [
        (b"a\nb,\"c\nd", 2, 1, Malformed::Unclosed),
        (b"\"", 1, 0, Malformed::Unclosed),
        (b"\"a\"\"", 1, 0, Malformed::Unclosed),
        (b"x\n\"a\nb\"c,d", 3, 0, Malformed::AfterQuote(b'c')),
        (b"\"a\" ,b", 1, 0, Malformed::AfterQuote(b' ')),
        (b"a,b\rc", 1, 1, Malformed::CarriageReturn),
        (b"a\r", 1, 0, Malformed::CarriageReturn),
        (b"\xFF\xFEa\0", 1, 0, Malformed::Utf16),
    ];
    for (text, line, field, what) in cases {
        for buffer in [1, 2, 64] {
            assert_eq!(read(text, COMMAS, buffer).1, Some((line, field, what)));
        }
    }
}

#[test]
fn rows_are_bounded() {
    let mut long = vec![b'a'; LONGEST_ROW + 2];
    assert_eq!(
        read(&long, COMMAS, 1 << 16).1,
        Some((1, 0, Malformed::TooLong))
    );
    long[0] = b'"';
    assert_eq!(
        read(&long, COMMAS, 1 << 16).1,
        Some((1, 0, Malformed::TooLong))
    );
    let fields = vec![b','; MOST_FIELDS];
    assert_eq!(read(&fields[1..], COMMAS, 1 << 16).1, None);
    assert_eq!(
        read(&fields, COMMAS, 1 << 16).1,
        Some((1, MOST_FIELDS, Malformed::TooLong))
    );
    // The error of an unclosed quote names the line that opens it.
    let open = [&b"a\n\""[..], &vec![b'\n'; LONGEST_ROW + 1][..]].concat();
    assert_eq!(
        read(&open, COMMAS, 4096).1,
        Some((2, 0, Malformed::TooLong))
    );
}

/// A row may have as many bytes as the limit says and not one more, however it is written.
#[test]
fn rows_are_bounded_to_the_byte() {
    type Long<'a> = (&'a [u8], &'a [u8], [&'a [u8]; 2], usize);
    let most = vec![b'a'; LONGEST_ROW];
    let rows: [Long<'_>; 4] = [
        (b"", &most, [b"\n", b"a\n"], 0),
        (b"\"", &most, [b"\"\r\n", b"a\"b"], 0),
        (b"", &most[2..], [b",\"\"\"\"\"\"", b",\"\"\"\"\"\"\"\""], 1),
        (b"", &most[1..], [b",a", b",aa\r"], 1),
    ];
    for (start, bytes, [end, over], field) in rows {
        let row = [start, bytes, end].concat();
        assert_eq!(read(&row, COMMAS, 1 << 16).1, None);
        let row = [start, bytes, over].concat();
        let error = Some((1, field, Malformed::TooLong));
        assert_eq!(read(&row, COMMAS, 1 << 16).1, error);
    }
}

#[test]
fn other_dialects() {
    let plain = Dialect {
        delimiter: b':',
        quote: None,
    };
    let (rows, error) = read(b"\"a:b\"\nc,d:", plain, 2);
    assert_eq!(
        (texts(&rows), error),
        (vec![vec!["\"a", "b\""], vec!["c,d", ""]], None)
    );
}

/// The kind of text that the next byte belongs to.
#[derive(Clone, Copy, PartialEq)]
enum State {
    Start,
    Plain,
    Quoted,
    /// After a quote within a quoted field.
    AfterQuote,
}

/// A plain reader: the rows of a whole text, read a byte at a time.
struct Plain {
    rows: Vec<Row>,
    row: Row,
    field: Vec<u8>,
    state: State,
    line: u64,
    opened: u64,
}

impl Plain {
    fn end_field(&mut self) {
        self.row.push(std::mem::take(&mut self.field));
        self.state = State::Start;
    }

    fn end_row(&mut self) {
        self.end_field();
        self.rows.push(std::mem::take(&mut self.row));
        self.line += 1;
    }

    /// Processes a byte. Returns its fault; None if there is none.
    fn take(&mut self, byte: u8, next: Option<u8>) -> Option<Malformed> {
        match (self.state, byte) {
            (State::Quoted, b'"') => self.state = State::AfterQuote,
            (State::Quoted, _) => {
                self.line += u64::from(byte == b'\n');
                self.field.push(byte);
            }
            (State::AfterQuote, b'"') => {
                self.field.push(byte);
                self.state = State::Quoted;
            }
            (State::Start, b'"') => (self.state, self.opened) = (State::Quoted, self.line),
            (_, b',') => self.end_field(),
            (_, b'\n') => self.end_row(),
            (_, b'\r') if next == Some(b'\n') => (),
            (_, b'\r') => return Some(Malformed::CarriageReturn),
            (State::AfterQuote, _) => return Some(Malformed::AfterQuote(byte)),
            _ => {
                self.field.push(byte);
                self.state = State::Plain;
            }
        }
        None
    }
}

fn plain(text: &[u8]) -> Read {
    let text = text.strip_prefix("\u{FEFF}".as_bytes()).unwrap_or(text);
    let (rows, row, field) = (Vec::new(), Vec::new(), Vec::new());
    let mut plain = Plain {
        rows,
        row,
        field,
        state: State::Start,
        line: 1,
        opened: 1,
    };
    for (place, &byte) in text.iter().enumerate() {
        if let Some(wrong) = plain.take(byte, text.get(place + 1).copied()) {
            return (plain.rows, Some((plain.line, plain.row.len(), wrong)));
        }
    }
    if plain.state == State::Quoted {
        return (
            plain.rows,
            Some((plain.opened, plain.row.len(), Malformed::Unclosed)),
        );
    }
    if plain.state != State::Start || !plain.row.is_empty() {
        plain.end_row();
    }
    (plain.rows, None)
}

/// Pseudo-random numbers.
struct Random(u64);

impl Random {
    fn below(&mut self, end: usize) -> usize {
        self.0 = self
            .0
            .wrapping_mul(6_364_136_223_846_793_005)
            .wrapping_add(1);
        usize::try_from((self.0 >> 33) % end as u64).unwrap()
    }

    fn text(&mut self, most: usize) -> Vec<u8> {
        const PARTS: [&[u8]; 12] = [
            b"a",
            b"b",
            b",",
            b",",
            b"\"",
            b"\"\"",
            b"\n",
            b"\r\n",
            b"\r",
            b" ",
            b"\xFF",
            "\u{FEFF}".as_bytes(),
        ];
        (0..self.below(most))
            .flat_map(|_| PARTS[self.below(PARTS.len())])
            .copied()
            .collect()
    }
}

#[test]
fn random_texts_beside_a_plain_reader() {
    let mut random = Random(1);
    for _ in 0..10_000 {
        let text = random.text(30);
        let wanted = plain(&text);
        for buffer in [1, 2, 5, 100] {
            assert_eq!(
                read(&text, COMMAS, buffer),
                wanted,
                "{}",
                text.escape_ascii()
            );
        }
    }
}

#[test]
fn rows_are_read_as_they_are_written() {
    let mut random = Random(2);
    for _ in 0..5000 {
        let width = 1 + random.below(4);
        let rows: Vec<Row> = (0..random.below(5))
            .map(|_| (0..width).map(|_| random.text(6)).collect())
            .collect();
        let mut text = Vec::new();
        for row in &rows {
            write_row(&mut text, COMMAS, row.iter().map(Vec::as_slice)).unwrap();
        }
        assert_eq!(
            read(&text, COMMAS, 7),
            (rows, None),
            "{}",
            text.escape_ascii()
        );
    }
}
