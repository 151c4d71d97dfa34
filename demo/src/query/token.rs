//! The words of conditions and lists.

use vortex_bits::Comparison;

use crate::error::QueryError;

/// A word, with the byte of the text where it begins.
#[derive(Clone, Debug, PartialEq)]
pub struct Token {
    /// The byte at which it begins.
    pub at: usize,
    /// The word.
    pub word: Word,
}

/// A word of a condition or a list.
#[derive(Clone, Debug, PartialEq)]
pub enum Word {
    /// A name without quotes, or a keyword.
    Plain(String),
    /// A name between double quotes.
    Quoted(String),
    /// A text between single quotes.
    Text(String),
    /// A whole number.
    Whole(i64),
    /// Any other number.
    Float(f64),
    /// A comparison.
    Compare(Comparison),
    /// `(`
    Open,
    /// `)`
    Close,
    /// `,`
    Comma,
    /// `*`
    Star,
    /// The end of the text.
    End,
}

impl Word {
    /// Returns whether the word is a keyword, in upper or lower case.
    pub fn is(&self, keyword: &str) -> bool {
        matches!(self, Word::Plain(word) if word.eq_ignore_ascii_case(keyword))
    }
}

/// The signs of comparisons. A longer sign is before a shorter one with the same beginning.
const COMPARISONS: [(&str, Comparison); 8] = [
    ("<=", Comparison::LessOrEqual),
    (">=", Comparison::GreaterOrEqual),
    ("<>", Comparison::NotEqual),
    ("!=", Comparison::NotEqual),
    ("==", Comparison::Equal),
    ("<", Comparison::Less),
    (">", Comparison::Greater),
    ("=", Comparison::Equal),
];

/// Returns the words of a text. The last one is its end.
///
/// # Errors
///
/// Returns an error at the first character that begins no word, at a wrong number, and at a quote
/// that isn't closed.
pub fn tokens(text: &str) -> Result<Vec<Token>, QueryError> {
    let mut tokens = Vec::new();
    let mut at = 0;
    loop {
        let rest = &text[at..];
        at += rest.len() - rest.trim_start().len();
        let rest = &text[at..];
        if rest.is_empty() {
            tokens.push(Token {
                at,
                word: Word::End,
            });
            return Ok(tokens);
        }
        let (word, length) = first(rest, at)?;
        tokens.push(Token { at, word });
        at += length;
    }
}

/// Returns the first word of a text without spaces at its beginning, and its length in bytes.
fn first(text: &str, at: usize) -> Result<(Word, usize), QueryError> {
    for (sign, comparison) in COMPARISONS {
        if text.starts_with(sign) {
            return Ok((Word::Compare(comparison), sign.len()));
        }
    }
    let character = text.chars().next().unwrap_or_default();
    match character {
        '(' => Ok((Word::Open, 1)),
        ')' => Ok((Word::Close, 1)),
        ',' => Ok((Word::Comma, 1)),
        '*' => Ok((Word::Star, 1)),
        '\'' | '"' => quoted(text, character, at),
        '0'..='9' | '.' | '-' | '+' => number(text, at),
        _ if is_of_name(character) => Ok(plain(text)),
        _ => Err(QueryError::new(
            at,
            format!("{character:?} begins no word of a condition"),
        )),
    }
}

fn is_of_name(character: char) -> bool {
    character.is_alphanumeric() || character == '_'
}

fn plain(text: &str) -> (Word, usize) {
    let length = text.find(|it| !is_of_name(it)).unwrap_or(text.len());
    (Word::Plain(text[..length].to_string()), length)
}

/// Reads a name or a text between quotes. Two quotes within it represent one.
fn quoted(text: &str, quote: char, at: usize) -> Result<(Word, usize), QueryError> {
    let mut content = String::new();
    let mut characters = text.char_indices().skip(1).peekable();
    while let Some((place, character)) = characters.next() {
        if character != quote {
            content.push(character);
        } else if characters.next_if(|&(_, next)| next == quote).is_some() {
            content.push(quote);
        } else {
            let word = if quote == '"' {
                Word::Quoted(content)
            } else {
                Word::Text(content)
            };
            return Ok((word, place + 1));
        }
    }
    Err(QueryError::new(
        at,
        format!("the quote {quote} is never closed"),
    ))
}

fn number(text: &str, at: usize) -> Result<(Word, usize), QueryError> {
    let length = number_length(text.as_bytes());
    let number = &text[..length];
    let after = text[length..].chars().next();
    let word = match crate::number::whole(number.as_bytes()) {
        Some(whole) => Some(Word::Whole(whole)),
        None => crate::number::float(number.as_bytes()).map(Word::Float),
    };
    match word {
        Some(word) if !after.is_some_and(is_of_name) => Ok((word, length)),
        _ => {
            let end = text.find(char::is_whitespace).unwrap_or(text.len());
            let wrong = &text[..end];
            let named = wrong.starts_with('-') && wrong[1..].starts_with(is_of_name);
            let hint = if named {
                "; a name with such characters is between double quotes"
            } else {
                ""
            };
            Err(QueryError::new(
                at,
                format!("{wrong:?} isn't a number{hint}"),
            ))
        }
    }
}

/// Returns the number of bytes of a number. A sign belongs to it at the beginning and after an `e`.
fn number_length(text: &[u8]) -> usize {
    let belongs = |place: usize| match text[place] {
        b'0'..=b'9' | b'.' | b'e' | b'E' => true,
        b'+' | b'-' => place == 0 || matches!(text[place - 1], b'e' | b'E'),
        _ => false,
    };
    (0..text.len())
        .find(|&place| !belongs(place))
        .unwrap_or(text.len())
}
