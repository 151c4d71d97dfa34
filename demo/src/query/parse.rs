//! Parses conditions and lists of answers from their words.

use vortex_bits::Comparison;

#[cfg(test)]
mod tests;

use super::condition::{Condition, Literal, Name, Operand};
use super::select::{Aggregate, Answer};
use super::token::{Token, Word, tokens};
use crate::error::QueryError;

/// The limit of a condition's depth, which is 1, plus 1 for each parenthesis and `not` around it.
const DEEPEST: usize = 200;

/// Words that name no column unless they are quoted.
const KEYWORDS: [&str; 5] = ["and", "or", "not", "is", "null"];

/// Returns the condition of a text.
///
/// # Errors
///
/// Returns an error at the first unexpected word.
pub fn condition(text: &str) -> Result<Condition, QueryError> {
    let mut parser = Parser::new(text)?;
    let condition = parser.any()?;
    parser.end("\"and\", \"or\" or the end")?;
    Ok(condition)
}

/// Returns the answers of a list, such as `count(*), sum(size)`.
///
/// # Errors
///
/// Returns an error at the first unexpected word.
pub fn selection(text: &str) -> Result<Vec<Answer<Name>>, QueryError> {
    let mut parser = Parser::new(text)?;
    let mut answers = vec![parser.answer()?];
    while parser.take(&Word::Comma) {
        answers.push(parser.answer()?);
    }
    parser.end("a comma or the end")?;
    Ok(answers)
}

/// Returns the names of a list of columns, such as `size, "the note"`.
///
/// # Errors
///
/// Returns an error at the first unexpected word.
pub fn column_names(text: &str) -> Result<Vec<Name>, QueryError> {
    let mut parser = Parser::new(text)?;
    let mut names = vec![parser.name("a column")?];
    while parser.take(&Word::Comma) {
        names.push(parser.name("a column")?);
    }
    parser.end("a comma or the end")?;
    Ok(names)
}

struct Parser {
    /// The words that are left, the next one last.
    tokens: Vec<Token>,
    end: Token,
    depth: usize,
}

impl Parser {
    fn new(text: &str) -> Result<Parser, QueryError> {
        let mut tokens = tokens(text)?;
        let end = Token {
            at: text.trim_end().len(),
            word: Word::End,
        };
        tokens.reverse();
        Ok(Parser {
            tokens,
            end,
            depth: 0,
        })
    }

    fn next(&self) -> &Token {
        self.tokens.last().unwrap_or(&self.end)
    }

    fn skip(&mut self) {
        self.tokens.pop();
    }

    fn take(&mut self, word: &Word) -> bool {
        let has = self.next().word == *word;
        if has {
            self.skip();
        }
        has
    }

    fn keyword(&mut self, keyword: &str) -> bool {
        let has = self.next().word.is(keyword);
        if has {
            self.skip();
        }
        has
    }

    fn wanted<T>(&self, what: &str) -> Result<T, QueryError> {
        let end = self.next().word == Word::End;
        let at = if end { self.end.at } else { self.next().at };
        Err(QueryError::new(at, format!("{what} is wanted here")))
    }

    fn end(&self, what: &str) -> Result<(), QueryError> {
        if self.next().word == Word::End {
            Ok(())
        } else {
            self.wanted(what)
        }
    }

    fn any(&mut self) -> Result<Condition, QueryError> {
        let mut parts = vec![self.all()?];
        while self.keyword("or") {
            parts.push(self.all()?);
        }
        Ok(only(parts).unwrap_or_else(Condition::Or))
    }

    fn all(&mut self) -> Result<Condition, QueryError> {
        let mut parts = vec![self.one()?];
        while self.keyword("and") {
            parts.push(self.one()?);
        }
        Ok(only(parts).unwrap_or_else(Condition::And))
    }

    fn one(&mut self) -> Result<Condition, QueryError> {
        self.depth += 1;
        if self.depth > DEEPEST {
            let wrong = format!("a condition is nested at most {DEEPEST} deep");
            return Err(QueryError::new(self.next().at, wrong));
        }
        let one = if self.keyword("not") {
            Condition::Not(Box::new(self.one()?))
        } else if self.take(&Word::Open) {
            let inner = self.any()?;
            if !self.take(&Word::Close) {
                return self.wanted("\"and\", \"or\" or \")\"");
            }
            inner
        } else {
            self.test()?
        };
        self.depth -= 1;
        Ok(one)
    }

    /// Parses a comparison, or a test for null.
    fn test(&mut self) -> Result<Condition, QueryError> {
        let left = self.operand("a condition")?;
        match (self.next().word.clone(), left) {
            (Word::Compare(op), left) => {
                self.skip();
                let right = self.operand("a column, a number or a text")?;
                Ok(Condition::Compare(left, op, right))
            }
            (word, Operand::Column(name)) if word.is("is") => {
                self.skip();
                self.null(name)
            }
            (word, Operand::Column(name)) if word.is("in") || word.is("not") => self.list(&name),
            (_, Operand::Column(_)) => {
                self.wanted("a comparison, as \"=\" or \"<\", \"is\" or \"in\"")
            }
            (_, Operand::Literal(..)) => self.wanted("a comparison, as \"=\" or \"<\","),
        }
    }

    fn null(&mut self, name: Name) -> Result<Condition, QueryError> {
        let negated = self.keyword("not");
        if !self.keyword("null") {
            return self.wanted(if negated {
                "\"null\""
            } else {
                "\"null\" or \"not null\""
            });
        }
        let is_null = Condition::IsNull(name);
        Ok(if negated {
            Condition::Not(Box::new(is_null))
        } else {
            is_null
        })
    }

    /// Parses a list of operands after `in`. The column equals one of them; after `not` it equals
    /// none.
    fn list(&mut self, name: &Name) -> Result<Condition, QueryError> {
        let negated = self.keyword("not");
        if !self.keyword("in") {
            return self.wanted("\"in\"");
        }
        if !self.take(&Word::Open) {
            return self.wanted("\"(\"");
        }
        let mut parts = vec![self.equal(name)?];
        while self.take(&Word::Comma) {
            parts.push(self.equal(name)?);
        }
        if !self.take(&Word::Close) {
            return self.wanted("a comma or \")\"");
        }
        let any = only(parts).unwrap_or_else(Condition::Or);
        Ok(if negated {
            Condition::Not(Box::new(any))
        } else {
            any
        })
    }

    fn equal(&mut self, name: &Name) -> Result<Condition, QueryError> {
        let right = self.operand("a column, a number or a text")?;
        let left = Operand::Column(name.clone());
        Ok(Condition::Compare(left, Comparison::Equal, right))
    }

    fn operand(&mut self, what: &str) -> Result<Operand, QueryError> {
        let Token { at, word } = self.next().clone();
        let operand = match word {
            Word::Whole(number) => Operand::Literal(Literal::Whole(number), at),
            Word::Float(number) => Operand::Literal(Literal::Float(number), at),
            Word::Text(text) => Operand::Literal(Literal::Text(text), at),
            word if word.is("null") => {
                let wrong = "a comparison with null is never true; write \"is null\"";
                return Err(QueryError::new(at, wrong));
            }
            _ => return self.name(what).map(Operand::Column),
        };
        self.skip();
        Ok(operand)
    }

    fn name(&mut self, what: &str) -> Result<Name, QueryError> {
        let Token { at, word } = self.next().clone();
        let is_keyword = KEYWORDS.iter().any(|keyword| word.is(keyword));
        match word {
            Word::Plain(name) if !is_keyword => {
                self.skip();
                Ok(Name { name, at })
            }
            Word::Quoted(name) => {
                self.skip();
                Ok(Name { name, at })
            }
            _ => self.wanted(what),
        }
    }

    fn answer(&mut self) -> Result<Answer<Name>, QueryError> {
        let at = self.next().at;
        let what = "count, sum, min, max or avg";
        let Name { name, .. } = self.name(what)?;
        let Some(aggregate) = Aggregate::named(&name) else {
            return Err(QueryError::new(at, format!("{what} is wanted here")));
        };
        if !self.take(&Word::Open) {
            return self.wanted("\"(\"");
        }
        let answer = if aggregate == Aggregate::Count && self.take(&Word::Star) {
            Answer::Rows
        } else {
            Answer::Of(aggregate, self.name("a column")?)
        };
        if self.take(&Word::Close) {
            Ok(answer)
        } else {
            self.wanted("\")\"")
        }
    }
}

/// Returns the only part. The error has all parts if there are several.
fn only(mut parts: Vec<Condition>) -> Result<Condition, Vec<Condition>> {
    match parts.len() {
        1 => parts.pop().ok_or(parts),
        _ => Err(parts),
    }
}
