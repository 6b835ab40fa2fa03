//! A source cut into tokens. Nothing is refused here: what fits nowhere is a token of its own, so
//! that the parser can say what it expected in its place.

use crate::message::{Position, Span};
use crate::text::{line_end, quoted};
use std::fmt;

#[derive(Clone, Copy, Debug, PartialEq, Eq)]
pub enum Kind {
    /// Letters, digits, `_`, and `-` before one of these; a letter or `_` first.
    Name,
    /// Decimal digits.
    Number,
    /// One of `MARKS`.
    Mark,
    LineEnd,
    FileEnd,
    /// Anything else.
    Unknown,
}

#[derive(Clone, Copy, Debug, PartialEq, Eq)]
pub struct Token<'a> {
    pub kind: Kind,
    pub text: &'a str,
    pub position: Position,
}

/// The longer ones first.
const MARKS: [&str; 15] = [
    ":=", "->", ":", ";", ",", "[", "]", ".", "+", "-", "*", "/", "%", "<", "=",
];

/// Marks of other notations, each one token, so that a message can speak of it. The text after `#` and
/// `/*` is passed over as the comment that it was meant to be.
const FOREIGN: [&str; 15] = [
    "==",
    "!=",
    ">=",
    "<=",
    "&&",
    "||",
    "<<",
    ">>",
    "+=",
    "-=",
    "*=",
    "/=",
    "%=",
    "*/",
    BLOCK_COMMENT,
];

const COMMENT: &str = "//";
const LINE_COMMENT: &str = "#";
const BLOCK_COMMENT: &str = "/*";
const BLOCK_COMMENT_END: &str = "*/";

impl From<Token<'_>> for Span {
    fn from(token: Token) -> Span {
        let characters = match token.kind {
            Kind::LineEnd => 0,
            _ => token.text.chars().count(),
        };
        Span {
            position: token.position,
            width: characters,
        }
    }
}

impl Token<'_> {
    pub fn is(&self, mark: &str) -> bool {
        self.kind == Kind::Mark && self.text == mark
    }

    /// A `;` or the end of a line or of the file.
    pub fn ends_statement(&self) -> bool {
        matches!(self.kind, Kind::LineEnd | Kind::FileEnd) || self.is(";")
    }
}

impl fmt::Display for Token<'_> {
    fn fmt(&self, f: &mut fmt::Formatter) -> fmt::Result {
        match self.kind {
            Kind::LineEnd => f.write_str("the end of the line"),
            Kind::FileEnd => f.write_str("the end of the file"),
            _ => f.write_str(&quoted(self.text)),
        }
    }
}

/// The tokens of a source; the last one, and no other, is the file's end.
pub fn tokens(source: &str) -> Vec<Token<'_>> {
    let mut lexer = Lexer {
        rest: source,
        position: Position::START,
    };
    let mut tokens = Vec::new();
    loop {
        let token = lexer.token();
        tokens.push(token);
        if token.kind == Kind::FileEnd {
            return tokens;
        }
    }
}

struct Lexer<'a> {
    rest: &'a str,
    position: Position,
}

impl<'a> Lexer<'a> {
    fn token(&mut self) -> Token<'a> {
        self.skip_blanks();
        let position = self.position;
        let (kind, len) = first_token(self.rest);
        let text = self.take(len);
        match text {
            LINE_COMMENT => self.skip_line(),
            BLOCK_COMMENT => self.skip_block_comment(),
            _ => {}
        }
        Token {
            kind,
            text,
            position,
        }
    }

    fn skip_blanks(&mut self) {
        let blank = |c| matches!(c, ' ' | '\t');
        self.take(length_while(self.rest, blank));
        if self.rest.starts_with(COMMENT) {
            self.skip_line();
        }
    }

    fn skip_line(&mut self) {
        self.take(length_while(self.rest, |c| !matches!(c, '\n' | '\r')));
    }

    /// Without an end it is one line.
    fn skip_block_comment(&mut self) {
        match self.rest.find(BLOCK_COMMENT_END) {
            None => self.skip_line(),
            Some(length) => drop(self.take(length + BLOCK_COMMENT_END.len())),
        }
    }

    fn take(&mut self, len: usize) -> &'a str {
        let (text, rest) = self.rest.split_at(len);
        self.rest = rest;
        self.position = self.position.after(text);
        text
    }
}

/// Kind and length of the token at the start of `text`, which begins with no blank.
fn first_token(text: &str) -> (Kind, usize) {
    let first = match text.chars().next() {
        None => return (Kind::FileEnd, 0),
        Some(first) => first,
    };
    if line_end(text) > 0 {
        return (Kind::LineEnd, line_end(text));
    }
    if first.is_ascii_digit() {
        let len = length_while(text, in_name);
        let is_number = text[..len].bytes().all(|b| b.is_ascii_digit());
        let kind = if is_number {
            Kind::Number
        } else {
            Kind::Unknown
        };
        return (kind, len);
    }
    if in_name(first) {
        return (Kind::Name, name_length(text));
    }
    let starts = |mark: &&&str| text.starts_with(**mark);
    if let Some(mark) = FOREIGN.iter().find(starts) {
        return (Kind::Unknown, mark.len());
    }
    match MARKS.iter().find(starts) {
        Some(mark) => (Kind::Mark, mark.len()),
        None => (Kind::Unknown, unknown_length(text, first)),
    }
}

/// One character; `#` with the number right behind it.
fn unknown_length(text: &str, first: char) -> usize {
    let behind = &text[first.len_utf8()..];
    let digits = match first {
        '#' => length_while(behind, |c| c.is_ascii_digit()),
        _ => 0,
    };
    first.len_utf8() + digits
}

fn in_name(c: char) -> bool {
    c.is_ascii_alphanumeric() || c == '_'
}

/// A `-` belongs to the name where a name's character follows.
fn name_length(text: &str) -> usize {
    let mut len = length_while(text, in_name);
    while text[len..].starts_with('-') && text[len + 1..].starts_with(in_name) {
        len += 1 + length_while(&text[len + 1..], in_name);
    }
    len
}

fn length_while(text: &str, belongs: impl Fn(char) -> bool) -> usize {
    text.find(|c| !belongs(c)).unwrap_or(text.len())
}

#[cfg(test)]
mod tests;
