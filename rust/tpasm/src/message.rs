//! What is said about a source, and where.

use crate::text::lines;
use std::fmt;

/// Line and column, counted from 1. A column is a character; a tab is one.
#[derive(Clone, Copy, Debug, PartialEq, Eq, PartialOrd, Ord)]
pub struct Position {
    pub line: usize,
    pub column: usize,
}

impl Position {
    pub(crate) const START: Position = Position { line: 1, column: 1 };

    /// The position behind `text`.
    pub(crate) fn after(self, text: &str) -> Self {
        let mut position = self;
        for (number, line) in lines(text).enumerate() {
            if number > 0 {
                position.line += 1;
                position.column = 1;
            }
            position.column += line.chars().count();
        }
        position
    }
}

/// Characters of one line: where they begin, and how many they are. None are a place, as the end of
/// a line.
#[derive(Clone, Copy, Debug, PartialEq, Eq)]
pub struct Span {
    pub position: Position,
    pub width: usize,
}

impl Span {
    /// From the start of this one to the end of another, which stands in the same line behind it.
    pub(crate) fn up_to(self, end: Span) -> Self {
        let column = end.position.column + end.width;
        Span {
            width: column.saturating_sub(self.position.column),
            ..self
        }
    }
}

#[derive(Clone, Copy, Debug, PartialEq, Eq)]
pub enum Severity {
    Error,
    Warning,
}

/// An error or a warning: `LINE:COLUMN: TEXT`, and a hint beside it. `show` makes the whole text.
#[derive(Clone, Debug, PartialEq, Eq)]
pub struct Message {
    pub severity: Severity,
    pub span: Span,
    pub text: String,
    pub hint: Option<String>,
}

impl Message {
    fn new(severity: Severity, span: impl Into<Span>, text: impl Into<String>) -> Self {
        Message {
            severity,
            span: span.into(),
            text: text.into(),
            hint: None,
        }
    }

    pub(crate) fn error(span: impl Into<Span>, text: impl Into<String>) -> Self {
        Message::new(Severity::Error, span, text)
    }

    pub(crate) fn warning(span: impl Into<Span>, text: impl Into<String>) -> Self {
        Message::new(Severity::Warning, span, text)
    }

    /// The error `expected .., found ..`.
    pub(crate) fn expected(
        span: impl Into<Span>,
        expected: impl fmt::Display,
        found: impl fmt::Display,
    ) -> Self {
        Message::error(span, format!("expected {}, found {}", expected, found))
    }

    pub(crate) fn with_hint(self, hint: impl Into<Option<String>>) -> Self {
        Message {
            hint: hint.into(),
            ..self
        }
    }
}

impl fmt::Display for Position {
    fn fmt(&self, f: &mut fmt::Formatter) -> fmt::Result {
        write!(f, "{}:{}", self.line, self.column)
    }
}

impl fmt::Display for Severity {
    fn fmt(&self, f: &mut fmt::Formatter) -> fmt::Result {
        f.write_str(match self {
            Severity::Error => "error",
            Severity::Warning => "warning",
        })
    }
}

impl fmt::Display for Message {
    fn fmt(&self, f: &mut fmt::Formatter) -> fmt::Result {
        write!(f, "{}: {}", self.span.position, self.text)
    }
}

impl std::error::Error for Message {}
