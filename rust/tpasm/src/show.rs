//! Messages as they are printed: file and place, the line of the source, carets under the place.

use crate::message::{Message, Span};
use crate::text::{lines, without_mark, CUT};
use std::fmt::{self, Write};

/// How many messages are shown; one line says that there are more.
pub const MAX_MESSAGES: usize = 20;

/// Columns that are shown of a line. Of a longer one it is a part around the place.
const MAX_COLUMNS: usize = 100;

const TAB: usize = 8;
const UNPRINTABLE: char = '\u{fffd}';

/// The text of messages about the source of a file, the first twenty of them.
pub fn show(file: &str, source: &[u8], messages: &[Message]) -> String {
    let mut shown = String::new();
    let source = String::from_utf8_lossy(without_mark(source));
    write_all(&mut shown, file, &source, messages).expect("a string takes all that is written");
    shown
}

fn write_all(out: &mut String, file: &str, source: &str, messages: &[Message]) -> fmt::Result {
    for message in messages.iter().take(MAX_MESSAGES) {
        write_message(out, file, source, message)?;
    }
    match messages.get(MAX_MESSAGES) {
        None => Ok(()),
        Some(next) => writeln!(
            out,
            "{}: there are more {}s; these are the first {}",
            file, next.severity, MAX_MESSAGES
        ),
    }
}

fn write_message(out: &mut String, file: &str, source: &str, message: &Message) -> fmt::Result {
    let (severity, position) = (message.severity, message.span.position);
    writeln!(out, "{}:{}: {}: {}", file, position, severity, message.text)?;
    write_excerpt(out, source, message.span)?;
    match &message.hint {
        None => Ok(()),
        Some(hint) => writeln!(out, "      hint: {}", hint),
    }
}

/// The line of a source that a place is in, and carets under the place.
pub fn excerpt(source: &[u8], span: Span) -> String {
    let mut shown = String::new();
    let source = String::from_utf8_lossy(without_mark(source));
    write_excerpt(&mut shown, &source, span).expect("a string takes all that is written");
    shown
}

fn write_excerpt(out: &mut String, source: &str, span: Span) -> fmt::Result {
    let number = span.position.line;
    let line = lines(source).nth(number - 1).unwrap_or_default();
    let excerpt = Excerpt::of(line, span);
    let numbered = format!("{:>5} | {}", number, excerpt.text);
    writeln!(out, "{}", numbered.trim_end())?;
    let carets = "^".repeat(excerpt.carets);
    writeln!(out, "      | {}{}", " ".repeat(excerpt.before), carets)
}

/// A line as it is shown, the columns before the place, and those of the place.
#[derive(Debug, PartialEq, Eq)]
struct Excerpt {
    text: String,
    before: usize,
    carets: usize,
}

impl Excerpt {
    fn of(line: &str, span: Span) -> Self {
        let first = span.position.column - 1;
        let mut cells = Vec::new();
        let (mut begin, mut end) = (None, None);
        for (number, character) in line.chars().enumerate() {
            if number == first {
                begin = Some(cells.len());
            }
            if number == first + span.width {
                end = Some(cells.len());
            }
            push_shown(&mut cells, character);
        }
        let begin = begin.unwrap_or(cells.len());
        let end = end.unwrap_or(cells.len()).max(begin + 1);
        Excerpt::window(&cells, begin, end)
    }

    /// The whole line, or a part of it with the place.
    fn window(cells: &[char], begin: usize, end: usize) -> Self {
        if cells.len() <= MAX_COLUMNS {
            return Excerpt {
                text: cells.iter().collect(),
                before: begin,
                carets: end - begin,
            };
        }
        let start = if end <= MAX_COLUMNS {
            0
        } else {
            begin.saturating_sub(MAX_COLUMNS / 2)
        };
        let stop = (start + MAX_COLUMNS).min(cells.len());
        let front = if start > 0 { CUT } else { "" };
        let back = if stop < cells.len() { CUT } else { "" };
        let part: String = cells[start..stop].iter().collect();
        Excerpt {
            text: format!("{}{}{}", front, part, back),
            before: front.len() + begin - start,
            carets: end.min(stop).max(begin + 1) - begin,
        }
    }
}

/// A tab goes on to the next multiple of eight columns; any other character is one column.
fn push_shown(cells: &mut Vec<char>, character: char) {
    if character == '\t' {
        cells.resize((cells.len() / TAB + 1) * TAB, ' ');
    } else if is_printable(character) {
        cells.push(character);
    } else {
        cells.push(UNPRINTABLE);
    }
}

fn is_printable(character: char) -> bool {
    matches!(character, '\'' | '"' | '\\') || character.escape_debug().count() == 1
}

#[cfg(test)]
mod tests;
