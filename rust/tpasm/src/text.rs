//! A source as text: its lines, and names as messages show them.

use std::borrow::Cow;
use std::{iter, str};

/// Longer names are cut in messages, to this many characters.
const MAX_SHOWN: usize = 60;

/// Stands for what is cut off.
pub const CUT: &str = "...";

/// The source without the byte order mark that some editors put before it.
pub fn without_mark(source: &[u8]) -> &[u8] {
    source.strip_prefix(b"\xef\xbb\xbf").unwrap_or(source)
}

/// Length of the line end at the start of `text`: LF, CR or both. 0: there is none.
pub fn line_end(text: &str) -> usize {
    if text.starts_with("\r\n") {
        2
    } else {
        text.starts_with(['\n', '\r']).into()
    }
}

/// The lines without their ends; behind the last line end comes one more, which may be empty.
pub fn lines(text: &str) -> impl Iterator<Item = &str> {
    let mut rest = Some(text);
    iter::from_fn(move || {
        let text = rest?;
        let length = text.find(['\n', '\r']).unwrap_or(text.len());
        let (line, behind) = text.split_at(length);
        rest = match line_end(behind) {
            0 => None,
            end => Some(&behind[end..]),
        };
        Some(line)
    })
}

/// A name or mark in quotes: cut, and without characters that do not print.
pub fn quoted(text: &str) -> String {
    format!("'{}'", cut(text).escape_debug())
}

/// A name, cut where it is long.
pub fn cut(text: &str) -> Cow<'_, str> {
    match text.char_indices().nth(MAX_SHOWN) {
        None => text.into(),
        Some(_) => {
            let kept = text.chars().take(MAX_SHOWN - CUT.len());
            kept.chain(CUT.chars()).collect()
        }
    }
}

#[cfg(test)]
mod tests;
