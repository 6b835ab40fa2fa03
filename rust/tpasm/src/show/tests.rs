//! Tabs, long lines, characters that do not print, and places behind a line's end.

use super::*;
use crate::message::Position;

fn excerpt(line: &str, column: usize, width: usize) -> Excerpt {
    let position = Position { line: 1, column };
    Excerpt::of(line, Span { position, width })
}

fn is(text: &str, before: usize, carets: usize) -> Excerpt {
    Excerpt {
        text: text.to_string(),
        before,
        carets,
    }
}

#[test]
fn a_tab_goes_on_to_the_next_eighth_column() {
    assert_eq!(excerpt("\tab", 2, 2), is("        ab", 8, 2));
    assert_eq!(excerpt("ab\tc", 4, 1), is("ab      c", 8, 1));
    assert_eq!(excerpt("a\t\tb", 4, 1), is("a               b", 16, 1));
    assert_eq!(excerpt("ab\tc", 3, 1), is("ab      c", 2, 6));
}

#[test]
fn a_place_without_characters_has_one_caret() {
    assert_eq!(excerpt("", 1, 0), is("", 0, 1));
    assert_eq!(excerpt("ab", 3, 0), is("ab", 2, 1));
    assert_eq!(excerpt("ab", 2, 0), is("ab", 1, 1));
}

#[test]
fn each_character_is_one_column() {
    assert_eq!(excerpt("éé'ab", 4, 2), is("éé'ab", 3, 2));
    assert_eq!(excerpt("\u{1b}\u{0}a", 3, 1), is("\u{fffd}\u{fffd}a", 2, 1));
    assert_eq!(excerpt("e\u{301}a", 3, 1), is("e\u{fffd}a", 2, 1));
}

#[test]
fn a_long_line_is_cut() {
    let line = "x".repeat(100);
    assert_eq!(excerpt(&line, 100, 1), is(&line, 99, 1));
    let line = "x".repeat(101);
    let front = format!("{}...", "x".repeat(100));
    assert_eq!(excerpt(&line, 3, 2), is(&front, 2, 2));
    assert_eq!(excerpt(&line, 1, 101), is(&front, 0, 100));
    let line = "x".repeat(1000);
    let middle = format!("...{}...", "x".repeat(100));
    assert_eq!(excerpt(&line, 501, 1), is(&middle, 53, 1));
    assert_eq!(excerpt(&line, 501, 400), is(&middle, 53, 50));
    let back = format!("...{}", "x".repeat(50));
    assert_eq!(excerpt(&line, 1001, 0), is(&back, 53, 1));
}
