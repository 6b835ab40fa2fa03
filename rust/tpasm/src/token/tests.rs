//! Names, numbers, marks, blanks and positions.

use super::*;

fn texts(source: &str) -> Vec<&str> {
    tokens(source).iter().map(|token| token.text).collect()
}

fn kinds(source: &str) -> Vec<Kind> {
    tokens(source).iter().map(|token| token.kind).collect()
}

#[test]
fn an_instruction() {
    assert_eq!(texts("r := a - 1"), ["r", ":=", "a", "-", "1", ""]);
    assert_eq!(texts("r:=a<-1"), ["r", ":=", "a", "<", "-", "1", ""]);
}

#[test]
fn a_hyphen_between_characters_of_a_name_belongs_to_it() {
    assert_eq!(texts("loop-try-promote:"), ["loop-try-promote", ":", ""]);
    assert_eq!(texts("a-1"), ["a-1", ""]);
    assert_eq!(texts("a- 1"), ["a", "-", "1", ""]);
    assert_eq!(texts("a -1"), ["a", "-", "1", ""]);
    assert_eq!(texts("r->r2"), ["r", "->", "r2", ""]);
    assert_eq!(texts("a--b"), ["a", "-", "-", "b", ""]);
    assert_eq!(texts("1-2"), ["1", "-", "2", ""]);
}

#[test]
fn what_fits_nowhere_is_unknown() {
    assert_eq!(kinds("12ab"), [Kind::Unknown, Kind::FileEnd]);
    assert_eq!(kinds("0x1F"), [Kind::Unknown, Kind::FileEnd]);
    assert_eq!(kinds("é"), [Kind::Unknown, Kind::FileEnd]);
    assert_eq!(texts("@@"), ["@", "@", ""]);
}

#[test]
fn comments_and_blanks() {
    assert_eq!(texts("a // b ; é\nc"), ["a", "\n", "c", ""]);
    assert_eq!(texts("a //"), ["a", ""]);
    assert_eq!(texts("\ta\r\n"), ["a", "\r\n", ""]);
    assert_eq!(texts(""), [""]);
    assert_eq!(texts("a/ b"), ["a", "/", "b", ""]);
}

#[test]
fn line_ends() {
    assert_eq!(texts("a\rb\n\rc"), ["a", "\r", "b", "\n", "\r", "c", ""]);
    assert_eq!(texts("a // b\rc"), ["a", "\r", "c", ""]);
    let lines: Vec<usize> = tokens("a\r\nb\rc\nd")
        .iter()
        .map(|token| token.position.line)
        .collect();
    assert_eq!(lines, [1, 1, 2, 2, 3, 3, 4, 4]);
}

#[test]
fn marks_of_other_notations() {
    assert_eq!(texts("a==b"), ["a", "==", "b", ""]);
    assert_eq!(texts("a<=-1>b"), ["a", "<=", "-", "1", ">", "b", ""]);
    assert_eq!(texts("a:==b"), ["a", ":=", "=", "b", ""]);
    assert_eq!(texts("a<-1"), ["a", "<", "-", "1", ""]);
    assert_eq!(texts("#12 # b\nc"), ["#12", "#", "\n", "c", ""]);
    assert_eq!(kinds("=="), [Kind::Unknown, Kind::FileEnd]);
}

#[test]
fn block_comments_are_passed_over() {
    let source = "a /* b\r\n c */ d\ne";
    assert_eq!(texts(source), ["a", "/*", "d", "\n", "e", ""]);
    let place = |at: usize| {
        (
            tokens(source)[at].position.line,
            tokens(source)[at].position.column,
        )
    };
    assert_eq!([place(1), place(2), place(4)], [(1, 3), (2, 7), (3, 1)]);
    assert_eq!(texts("a /* b\nc"), ["a", "/*", "\n", "c", ""]);
    assert_eq!(texts("*/"), ["*/", ""]);
}

#[test]
fn positions_count_characters_from_1() {
    let places: Vec<(usize, usize)> = tokens("ab\tc\n é d\n")
        .iter()
        .map(|token| (token.position.line, token.position.column))
        .collect();
    assert_eq!(
        places,
        [(1, 1), (1, 4), (1, 5), (2, 2), (2, 4), (2, 5), (3, 1)]
    );
}

#[test]
fn tokens_in_messages() {
    let shown = |source| tokens(source)[0].to_string();
    assert_eq!(shown(":="), "':='");
    assert_eq!(shown("\n"), "the end of the line");
    assert_eq!(shown(""), "the end of the file");
    assert_eq!(shown("\u{7}"), "'\\u{7}'");
}
