//! Lines with each kind of end; long names.

use super::*;

#[test]
fn lines_of_each_kind() {
    let of = |text| lines(text).collect::<Vec<_>>();
    assert_eq!(of(""), [""]);
    assert_eq!(of("a"), ["a"]);
    assert_eq!(of("a\n"), ["a", ""]);
    assert_eq!(of("a\rb\r"), ["a", "b", ""]);
    assert_eq!(of("a\r\nb\n\rc\r\r\nd"), ["a", "b", "", "c", "", "d"]);
    assert_eq!(of("é\u{2028}f"), ["é\u{2028}f"]);
}

#[test]
fn long_names_are_cut() {
    let whole = "é".repeat(60);
    assert_eq!(quoted(&whole), format!("'{}'", whole));
    let long = "é".repeat(61);
    assert_eq!(quoted(&long), format!("'{}...'", "é".repeat(57)));
    assert_eq!(quoted("\u{7}"), "'\\u{7}'");
}
