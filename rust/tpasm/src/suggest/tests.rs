//! Distances between names, and which name is the nearest.

use super::*;

fn between(left: &str, right: &str) -> usize {
    let characters = |text: &str| text.chars().collect::<Vec<_>>();
    let there = distance(&characters(left), &characters(right));
    assert_eq!(distance(&characters(right), &characters(left)), there);
    there
}

#[test]
fn distances() {
    assert_eq!(between("", ""), 0);
    assert_eq!(between("", "abc"), 3);
    assert_eq!(between("total", "total"), 0);
    assert_eq!(between("totl", "total"), 1);
    assert_eq!(between("totaal", "total"), 1);
    assert_eq!(between("tot4l", "total"), 1);
    assert_eq!(between("toatl", "total"), 1);
    assert_eq!(between("otatl", "total"), 2);
    assert_eq!(between("kitten", "sitting"), 3);
    assert_eq!(between("ca", "abc"), 3);
    assert_eq!(between("é", "e"), 1);
}

#[test]
fn the_nearest_name() {
    let names = ["total", "next", "end", "totals", "exit"];
    assert_eq!(nearest("totl", names), Some("total"));
    assert_eq!(nearest("totalss", names), Some("totals"));
    assert_eq!(nearest("exti", names), Some("exit"));
    assert_eq!(nearest("ned", names), Some("end"));
    assert_eq!(nearest("ifjump", ["jump", "if-jump"]), Some("if-jump"));
    assert_eq!(nearest("elsewhere", names), None);
    assert_eq!(nearest("", names), None);
}

#[test]
fn of_equally_near_names_the_first() {
    assert_eq!(nearest("loop", ["loop1", "loop2"]), Some("loop1"));
    assert_eq!(nearest("loop", ["loop2", "loop1"]), Some("loop2"));
}

#[test]
fn short_names_are_near_to_none() {
    assert_eq!(nearest("x", ["y", "xy"]), None);
    assert_eq!(nearest("ab", ["ba", "ac"]), None);
    assert_eq!(nearest("jr", ["jrr"]), Some("jrr"));
}

#[test]
fn very_long_names_are_near_to_none() {
    let long = "a".repeat(65);
    assert_eq!(nearest(&long, ["a"]), None);
    assert_eq!(nearest(&long[1..], [long.as_str()]), None);
    assert_eq!(nearest(&long[2..], [&long[1..]]), Some(&long[1..]));
}
