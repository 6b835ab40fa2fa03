//! Pictures: well-formed XML, one bar a task, below a megabyte.

use crate::{all, of_example, printed, Folder};
use checks::run_program::at_the_root;
use std::fs;
use trace::picture::MAX_BYTES;

/// The tags, in order, of a text that is well-formed. Comments, declarations and references to
/// characters are not among what the pictures have.
fn tags(xml: &str) -> Vec<String> {
    let mut open = Vec::new();
    let mut tags = Vec::new();
    let mut rest = xml;
    while let Some((text, behind)) = rest.split_once('<') {
        check_text(text);
        assert!(!open.is_empty() || text.trim().is_empty());
        let (tag, after) = behind.split_once('>').expect("a tag has its end");
        rest = after;
        if let Some(name) = tag.strip_prefix('/') {
            assert_eq!(open.pop().as_deref(), Some(name));
            continue;
        }
        let (inside, is_empty) = match tag.strip_suffix('/') {
            Some(inside) => (inside, true),
            None => (tag, false),
        };
        let (name, attributes) = inside.split_once(' ').unwrap_or((inside, ""));
        check_attributes(attributes.trim());
        if !is_empty {
            open.push(name.to_string());
        }
        tags.push(inside.to_string());
    }
    assert!(open.is_empty() && rest.trim().is_empty());
    tags
}

fn check_text(text: &str) {
    for reference in text.split('&').skip(1) {
        let name = reference.split(';').next().unwrap();
        assert!(["amp", "lt", "gt", "quot"].contains(&name), "{}", text);
    }
    assert!(!text.contains('>'), "{}", text);
    assert!(
        text.chars().all(|c| !c.is_control() || c == '\n'),
        "{}",
        text
    );
}

fn check_attributes(mut rest: &str) {
    let mut names = Vec::new();
    while !rest.is_empty() {
        let (name, behind) = rest.split_once("=\"").expect("an attribute has a value");
        assert!(
            name.chars().all(|c| c.is_ascii_alphanumeric() || c == '-'),
            "{}",
            name
        );
        assert!(!names.contains(&name), "{} twice", name);
        names.push(name);
        let (value, after) = behind.split_once('"').expect("a value ends");
        check_text(value);
        rest = after.trim_start();
    }
}

fn bars(svg: &str) -> usize {
    let is_bar = |tag: &&String| **tag == "g class=\"task\"";
    tags(svg).iter().filter(is_bar).count()
}

/// Its tasks: the first, and one for each fork.
fn tasks(profile: &str) -> usize {
    let forks = profile.lines().find_map(|line| line.strip_prefix("forks "));
    let forks = forks.unwrap().split(',').next().unwrap();
    1 + forks.parse::<usize>().unwrap()
}

#[test]
fn one_bar_a_task() {
    for example in all() {
        let tasks = tasks(&of_example("profile", &example, &[]));
        for order in ["passes", "first", "last", "random:6"] {
            let svg = of_example("picture", &example, &["--order", order]);
            assert_eq!(bars(&svg), tasks, "{}, {}", example.name, order);
        }
    }
}

#[test]
fn on_lanes() {
    for example in all() {
        let tasks = tasks(&of_example("profile", &example, &[]));
        for lanes in ["1", "2", "3", "8"] {
            let svg = of_example("picture", &example, &["--lanes", lanes]);
            assert_eq!(bars(&svg), tasks, "{}, {} lanes", example.name, lanes);
            assert!(svg.contains(">rounds</text>"));
        }
    }
    // As docs/lanes.md counts them.
    let svg = printed(&["picture", "examples/rates/rates.tpal", "--lanes", "3"]);
    assert!(svg.contains("end halt, work 439, span 196, work ÷ span 2.24, rounds 243<"));
}

#[test]
fn legend_end_and_faults() {
    let svg = printed(&["picture", "examples/two-faults/two-faults.tpal"]);
    for text in [
        ">main, 3<",
        ">child, 1<",
        ">waits for the other side<",
        ">fork<",
        ">join<",
        ">fault 32<",
        ">fault 33<",
        ">end fault 33, work 4, span 3, work ÷ span 1.33<",
        ">examples/two-faults/two-faults.tpal: places 2, order passes<",
    ] {
        assert!(svg.contains(text), "{}", text);
    }
}

/// A job of 100,000 picks at P 64 is thinned out, and still has a bar for each of its tasks.
#[test]
fn a_long_job() {
    let job = [
        "examples/product/product.tpal",
        "--places",
        "64",
        "--interval",
        "64",
    ];
    let arguments = |command| [&[command], &job[..], &["--set", "a=24800"]].concat();
    let svg = printed(&arguments("picture"));
    assert!(svg.len() < MAX_BYTES);
    assert!(svg.contains(">end halt, work 100215, span "));
    assert!(svg.contains("thinned out: 139.2 picks a row"));
    assert_eq!(bars(&svg), 64);
}

/// Forks and joins without an end: more tasks than bars can be drawn.
#[test]
fn many_short_tasks() {
    let source =
        "reg jr = r1\nplaces 64\nmain:\n  jr := jralloc done\n  fork jr, child\n  join jr\n\
                  child:\n  join jr\ndone: [jtppt assoc; ; comb]\n  jump main\ncomb:\n  join jr\n";
    let folder = Folder::with("many_short_tasks", "short.tpal", source);
    let svg = folder.printed("picture short.tpal --budget 30000");
    assert!(svg.len() < MAX_BYTES);
    assert_eq!(bars(&svg), 2);
    assert!(svg.contains(">end spent, work 30000<"));
}

#[test]
fn names_with_marks_of_xml() {
    let folder = Folder::with("marks_of_xml", "a<b>&c\".tpal", "main:\n  halt\n");
    let svg = folder.printed("picture a<b>&c\".tpal");
    assert_eq!(bars(&svg), 1);
    assert!(svg.contains("a&lt;b&gt;&amp;c&quot;.tpal"));
}

#[test]
fn the_pictures_of_the_documentation() {
    for name in ["f", "two-faults"] {
        let source = format!("examples/{0}/{0}.tpal", name);
        let stored = fs::read_to_string(at_the_root(&format!("docs/{}.svg", name))).unwrap();
        assert!(
            printed(&["picture", &source]) == stored,
            "run `make traces`"
        );
    }
}
