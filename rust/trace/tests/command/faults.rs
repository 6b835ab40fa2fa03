//! Faults: their places, those that are set aside, and their ways outward.

use crate::{end_of, Folder};

/// A tree of four tasks: slots 0 and 1 on the parent's side, 2 and 3 on the child's. The three of slots
/// 1, 2 and 3 fault.
const THREE: &str = "\
reg x = r0, jr = r1
places 4
main:
  jr := jralloc exit
  fork jr, right
  fork jr, bad-word
  x := 1
  join jr
right:
  fork jr, bad-jump
  x := x / x
  join jr
bad-word:
  x := word 3
  join jr
bad-jump:
  jump x
exit: [jtppt assoc; ; comb]
  halt
comb:
  join jr
";

/// Slot 1's fault comes to slot 0 by a join with a task that waited. There it meets that of slot 2,
/// which had set slot 3's aside.
#[test]
fn three_faults_in_three_tasks() {
    let folder = Folder::with("three_faults", "three.tpal", THREE);
    for order in [
        "passes", "first", "last", "random:1", "random:2", "random:3",
    ] {
        let trace = folder.printed(&format!("trace three.tpal --order {}", order));
        let end = end_of(&trace);
        assert!(
            end.starts_with("end fault 33\nwork 9\n"),
            "{}: {}",
            order,
            end
        );
        let (_, story) = end.split_once("\n\n").unwrap();
        let heads: Vec<&str> = story.split("\n\n").collect();
        assert_eq!(heads.len(), 3, "{}: {}", order, story);
        let winner = "three.tpal:14:3: fault 33: the index is outside the call record\n   \
                      14 |   x := word 3\n      |   ^^^^^^^^^^^\n      pick ";
        assert!(heads[0].starts_with(winner), "{}", story);
        assert!(
            heads[0].contains("slot 1, block bad-word\n      outward: slot 1, joined to slot 0 at")
        );
        assert_eq!(heads[0].matches("joined to slot 0 at pick").count(), 2);
        let aside = "(set aside, the parent's number counts)";
        for place in ["three.tpal:11:3: fault 32", "three.tpal:17:3: fault 34"] {
            let found = heads[1..].iter().find(|head| head.starts_with(place));
            let found = found.unwrap_or_else(|| panic!("{}: {}", place, story));
            assert!(found.lines().next().unwrap().ends_with(aside));
        }
        let summary = folder.printed(&format!("trace three.tpal --summary --order {}", order));
        assert_eq!(summary, end);
    }
}

#[test]
fn in_words_where_they_come_up() {
    let folder = Folder::with("faults_in_words", "three.tpal", THREE);
    let trace = folder.printed("trace three.tpal --order first");
    let line = |pick: usize| trace.lines().nth(pick).unwrap();
    assert!(line(5).ends_with("join jr             waits for slot 1"));
    assert!(line(6).ends_with(
        "fault 33: the index is outside the call record; slot 0 had waited; \
         slot 0 is faulted with 33"
    ));
    assert!(line(8).ends_with("fault 32: the divisor is 0; waits for slot 3"));
    assert!(line(9).ends_with(
        "fault 34: the target of a jump or fork is not a label; \
         set aside, the parent's number counts (slot 2, 32); slot 2 is faulted with 32; \
         set aside, the parent's number counts (slot 0, 33); slot 0 is faulted with 33; \
         the job ends"
    ));
    let trace = folder.printed("trace three.tpal");
    assert!(trace.lines().nth(9).unwrap().ends_with(
        "slot 1 had faulted; slot 0 is faulted with 33; \
         slot 2 faulted too: set aside, the parent's number counts; slot 0 is faulted with 33; \
         the job ends"
    ));
}

#[test]
fn where_tasks_stand_beside_a_fault() {
    let folder = Folder::with("beside_a_fault", "three.tpal", THREE);
    let trace = folder.printed("trace three.tpal --order last --budget 5 --summary");
    assert!(trace.ends_with(
        "the budget of 5 picks is spent:\n\
         slot 0 stands at three.tpal:6:3: block main, fork jr, bad-word\n\
         slot 2 is faulted with 32, from three.tpal:11:3, and waits for slot 0\n"
    ));
}

/// Faults of 64 tasks, each found.
#[test]
fn a_fault_in_every_leaf() {
    let source = "places 64\nset r3 = 6\nmain:\n  r1 := jralloc exit\n  jump divide\n\
                  divide:\n  if-jump r3, leaf\n  r3 := r3 - 1\n  fork r1, divide\n  jump divide\n\
                  leaf:\n  r2 := r2 / r2\n  join r1\n\
                  exit: [jtppt assoc; ; exit]\n  halt\n";
    let folder = Folder::with("every_leaf", "leaves.tpal", source);
    let trace = folder.printed("trace leaves.tpal");
    let summary = folder.printed("trace leaves.tpal --summary");
    assert_eq!(end_of(&trace), summary);
    assert_eq!(
        summary
            .matches("(set aside, the parent's number counts)")
            .count(),
        63
    );
    assert_eq!(summary.matches("joined to slot 0 at pick").count(), 6);
}
