//! Push and pop: what goes on a stack and off it, what forks and joins do with stacks, and their faults.

use crate::{end_of, Folder};

const CALL: &str = "\
reg x = r0, back = r1
main:
  push 7
  push done
  jump sub
done:
  pop x
  halt
sub:
  pop back
  jump back
";

/// The parent leaves two values, the child three.
const FORKED: &str = "\
reg x = r0, jr = r1
places 2
main:
  jr := jralloc exit
  push 5
  fork jr, child
  push 6
  join jr
child:
  push x
  push child
  push jr
  join jr
exit: [jtppt assoc; ; comb]
  pop x
  halt
comb:
  join jr
";

const FULL: &str = "main:\n  push 1\n  jump main\n";

/// What the parent has pushed is not there for the child.
const EMPTY: &str = "\
reg x = r0, jr = r1
places 2
main:
  jr := jralloc exit
  push 5
  fork jr, child
  join jr
child:
  pop x
  join jr
exit: [jtppt assoc; ; exit]
  halt
";

/// The lines of the picks in a trace, without the head.
fn picks(trace: &str) -> Vec<&str> {
    let lines = trace.lines().skip(1);
    lines.take_while(|line| !line.is_empty()).collect()
}

/// The line of a pick ends with this instruction and what it did.
#[track_caller]
fn says(line: &str, instruction: &str, what: &str) {
    let (_, said) = line.split_once(instruction).expect(line);
    assert_eq!(said.trim_start(), what, "{}", line);
}

#[test]
fn a_call_and_its_way_back() {
    let folder = Folder::with("a_call", "call.tpal", CALL);
    let trace = folder.printed("trace call.tpal");
    let picks = picks(&trace);
    says(picks[0], "push 7", "pushes 7: 1 value on the stack");
    says(picks[1], "push done", "pushes done: 2 values on the stack");
    says(
        picks[3],
        "pop back",
        "back = done, was 0; 1 value on the stack",
    );
    says(picks[4], "jump back", "on to done");
    says(picks[5], "pop x", "x = 7, was 0; the stack is empty");
    assert!(end_of(&trace).starts_with("end halt\nwork 7\nspan 7\nr0 int 7 "));
}

/// Names are b0 and r0 there too.
#[test]
fn images_and_jobs_of_version_2() {
    let folder = Folder::new("version_2");
    let assembly = tpasm::assemble(CALL.as_bytes()).unwrap();
    folder.write("call.tpb", &assembly.image);
    folder.write("call.job", tpasm::job(&assembly.image, &assembly.settings));
    let trace = folder.printed("trace call.job");
    assert_eq!(folder.printed("trace call.tpb"), trace);
    let picks = picks(&trace);
    let expected = "      2    0    1  b0     push b1      pushes b1: 2 values on the stack";
    assert_eq!(picks[1], expected);
    says(picks[3], "pop r1", "r1 = b1, was 0; 1 value on the stack");
    let picture = folder.printed("picture call.job");
    let profile = folder.printed("profile call.job");
    for instruction in ["push 7", "push b1", "pop r0", "pop r1"] {
        assert!(picture.contains(instruction), "{}", picture);
        assert!(profile.contains(instruction), "{}", profile);
    }
}

#[test]
fn a_version_2_that_uses_nothing_of_it() {
    let f = include_str!("../../../../examples/f/f.tpal");
    let folder = Folder::with("nothing_of_it", "f.tpal", f);
    let trace = folder.printed("trace f.tpal");
    let newer = f.replacen("\nplaces", "\nversion 2; places", 1);
    assert_ne!(newer, f);
    folder.write("f.tpal", newer);
    assert_eq!(folder.printed("trace f.tpal"), trace);
}

/// Said in columns are forks and joins alone.
#[test]
fn with_one_column_a_slot() {
    let folder = Folder::with("stacks_in_columns", "forked.tpal", FORKED);
    let trace = folder.printed("trace forked.tpal --slots");
    assert!(trace.contains("push 5\n"), "{}", trace);
    assert!(trace.contains("; the child's stack is empty, the parent's has 1 value\n"));
    assert!(trace.contains("; dropped: 3 values on the child's stack\n"));
}

#[test]
fn forks_and_joins() {
    let folder = Folder::with("stacks_of_sides", "forked.tpal", FORKED);
    for (order, last) in [("first", "joins slot 0"), ("last", "joins slot 1")] {
        let trace = folder.printed(&format!("trace forked.tpal --order {}", order));
        let picks = picks(&trace);
        says(
            picks[2],
            "fork jr, child",
            "forks: the child in slot 1 at child, a place each; \
             the child's stack is empty, the parent's has 1 value",
        );
        let find = |instruction| {
            *picks
                .iter()
                .find(|line| line.contains(instruction))
                .unwrap()
        };
        says(find("push x"), "push x", "pushes 0: 1 value on the stack");
        says(find("push 6"), "push 6", "pushes 6: 2 values on the stack");
        says(
            find("push jr"),
            "push jr",
            "pushes record of exit, depth 0: 3 values on the stack",
        );
        let joined = "one task in slot 0, at comb; dropped: 3 values on the child's stack";
        says(picks[8], "join jr", &format!("{}: {}", last, joined));
        says(picks[10], "pop x", "x = 6, was 0; 1 value on the stack");
    }
}

/// Running tasks and waiting ones, and none where the stack is empty.
#[test]
fn where_tasks_stand() {
    let folder = Folder::with("stacks_that_stand", "forked.tpal", FORKED);
    let standing = |budget| {
        let trace = folder.printed(&format!("trace forked.tpal --summary --budget {}", budget));
        let (_, tasks) = trace.split_once("is spent:\n").unwrap();
        tasks.to_string()
    };
    assert_eq!(
        standing(3),
        "slot 0 stands at forked.tpal:7:3: block main, push 6; 1 value on the stack\n\
         slot 1 stands at forked.tpal:10:3: block child, push x\n"
    );
    assert_eq!(
        standing(8),
        "slot 0 waits for slot 1; 2 values on the stack\n\
         slot 1 stands at forked.tpal:13:3: block child, join jr; 3 values on the stack\n"
    );
}

#[test]
fn a_full_stack() {
    let folder = Folder::with("a_full_stack", "full.tpal", FULL);
    let trace = folder.printed("trace full.tpal");
    let picks = picks(&trace);
    says(picks[62], "push 1", "pushes 1: 32 values on the stack");
    let words = "fault 42: the task's stack has no room for the value of a push";
    says(picks[64], "push 1", &format!("{}; the job ends", words));
    assert!(end_of(&trace).starts_with("end fault 42\nwork 65\nspan 65\n"));
    let place = format!(
        "\n\nfull.tpal:2:3: {}\n    2 |   push 1\n      |   ^^^^^^\n",
        words
    );
    assert!(trace.contains(&place), "{}", trace);
    assert!(trace.ends_with("pick 65, slot 0, block main\n      it ended the job there\n"));
    assert!(folder.printed("picture full.tpal").contains(">fault 42<"));
    folder.write("full.tpb", tpasm::assemble(FULL.as_bytes()).unwrap().image);
    let image = folder.printed("trace full.tpb --summary");
    let place = format!("\n\nfull.tpb: instruction 0: {}\n      | push 1\n", words);
    assert!(image.contains(&place), "{}", image);
}

#[test]
fn an_empty_stack() {
    let folder = Folder::with("an_empty_stack", "empty.tpal", EMPTY);
    let trace = folder.printed("trace empty.tpal --order last");
    let words = "fault 43: there is no value on the task's stack, for a pop";
    says(
        picks(&trace)[3],
        "pop x",
        &format!("{}; waits for slot 0", words),
    );
    let place = format!(
        "\n\nempty.tpal:9:3: {}\n    9 |   pop x\n      |   ^^^^^\n",
        words
    );
    assert!(trace.contains(&place), "{}", trace);
    assert!(trace.ends_with(
        "      pick 4, slot 1, block child\n      \
         outward: slot 1, joined to slot 0 at pick 5\n"
    ));
    let summary = folder.printed("trace empty.tpal --order last --summary");
    assert_eq!(summary, end_of(&trace));
}
