//! Peer and model on jobs with stacks, made by hand, with every budget up to their end and beyond.

use checks::assemble::{
    fork, halt, if_jump, join, jralloc, jump, mov, op, pop, push, Annotation, Assembly, JobInput,
    Operand,
};
use checks::hand::{call_and_return, f_with_stack, pushes};
use checks::layout::{pair, InstructionRecord};
use model::job::Report;
use model::opcode::{ADD, SUBTRACT};
use model::{End, Record, Value, STACK, VERSION_1, VERSION_2};
use Operand::{Int, Lab, Reg};

/// What the job comes to.
fn compared(input: &JobInput) -> Report {
    let job = input.bytes();
    let compare = |budget| {
        let expected = model::job::run(&job, budget);
        assert_eq!(peer::run(&job, budget), expected, "budget {}", budget);
        expected.expect("the job is accepted")
    };
    let report = compare(u64::MAX);
    for budget in 0..report.picks {
        assert_eq!(compare(budget).end, None);
    }
    for budget in [report.picks, report.picks + 1] {
        assert_eq!(compare(budget), report);
    }
    report
}

fn end(input: &JobInput) -> (Option<End>, u64) {
    let report = compared(input);
    (report.end, report.picks)
}

#[test]
fn a_call_and_its_return() {
    let report = compared(&call_and_return());
    assert_eq!((report.end, report.picks), (Some(End::Halt), 11));
    assert_eq!(report.registers[..2], [Value::Int(10), Value::Label(3)]);
}

#[test]
fn full_and_empty() {
    assert_eq!(end(&pushes(STACK)), (Some(End::Halt), 33));
    assert_eq!(end(&pushes(STACK + 1)), (Some(End::Fault(42)), 33));
    assert_eq!(end(&pushes(STACK + 5)), (Some(End::Fault(42)), 33));
    let of = |code: &[InstructionRecord]| {
        let mut assembly = Assembly::default();
        assembly.block(Annotation::None, code);
        JobInput::new(assembly.image_of(VERSION_2), 1, 0)
    };
    assert_eq!(end(&of(&[pop(0), halt()])), (Some(End::Fault(43)), 1));
    let code = [push(Int(1)), pop(0), pop(1), halt()];
    assert_eq!(end(&of(&code)), (Some(End::Fault(43)), 3));
    // Filled, emptied, and filled again.
    let mut code = vec![push(Reg(0)); STACK];
    code.extend([pop(1); STACK]);
    code.extend([push(Reg(1)); STACK]);
    let report = compared(&of(&[&code[..], &[halt()]].concat()));
    assert_eq!((report.end, report.picks), (Some(End::Halt), 97));
    let report = compared(&of(&[&code[..], &[push(Lab(0)), halt()]].concat()));
    assert_eq!((report.end, report.picks), (Some(End::Fault(42)), 97));
}

/// What is pushed on the two sides of a fork, and popped after the join.
#[test]
fn across_a_fork() {
    let sides: [(&[InstructionRecord], Option<u8>); 6] = [
        (&[], None),
        (&[push(Lab(2))], None),
        (&[push(Reg(1)), push(Int(-1)), pop(3)], None),
        // The parent's values are not the child's.
        (&[pop(3)], Some(43)),
        (&[push(Int(7)); STACK], None),
        (&[push(Int(7)); STACK + 1], Some(42)),
    ];
    for (side, fault) in sides {
        let report = compared(&f_with_stack(side));
        assert_eq!(report.end, Some(fault.map_or(End::Halt, End::Fault)));
        if fault.is_none() {
            assert_eq!(report.registers[3..5], [Value::Int(20), Value::Int(10)]);
        }
    }
}

/// A tree of forks, six deep. Every task pushes its fill before it forks, the parent's sides and the
/// children's alike; the combining block pops what was pushed, and then as many more.
fn tree(fill: usize, more: usize) -> JobInput {
    const DEEPEST: u8 = 6;
    const LEAF: u8 = 1 + DEEPEST;
    const COMBINE: u8 = LEAF + 1;
    const ROOT: u8 = LEAF + 2;
    const RECORD: u8 = 1;
    let mut tree = Assembly::default();
    tree.block(
        Annotation::None,
        &[jralloc(RECORD, Lab(ROOT)), mov(0, Int(3)), jump(Lab(1))],
    );
    for depth in 1..=DEEPEST {
        let next = Lab(depth + 1);
        let mut code = vec![push(Int(depth.into())); fill];
        code.extend([fork(RECORD, next), op(ADD, 0, 0, Int(1)), jump(next)]);
        tree.block(Annotation::None, &code);
    }
    tree.block(Annotation::None, &[join(Reg(RECORD))]);
    let mut code = vec![pop(5); fill + more];
    code.extend([op(ADD, 0, 0, Reg(2)), join(Reg(RECORD))]);
    tree.block(Annotation::None, &code);
    let root = Annotation::JoinTarget {
        policy: 0,
        combining: COMBINE,
        pairs: vec![pair(0, 2)],
    };
    tree.block(root, &[halt()]);
    JobInput::new(tree.image_of(VERSION_2), 64, 0)
}

#[test]
fn a_tree_with_stacks() {
    for fill in [0, 1, 5] {
        assert_eq!(end(&tree(fill, 0)).0, Some(End::Halt));
        assert_eq!(end(&tree(fill, 1)).0, Some(End::Fault(43)));
    }
    // A parent's side has pushed six times as much, a child's less.
    assert_eq!(end(&tree(6, 0)).0, Some(End::Fault(42)));
}

/// Eight registers of the child's, of every kind, to eight others; in version 1, four.
#[test]
fn pairs() {
    for (version, count) in [(VERSION_1, 4), (VERSION_2, 8)] {
        let mut pairs = Assembly::default();
        let parent = [jralloc(1, Lab(2)), fork(1, Lab(1)), join(Reg(1))];
        pairs.block(Annotation::None, &parent);
        let child = [
            mov(2, Lab(1)),
            mov(3, Int(-3)),
            mov(4, Reg(1)),
            mov(5, Int(5)),
            mov(6, Lab(2)),
            mov(7, Int(i64::MIN)),
            join(Reg(1)),
        ];
        pairs.block(Annotation::None, &child);
        let target = Annotation::JoinTarget {
            policy: 1,
            combining: 3,
            pairs: (0..count).map(|n| pair(n, 8 + n)).collect(),
        };
        pairs.block(target, &[halt()]);
        pairs.block(Annotation::None, &[join(Reg(1))]);
        let input = JobInput::new(pairs.image_of(version), 2, 0).with_register(0, 77);
        let report = compared(&input);
        let record = Value::Record(Record {
            continuation: 2,
            depth: 0,
        });
        let expected = [
            Value::Int(77),
            record,
            Value::Label(1),
            Value::Int(-3),
            record,
            Value::Int(5),
            Value::Label(2),
            Value::Int(i64::MIN),
        ];
        let (joined, others) = report.registers[8..].split_at(count.into());
        assert_eq!(joined, &expected[..count.into()]);
        assert!(others.iter().all(|&value| value == Value::Int(0)));
    }
}

/// A block that pops into a register which it also adds to, and what is popped is an integer or not:
/// it is gone through with care only from there on.
fn popped_and_used(pushed: Operand, after: &[InstructionRecord]) -> JobInput {
    let mut uses = Assembly::default();
    let first = [mov(4, Lab(1)), push(pushed), mov(4, Int(4)), jump(Lab(1))];
    uses.block(Annotation::None, &first);
    let mut code = vec![op(ADD, 0, 0, Int(1)), pop(0)];
    code.extend(after);
    code.extend([op(ADD, 2, 2, Reg(0)), halt()]);
    uses.block(Annotation::None, &code);
    JobInput::new(uses.image_of(VERSION_2), 2, 0).with_register(3, 9)
}

#[test]
fn care_from_a_pop_on() {
    let sets_anew = [mov(5, Reg(0)), mov(0, Int(6))];
    let jumps = [if_jump(3, Lab(0)), push(Reg(0)), pop(6), mov(0, Reg(3))];
    for pushed in [Int(5), Reg(3), Lab(0), Reg(4)] {
        let is_integer = matches!(pushed, Int(_) | Reg(3));
        let used = if is_integer {
            End::Halt
        } else {
            End::Fault(31)
        };
        assert_eq!(end(&popped_and_used(pushed, &[])).0, Some(used));
        for after in [&sets_anew[..], &jumps[..]] {
            assert_eq!(end(&popped_and_used(pushed, after)).0, Some(End::Halt));
        }
    }
}

/// The same in a loop that comes back to the block, once with an integer, and once with a label.
#[test]
fn care_and_back() {
    let mut loops = Assembly::default();
    let first = [push(Int(1)), push(Lab(2)), push(Int(2)), jump(Lab(1))];
    loops.block(Annotation::None, &first);
    let code = [
        pop(0),
        mov(5, Reg(0)),
        mov(0, Int(1)),
        op(SUBTRACT, 1, 1, Reg(0)),
        if_jump(1, Lab(2)),
        jump(Lab(1)),
    ];
    loops.block(Annotation::None, &code);
    loops.block(Annotation::None, &[halt()]);
    for rounds in 1..5 {
        let input = JobInput::new(loops.image_of(VERSION_2), 1, 0).with_register(1, rounds);
        let expected = if rounds < 4 {
            End::Halt
        } else {
            End::Fault(43)
        };
        assert_eq!(end(&input).0, Some(expected));
    }
}

/// A register that a label is popped to and an integer copied, in one block.
#[test]
fn a_copy_over_a_popped_label() {
    let mut copies = Assembly::default();
    copies.block(Annotation::None, &[push(Lab(1)), jump(Lab(1))]);
    let code = [pop(5), mov(5, Reg(0)), op(ADD, 0, 0, Int(1)), halt()];
    copies.block(Annotation::None, &code);
    let input = JobInput::new(copies.image_of(VERSION_2), 1, 0).with_register(0, 7);
    let report = compared(&input);
    assert_eq!(report.registers[5], Value::Int(7));
}
