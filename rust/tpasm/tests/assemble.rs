//! What each form of the notation means, against records made without the assembler.

use checks::assemble::{
    fork, halt, if_jump, join, jralloc, jump, mov, op, pop, push, word, Annotation, Assembly,
    JobInput, Operand,
};
use checks::layout::{pair, program_f};
use checks::product::product;
use model::opcode;
use tpasm::{assemble, job, notation, written, Names};
use Operand::{Int, Lab, Reg};

fn image(source: &str) -> Vec<u8> {
    match assemble(source.as_bytes()) {
        Ok(assembly) => assembly.image,
        Err(errors) => panic!("{}", errors[0]),
    }
}

/// The image of one block with this instruction before a halt, and of a second block.
fn with_instruction(record: [u8; 12]) -> Vec<u8> {
    let mut program = Assembly::default();
    program.block(Annotation::None, &[record, halt()]);
    program.block(Annotation::None, &[halt()]);
    program.image()
}

#[test]
fn instructions() {
    let least = i64::MIN;
    let cases = [
        ("a := r2", mov(1, Reg(2))),
        ("r15 := exit", mov(15, Lab(1))),
        ("a := -9223372036854775808", mov(1, Int(least))),
        ("a := 9223372036854775807", mov(1, Int(i64::MAX))),
        ("a := 007", mov(1, Int(7))),
        ("a := - 7", mov(1, Int(-7))),
        ("a := a + r0", op(opcode::ADD, 1, 1, Reg(0))),
        ("a := r3 - 1", op(opcode::SUBTRACT, 1, 3, Int(1))),
        ("a:=r3 -1", op(opcode::SUBTRACT, 1, 3, Int(1))),
        ("a := a - -1", op(opcode::SUBTRACT, 1, 1, Int(-1))),
        ("a := a * a", op(opcode::MULTIPLY, 1, 1, Reg(1))),
        ("a := a / 2", op(opcode::DIVIDE, 1, 1, Int(2))),
        ("a := a % 2", op(opcode::REMAINDER, 1, 1, Int(2))),
        ("a := a < exit", op(opcode::LESS, 1, 1, Lab(1))),
        ("a := a = 0", op(opcode::EQUAL, 1, 1, Int(0))),
        ("a := word 4", word(1, Int(4))),
        ("a := word a", word(1, Reg(1))),
        ("if-jump a, exit", if_jump(1, Lab(1))),
        ("a := jralloc exit", jralloc(1, Lab(1))),
        ("fork a, exit", fork(1, Lab(1))),
        ("push a", push(Reg(1))),
        ("push exit", push(Lab(1))),
        ("push -5", push(Int(-5))),
        ("pop a", pop(1)),
        ("pop r15", pop(15)),
    ];
    for (text, record) in cases {
        let source = format!("reg a = r1\nmain:\n  {}\n  halt\nexit: halt\n", text);
        assert_eq!(image(&source), with_instruction(record), "{}", text);
    }
}

#[test]
fn last_instructions() {
    let cases = [
        ("jump main", jump(Lab(0))),
        ("jump r3", jump(Reg(3))),
        ("halt", halt()),
        ("join r3", join(Reg(3))),
        ("join 5", join(Int(5))),
    ];
    for (text, record) in cases {
        let mut program = Assembly::default();
        program.block(Annotation::None, &[record]);
        assert_eq!(image(&format!("main: {}", text)), program.image());
    }
}

#[test]
fn annotations() {
    let target = |policy, pairs| Annotation::JoinTarget {
        policy,
        combining: 0,
        pairs,
    };
    let rising = vec![pair(9, 0), pair(3, 1), pair(3, 2), pair(0, 15)];
    let cases = [
        ("", Annotation::None),
        ("[.]", Annotation::None),
        ("[prppt y]", Annotation::PromotionReady { handler: 1 }),
        ("[jtppt assoc; ; x]", target(0, vec![])),
        ("[jtppt assoc-comm; r3->r2; x]", target(1, vec![pair(3, 2)])),
        (
            "[jtppt assoc; r0 -> r15, r3 -> r1, r9 -> r0, r3 -> r2; x]",
            target(0, rising),
        ),
    ];
    for (text, annotation) in cases {
        let mut program = Assembly::default();
        program.block(annotation, &[halt()]);
        program.block(Annotation::None, &[halt()]);
        assert_eq!(
            image(&format!("x: {} halt\ny: halt", text)),
            program.image()
        );
    }
}

/// The version that an image says.
fn version(source: &str) -> u16 {
    let image = image(source);
    u16::from_le_bytes([image[3], image[4]])
}

#[test]
fn versions() {
    let pairs = |count: usize| {
        let pairs: Vec<String> = (0..count).map(|n| format!("r0 -> r{}", n)).collect();
        format!("x: [jtppt assoc; {}; x] halt\n", pairs.join(", "))
    };
    // The first that has all that the text uses.
    assert_eq!(version("x: halt"), 1);
    assert_eq!(version("x: push 1; halt"), 2);
    assert_eq!(version("x: pop r1; halt"), 2);
    for count in 0..=8 {
        assert_eq!(version(&pairs(count)), if count > 4 { 2 } else { 1 });
    }
    // A line fixes it, where it has all that is used.
    assert_eq!(version("version 1; x: halt"), 1);
    assert_eq!(version("version 2; x: halt"), 2);
    assert_eq!(
        version("places 2\nversion 2\nreg a = r1\nx: pop a; halt"),
        2
    );
    assert_eq!(version(&format!("version 1\n{}", pairs(4))), 1);
    assert_eq!(version(&format!("version 2\n{}", pairs(8))), 2);
    // It is the image's, and a job has it there.
    let assembly = assemble(b"version 2; x: halt").unwrap();
    assert_eq!(job(&assembly.image, &assembly.settings)[5], 2);
    // Like the other settings' words it may be a name.
    assert_eq!(version("version: jump version"), 1);
}

#[test]
fn eight_pairs() {
    let targets = [0, 1, 2, 3, 5, 8, 13, 15];
    let pairs: Vec<String> = targets
        .iter()
        .map(|n| format!("r{} -> r{}", n / 2, n))
        .collect();
    let source = format!("x: [jtppt assoc-comm; {}; x] halt", pairs.join(", "));
    let mut program = Assembly::default();
    let target = Annotation::JoinTarget {
        policy: 1,
        combining: 0,
        pairs: targets.map(|n| pair(n / 2, n)).to_vec(),
    };
    program.block(target, &[halt()]);
    assert_eq!(image(&source), program.image());
    assert_eq!(program.image().len(), 8 + 14 + 12);
}

#[test]
fn blanks_and_line_ends() {
    let expected = image("x:\n  r0 := 1\n  jump y\ny:\n  halt\n");
    for source in [
        "x: r0 := 1; jump y; y: halt",
        "x: r0:=1;;jump y;\n\n;y:\n\thalt;\n",
        "x:\r\n  r0 := 1 // é\r\n  jump y\r\ny: // halt\r\n  halt",
        "\u{feff}x: r0 := 1; jump y\ny: halt",
    ] {
        assert_eq!(image(source), expected, "{:?}", source);
    }
}

#[test]
fn words_of_settings_and_annotations_may_be_names() {
    let source = "reg words = r0\nset words = 4\nplaces: words := 1; jump set\nset: [prppt reg]
                  jump prppt\nprppt: jump assoc\nassoc: halt\nreg: halt";
    let assembly = assemble(source.as_bytes()).unwrap();
    assert_eq!(assembly.settings.registers[0], Some(4));
}

#[test]
fn jobs() {
    let source = "reg x = r0, jr = r1, y = r2\nplaces 2\ninterval 65535
        set x = 4, r15 = -1\nset y = -9223372036854775808\nwords 1 -2, 3\nwords 9223372036854775807
        main: jr := jralloc exit; fork jr, child; x := x + 1; join jr
        child: x := 7; join jr
        exit: [jtppt assoc; x -> y; comb] halt
        comb: x := x + y; join jr";
    let assembly = assemble(source.as_bytes()).unwrap();
    let expected = JobInput {
        words: vec![1, -2, 3, i64::MAX],
        ..JobInput::new(program_f(), 2, 65535)
            .with_register(0, 4)
            .with_register(15, -1)
            .with_register(2, i64::MIN)
    };
    assert_eq!(job(&assembly.image, &assembly.settings), expected.bytes());
}

#[test]
fn a_job_without_settings() {
    let assembly = assemble(b"main: halt").unwrap();
    let expected = JobInput::new(assembly.image.clone(), 1, 0);
    assert_eq!(job(&assembly.image, &assembly.settings), expected.bytes());
}

#[test]
fn the_examples_of_document_01_are_the_proved_programs() {
    let f = include_str!("../../../examples/f/f.tpal");
    assert_eq!(image(f), program_f());
    let figure_2 = include_str!("../../../examples/product/product.tpal");
    assert_eq!(image(figure_2), product());
}

/// Lines and columns of labels and instructions, and these with the text's names.
#[test]
fn where_blocks_and_instructions_stand() {
    let source = "reg x = r0\nmain: // first\n  x := x + -1 ;  jump  last // on\n\n\
                  last: push  last; pop x; halt\n";
    let assembly = assemble(source.as_bytes()).unwrap();
    let blocks = assembly.origins.blocks.iter();
    let blocks: Vec<_> = blocks
        .map(|label| (label.name.as_str(), label.position.to_string()))
        .collect();
    assert_eq!(blocks, [("main", "2:1".into()), ("last", "5:1".into())]);
    let spans = assembly.origins.instructions.iter();
    let spans: Vec<_> = spans
        .map(|span| (span.position.to_string(), span.width))
        .collect();
    let expected = [
        ("3:3", 11),
        ("3:18", 10),
        ("5:7", 10),
        ("5:19", 5),
        ("5:26", 4),
    ];
    assert_eq!(spans, expected.map(|(at, width)| (at.to_string(), width)));

    let names = Names::new(&assembly.origins, &assembly.registers);
    let program = model::read(&assembly.image).unwrap();
    let instructions = program.instructions.iter();
    let texts: Vec<String> = instructions
        .map(|instruction| written(instruction, &names))
        .collect();
    assert_eq!(
        texts,
        ["x := x + -1", "jump last", "push last", "pop x", "halt"]
    );
}

/// The first of an instruction's fields is what it writes, where it has one.
#[test]
fn instructions_that_write_a_register() {
    let writing = (1..=17).filter(|opcode| notation::writes_register(*opcode));
    assert!(writing.eq([1, 2, 3, 4, 5, 6, 7, 8, 9, 11, 17]));
}
