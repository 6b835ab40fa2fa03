//! The model's own tests: records, every question, the writer.

use super::*;
use crate::sample::pairs;

const PLAIN: Block = Block::PLAIN;

const HALT: Instruction = Instruction {
    opcode: 14,
    r: 0,
    s: 0,
    kind: 0,
    operand: 0,
};

const MOVE: Instruction = Instruction {
    opcode: 1,
    kind: 3,
    ..HALT
};

/// One block for each number of instructions given, all plain moves and a halt at the end.
fn program(sizes: &[usize]) -> Program {
    let mut program = Program {
        version: VERSION_1,
        blocks: Vec::new(),
        instructions: Vec::new(),
    };
    for &size in sizes {
        let first = program.instructions.len() as u16;
        program.blocks.push(Block { first, ..PLAIN });
        program.instructions.extend(vec![MOVE; size - 1]);
        program.instructions.push(HALT);
    }
    program
}

/// What the questions about a program say, once the image check and the reader have said the same of
/// its image.
fn answer_to(program: &Program) -> Result<(), u8> {
    let mut image = vec![0; program.image_len()];
    program.encode(&mut image);
    let answer = program.check();
    assert_eq!(check(&image), answer);
    assert_eq!(read(&image), answer.map(|()| program.clone()));
    answer
}

/// The same program of version 2.
fn second(program: Program) -> Program {
    Program {
        version: VERSION_2,
        ..program
    }
}

fn with_block(version: u16, block: Block) -> Result<(), u8> {
    let mut program = Program {
        version,
        ..program(&[1, 1, 1])
    };
    program.blocks[1] = Block { first: 1, ..block };
    answer_to(&program)
}

fn with_instruction(version: u16, instruction: Instruction) -> Result<(), u8> {
    let mut program = Program {
        version,
        ..program(&[2, 1, 1])
    };
    let at = usize::from(instruction.ends_block());
    program.instructions[at] = instruction;
    answer_to(&program)
}

#[test]
fn the_least_image_is_these_bytes() {
    let image = write(&program(&[1])).unwrap();
    let mut expected = b"TPB\x01\0\x01\x01\0".to_vec();
    expected.extend([0; 10]);
    expected.extend([14, 0, 0, 0, 0, 0, 0, 0, 0, 0, 0, 0]);
    assert_eq!(image, expected);
    assert_eq!(read(&image), Ok(program(&[1])));
}

#[test]
fn records_are_little_endian_and_in_this_order() {
    let mut program = program(&[258, 1, 1, 1]);
    program.blocks[1] = Block {
        first: 258,
        annotation: 2,
        policy: 1,
        label: 3,
        pair_count: 2,
        pairs: pairs(&[0x51, 0x42]),
    };
    program.instructions[0] = Instruction {
        opcode: 2,
        r: 4,
        s: 5,
        kind: 3,
        operand: 0x0807_0605_0403_0201,
    };
    let image = write(&program).unwrap();
    assert_eq!(image[5..8], [4, 0x05, 0x01]);
    assert_eq!(image[18..28], [2, 1, 2, 1, 3, 2, 0x51, 0x42, 0, 0]);
    assert_eq!(image[48..60], [2, 4, 5, 3, 1, 2, 3, 4, 5, 6, 7, 8]);
    assert_eq!(read(&image), Ok(program.clone()));

    // Version 2 has four bytes more in each block record, and nothing else moved.
    program.version = VERSION_2;
    program.blocks[1].pair_count = 8;
    program.blocks[1].pairs = [0x50, 0x41, 0x32, 0x23, 0x14, 0x05, 0xf6, 0xe7];
    let longer = write(&program).unwrap();
    assert_eq!(longer.len(), image.len() + 4 * 4);
    assert_eq!(longer[..8], [b'T', b'P', b'B', 2, 0, 4, 0x05, 0x01]);
    assert_eq!(longer[22..28], [2, 1, 2, 1, 3, 8]);
    assert_eq!(longer[28..36], program.blocks[1].pairs);
    assert_eq!(longer[64..], image[48..]);
    assert_eq!(read(&longer), Ok(program));
}

#[test]
fn versions() {
    let image = write(&program(&[2, 1])).unwrap();
    for version in (0..=u8::MAX.into()).chain([256, 257, 258, 512, 65_535]) {
        let mut changed = image.clone();
        changed[3..5].copy_from_slice(&u16::to_le_bytes(version));
        let mut damaged = program(&[2, 1]);
        damaged.version = version;
        // Of version 2 it is too short.
        let expected = match version {
            1 => (Ok(()), Ok(())),
            2 => (Err(5), Ok(())),
            _ => (Err(3), Err(3)),
        };
        assert_eq!((check(&changed), damaged.check()), expected);
        assert_eq!(read(&changed).map(|_| ()), expected.0);
        // Before the counts.
        damaged.blocks.clear();
        assert_eq!(damaged.check(), Err(expected.1.err().unwrap_or(4)));
        changed[5] = 0;
        let expected = if VERSIONS.contains(&version) { 4 } else { 3 };
        assert_eq!(check(&changed), Err(expected));
    }
}

#[test]
fn counts() {
    let blocks = |n: usize| answer_to(&program(&vec![1; n]));
    let instructions = |n: usize| answer_to(&program(&[n]));
    assert_eq!(blocks(0), Err(4));
    assert_eq!(blocks(128), Ok(()));
    assert_eq!(blocks(129), Err(4));
    assert_eq!(instructions(1024), Ok(()));
    assert_eq!(instructions(1025), Err(4));
    let no_instructions = Program {
        version: VERSION_1,
        blocks: vec![PLAIN],
        instructions: Vec::new(),
    };
    assert_eq!(write(&no_instructions), Err(4));
}

#[test]
fn block_starts() {
    let starts = |starts: &[u16]| {
        let mut program = program(&[1, 1, 1]);
        for (block, &first) in program.blocks.iter_mut().zip(starts) {
            block.first = first;
        }
        answer_to(&program)
    };
    assert_eq!(starts(&[0, 1, 2]), Ok(()));
    assert_eq!(starts(&[1, 2, 3]), Err(6));
    assert_eq!(starts(&[0, 0, 2]), Err(6));
    assert_eq!(starts(&[0, 2, 1]), Err(6));
    assert_eq!(starts(&[0, 1, 3]), Err(6));
}

#[test]
fn annotations() {
    let none = PLAIN;
    let ready = Block {
        annotation: 1,
        label: 2,
        ..PLAIN
    };
    let target = Block {
        annotation: 2,
        policy: 1,
        label: 2,
        pair_count: 4,
        pairs: pairs(&[0xf0, 0xe1, 0x0e, 0x0f]),
        ..PLAIN
    };
    for (version, block) in in_both(&[none, ready, target]) {
        assert_eq!(with_block(version, block), Ok(()), "{:?}", block);
    }
    let refused = [
        Block {
            annotation: 3,
            ..none
        },
        Block { policy: 1, ..none },
        Block { label: 1, ..none },
        Block {
            pair_count: 1,
            ..none
        },
        Block {
            pairs: pairs(&[0, 0, 0, 1]),
            ..none
        },
        Block { label: 3, ..ready },
        Block { policy: 1, ..ready },
        Block {
            pair_count: 1,
            ..ready
        },
        Block {
            pairs: pairs(&[1]),
            ..ready
        },
        Block {
            policy: 2,
            ..target
        },
        Block { label: 3, ..target },
        Block {
            pair_count: 5,
            ..target
        },
        Block {
            pair_count: 3,
            ..target
        },
        Block {
            pairs: pairs(&[0xf0, 0xe1, 0x0f, 0x0e]),
            ..target
        },
        Block {
            pairs: pairs(&[0x00, 0x10, 0x02, 0x03]),
            ..target
        },
    ];
    for (version, block) in in_both(&refused) {
        assert_eq!(with_block(version, block), Err(7), "{:?}", block);
    }
}

fn in_both(blocks: &[Block]) -> impl Iterator<Item = (u16, Block)> + '_ {
    let of_version = |version| blocks.iter().map(move |block| (version, *block));
    VERSIONS.flat_map(of_version)
}

#[test]
fn pairs_of_each_version() {
    let rising = [0x00, 0x11, 0x22, 0x33, 0x44, 0x55, 0x66, 0x77];
    for pair_count in 0..=u8::MAX {
        let used = &rising[..usize::from(pair_count).min(8)];
        let block = Block {
            annotation: 2,
            pair_count,
            pairs: pairs(used),
            ..PLAIN
        };
        for (version, most) in [(VERSION_1, 4), (VERSION_2, 8)] {
            let expected = if pair_count <= most { Ok(()) } else { Err(7) };
            // An image of version 1 has no room for more.
            let program = Program {
                version,
                blocks: vec![block],
                instructions: vec![HALT],
            };
            assert_eq!(program.check(), expected, "{} of {}", pair_count, version);
            assert_eq!(with_block(version, block), expected);
        }
    }
    // Bytes that version 1 has no place for in its image, though a program buffer has.
    for at in 4..8 {
        let mut block = Block {
            annotation: 2,
            ..PLAIN
        };
        block.pairs[at] = 1;
        let program = Program {
            version: VERSION_1,
            blocks: vec![block],
            instructions: vec![HALT],
        };
        assert_eq!(program.check(), Err(7));
    }
}

/// The fields r, s and v of an opcode of this version, if it is one.
fn fields_of(version: u16, opcode: u8) -> Option<(bool, bool, bool)> {
    Some(match opcode {
        1 | 9 | 11 => (true, false, true),
        2..=8 => (true, true, true),
        10 | 12 => (false, true, true),
        13 | 15 => (false, false, true),
        14 => (false, false, false),
        16 if version == 2 => (false, false, true),
        17 if version == 2 => (true, false, false),
        _ => return None,
    })
}

#[test]
fn each_opcode_has_its_fields_and_no_other() {
    for (version, opcode) in VERSIONS.flat_map(|v| (0..=255).map(move |opcode| (v, opcode))) {
        let answer_to = |instruction| with_instruction(version, instruction);
        let (r, s, v) = match fields_of(version, opcode) {
            Some(fields) => fields,
            None => {
                assert_eq!(answer_to(Instruction { opcode, ..MOVE }), Err(8));
                assert_eq!(answer_to(Instruction { opcode, ..HALT }), Err(8));
                continue;
            }
        };
        let answer = |fits: bool| if fits { Ok(()) } else { Err(8) };
        let least = Instruction {
            opcode,
            kind: u8::from(v),
            ..HALT
        };
        assert_eq!(answer_to(least), Ok(()));
        for n in 1..=255 {
            let fits = n < 16;
            assert_eq!(answer_to(Instruction { r: n, ..least }), answer(r && fits));
            assert_eq!(answer_to(Instruction { s: n, ..least }), answer(s && fits));
        }
        for kind in 0..=255 {
            let bare = Instruction { kind, ..least };
            let fits = if v {
                (1..=3).contains(&kind)
            } else {
                kind == 0
            };
            assert_eq!(answer_to(bare), answer(fits));
            for operand in [1, 2, 3, 15, 16, 255, 256, 1 << 32, 1 << 63, u64::MAX] {
                let instruction = Instruction { operand, ..bare };
                let fits = match kind {
                    1 => operand < 16,
                    2 => operand < 3,
                    3 => true,
                    _ => false,
                };
                assert_eq!(answer_to(instruction), answer(v && fits));
            }
        }
    }
}

#[test]
fn last_in_block() {
    let mut early = program(&[3]);
    early.instructions[1] = HALT;
    assert_eq!(answer_to(&early), Err(9));
    let mut open = program(&[3, 2]);
    open.instructions[2] = MOVE;
    assert_eq!(answer_to(&open), Err(9));
    let mut open_at_end = program(&[3, 2]);
    open_at_end.instructions[4] = MOVE;
    assert_eq!(answer_to(&open_at_end), Err(9));
    // A push or pop is never the last.
    for opcode in [16, 17] {
        let mut open = second(program(&[2, 2]));
        let kind = if opcode == 16 { 1 } else { 0 };
        open.instructions[0] = Instruction {
            opcode,
            kind,
            ..HALT
        };
        assert_eq!(answer_to(&open), Ok(()));
        open.instructions.swap(0, 1);
        assert_eq!(answer_to(&open), Err(9));
    }
}

#[test]
fn a_refused_write_leaves_the_buffer_as_it_was() {
    let good = second(program(&[2, 1]));
    let mut bad = good.clone();
    bad.instructions[0].r = 16;
    let len = good.image_len();
    for size in [0, len - 1, len, len + 1] {
        let mut out = vec![0xa5; size];
        assert_eq!(write_into(&bad, &mut out), Err(8));
        assert_eq!(out, vec![0xa5; size]);
        if size != len {
            assert_eq!(write_into(&good, &mut out), Err(15));
            assert_eq!(out, vec![0xa5; size]);
        }
    }
    let mut out = vec![0xa5; len];
    assert_eq!(write_into(&good, &mut out), Ok(()));
    assert_eq!(Ok(out), write(&good));
}

#[test]
fn reading_and_writing_undo_each_other() {
    let program = program(&[3, 1, 7, 2]);
    for program in [program.clone(), second(program)] {
        let image = write(&program).unwrap();
        assert_eq!(read(&image), Ok(program));
        let mut out = vec![0; image.len()];
        assert_eq!(rewrite(&image, &mut out[1..]), Err(15));
        assert_eq!(rewrite(&image[1..], &mut out), Err(2));
        assert_eq!(out, vec![0; image.len()]);
        assert_eq!(rewrite(&image, &mut out), Ok(()));
        assert_eq!(out, image);
    }
}
