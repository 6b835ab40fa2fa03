//! Cells and their places, damaged cells, and buffers that are too short.

use super::*;
use crate::numbers::number_at;
use crate::sample::{calls, countdown, f, forks, pairs, program, HALT, PLAIN};
use crate::VERSION_2;

fn buffer(program: &Program) -> Vec<u8> {
    let mut buffer = vec![0xa5; BYTES];
    write(program, &mut buffer);
    buffer
}

fn with_cell(mut buffer: Vec<u8>, cell: usize, number: u64) -> Vec<u8> {
    numbers::write([number], &mut buffer[8 * cell..]);
    buffer
}

/// The number that reading F's buffer with one other cell is answered with.
fn answer(cell: usize, number: u64) -> u8 {
    read(&with_cell(buffer(&f()), cell, number))
        .err()
        .unwrap_or(0)
}

/// 128 blocks of one halt.
fn many_blocks() -> Program {
    program(&[(PLAIN, &[HALT][..]); MAX_BLOCKS])
}

#[test]
fn fs_cells() {
    let buffer = buffer(&f());
    assert_eq!((CELLS, buffer.len()), (5891, 47_128));
    let cells = |from: usize, count: usize| -> Vec<u64> {
        let cells = from..from + count;
        cells.map(|cell| number_at(&buffer, cell)).collect()
    };
    assert_eq!(cells(0, 3), [1, 4, 9]);
    assert_eq!(cells(3, 6), [0, 0, 0, 0, 0, 0]);
    assert_eq!(cells(15, 6), [6, 2, 0, 3, 1, 0x02]);
    assert_eq!(cells(21, 6), [7, 0, 0, 0, 0, 0]);
    assert_eq!(cells(771, 5), [11, 1, 0, 2, 2]);
    assert_eq!(cells(811, 5), [15, 0, 0, 1, 1]);
    assert!(cells(27, 744).iter().all(|&cell| cell == 0));
    assert!(cells(816, 5075).iter().all(|&cell| cell == 0));
}

#[test]
fn programs_are_read_back() {
    for program in [f(), forks(), countdown(), many_blocks(), calls()] {
        assert_eq!(read(&buffer(&program)), Ok(program));
    }
    // The first pair in the low byte, an operand with its sign.
    let mut changed = f();
    changed.blocks[2].pair_count = 2;
    changed.blocks[2].pairs = pairs(&[0x41, 0x52]);
    changed.instructions[4].operand = -2i64 as u64;
    assert_eq!(number_at(&buffer(&changed), 20), 0x5241);
    assert_eq!(number_at(&buffer(&changed), 795), u64::MAX - 1);
    assert_eq!(read(&buffer(&changed)), Ok(changed));
}

#[test]
fn unused_cells_hold_anything() {
    for cell in [27, 770, 816, CELLS - 1] {
        assert_eq!(read(&with_cell(buffer(&f()), cell, u64::MAX)), Ok(f()));
    }
}

/// Numbers that would be right if they were cut to 8, 16 or 32 bits.
fn too_large(number: u64) -> [u64; 4] {
    [8, 16, 32, 63].map(|bit| number | 1 << bit)
}

#[test]
fn numbers_are_compared_whole() {
    for number in too_large(1).into_iter().chain(too_large(2)) {
        assert_eq!(answer(0, number), 3);
    }
    for number in too_large(4) {
        assert_eq!(answer(1, number), 4);
    }
    // 265 instructions would be no more than there may be.
    for number in &too_large(9)[1..] {
        assert_eq!(answer(2, *number), 4);
    }
    for (cell, right) in [(3, 0), (9, 4), (15, 6), (21, 7)] {
        assert_eq!(answer(cell, right), 0);
        for number in too_large(right) {
            assert_eq!(answer(cell, number), 6, "cell {}", cell);
        }
    }
    let blocks = number_at(&buffer(&f()), 1) as usize;
    for cell in (0..blocks).flat_map(|block| 4 + 6 * block..9 + 6 * block) {
        let right = number_at(&buffer(&f()), cell);
        for number in too_large(right) {
            assert_eq!(answer(cell, number), 7, "cell {}", cell);
        }
    }
    for cell in (0..9).flat_map(|instruction| 771 + 5 * instruction..775 + 5 * instruction) {
        let right = number_at(&buffer(&f()), cell);
        for number in too_large(right) {
            assert_eq!(answer(cell, number), 8, "cell {}", cell);
        }
    }
    // A label, a register, and an integer, which may be any number.
    for number in too_large(2) {
        assert_eq!(answer(775, number), 8);
    }
    for number in too_large(1) {
        assert_eq!(answer(790, number), 8);
        assert_eq!(answer(785, number), 0);
    }
}

/// With so many pairs, whose bytes are this number.
fn with_pairs(program: &Program, count: u64, packed: u64) -> Result<(), u8> {
    let buffer = with_cell(with_cell(buffer(program), 19, count), 20, packed);
    read(&buffer).map(|_| ())
}

#[test]
fn pairs_are_four_bytes_or_eight() {
    // Four rising ones, and the same with a fifth byte.
    assert_eq!(with_pairs(&f(), 4, 0x0403_0201), Ok(()));
    assert_eq!(with_pairs(&f(), 4, 0x05_0403_0201), Err(7));
    assert_eq!(with_pairs(&f(), 5, 0x05_0403_0201), Err(7));
    assert_eq!(answer(20, 0x0100), 7);
    let second = Program {
        version: VERSION_2,
        ..f()
    };
    assert_eq!(with_pairs(&second, 4, 0x05_0403_0201), Err(7));
    assert_eq!(with_pairs(&second, 5, 0x05_0403_0201), Ok(()));
    assert_eq!(with_pairs(&second, 8, 0x0807_0605_0403_0201), Ok(()));
    assert_eq!(with_pairs(&second, 8, 0xff07_0605_0403_0201), Ok(()));
    assert_eq!(with_pairs(&second, 8, 0xf707_0605_0403_0201), Err(7));
    assert_eq!(with_pairs(&second, 7, 0x0807_0605_0403_0201), Err(7));
    assert_eq!(with_pairs(&second, 9, 0x0807_0605_0403_0201), Err(7));
}

#[test]
fn versions_come_before_all_else() {
    for version in [0, 3, 65_535, 65_536, u64::MAX] {
        let wrong = with_cell(buffer(&f()), 0, version);
        assert_eq!(read(&wrong), Err(3));
        assert_eq!(read(&with_cell(wrong, 1, 0)), Err(3));
    }
    // Read as the other version, a program has the fields that it had, and other opcodes.
    assert_eq!(answer(0, 2), 0);
    assert_eq!(read(&with_cell(buffer(&calls()), 0, 1)), Err(8));
}

#[test]
fn the_first_no_decides() {
    // A start that is wrong beside an annotation that is too large for its field.
    let both = with_cell(with_cell(buffer(&f()), 9, 0), 10, 1 << 40);
    assert_eq!(read(&both), Err(6));
    // A block's annotation beside a later block's start, and an instruction beside both.
    let blocks = with_cell(with_cell(buffer(&f()), 21, 1 << 40), 10, 3);
    assert_eq!(read(&blocks), Err(7));
    assert_eq!(read(&with_cell(blocks, 771, 0)), Err(7));
    // One that ends no block at the end of a block, beside a later one that is no instruction.
    let instructions = with_cell(with_cell(buffer(&f()), 786, 14), 791, 1 << 40);
    assert_eq!(read(&with_cell(instructions, 789, 0)), Err(8));
    let early = with_cell(buffer(&countdown()), 781, 1 << 40);
    assert_eq!(read(&with_cell(early, 771, 14)), Err(8));
}

#[test]
fn short_buffers() {
    let whole = buffer(&f());
    let answer = |length: usize| read(&whole[..length]).err().unwrap_or(0);
    for length in 0..8 {
        assert_eq!(answer(length), 3);
    }
    for length in 8..24 {
        assert_eq!(answer(length), 4);
    }
    // Four blocks end at cell 27, nine instructions at cell 816.
    for length in 24..8 * 27 {
        assert_eq!(answer(length), 6);
    }
    for length in 8 * 27..8 * 816 {
        assert_eq!(answer(length), 8);
    }
    for length in [8 * 816, 8 * 816 + 1, BYTES - 1] {
        assert_eq!(read(&whole[..length]), Ok(f()));
    }
    // What is lacking comes after a no to what is there.
    let damaged = with_cell(whole.clone(), 4, 3);
    assert_eq!(read(&damaged[..8 * 9]), Err(7));
    let damaged = with_cell(whole, 4, 3);
    assert_eq!(read(&damaged[..8 * 8]), Err(6));
}

#[test]
fn long_buffers_begin_with_the_program() {
    let mut long = buffer(&f());
    for more in [1, 7, 8, 100] {
        long.resize(BYTES + more, 0xff);
        assert_eq!(read(&long), Ok(f()));
    }
}
