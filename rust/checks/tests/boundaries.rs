//! Boundaries that documents 01 and 02 name or imply, with the answer that they give. Each is put to the
//! model and to the engine.

use checks::compare::compare;
use checks::layout::{
    add, block_field, even_blocks, even_blocks_of, every_form, halt, image, image_of, instruction,
    instruction_field, join_target, jump, pair, plain, pop, program_f, promotion_ready, push, set,
    BlockRecord, InstructionRecord, ABSENT, BLOCK, HEADER, INSTRUCTION, INTEGER, LABEL, LONG_BLOCK,
    REGISTER,
};

/// The number that both answer, 0 when accepted, with an `out` of the image's length.
fn answer(image: &[u8]) -> u8 {
    answer_into(image, image.len())
}

fn answer_into(image: &[u8], out_len: usize) -> u8 {
    match compare(image, out_len, 0x1234_5678) {
        Ok(answers) => answers.rewrite.err().unwrap_or(0),
        Err(what) => panic!("{}", what),
    }
}

/// Three blocks of two instructions.
fn small() -> Vec<u8> {
    image(&small_blocks(), &small_instructions())
}

fn small_blocks() -> Vec<BlockRecord> {
    vec![plain(0), plain(2), plain(4)]
}

fn small_instructions() -> Vec<InstructionRecord> {
    [set(0, 1), halt()].repeat(3)
}

fn second(blocks: &[BlockRecord], instructions: &[InstructionRecord]) -> Vec<u8> {
    image_of(2, blocks, instructions)
}

fn with_byte(mut image: Vec<u8>, at: usize, byte: u8) -> Vec<u8> {
    image[at] = byte;
    image
}

fn block_at(block: usize) -> usize {
    HEADER + BLOCK * block
}

fn instruction_at(image: &[u8], instruction: usize) -> usize {
    block_at(usize::from(image[5])) + INSTRUCTION * instruction
}

fn with_blocks(blocks: &[BlockRecord]) -> u8 {
    answer(&image(blocks, &small_instructions()))
}

fn with_block(record: BlockRecord) -> u8 {
    with_blocks(&[plain(0), record, plain(4)])
}

/// The instruction stands where its opcode belongs: last if it ends a block, else first.
fn with_instruction(record: InstructionRecord) -> u8 {
    let mut instructions = small_instructions();
    let at = usize::from(matches!(record[0], 13..=15));
    instructions[at] = record;
    answer(&image(&small_blocks(), &instructions))
}

// Document 01, 'Tried by hand'.

#[test]
fn program_f_has_156_bytes_and_is_rewritten() {
    let f = program_f();
    assert_eq!(f.len(), 156);
    let mut out = [0; 156];
    assert_eq!(engine::image_check(&f), Ok(()));
    assert_eq!(engine::image_rewrite(&f, &mut out), Ok(()));
    assert_eq!(out, f[..]);
    assert_eq!(answer(&f), 0);
}

#[test]
fn program_f_is_these_bytes() {
    let mut expected = b"TPB\x01\x00\x04\x09\x00".to_vec();
    expected.extend([0, 0, 0, 0, 0, 0, 0, 0, 0, 0]);
    expected.extend([4, 0, 0, 0, 0, 0, 0, 0, 0, 0]);
    expected.extend([6, 0, 2, 0, 3, 1, 0x02, 0, 0, 0]);
    expected.extend([7, 0, 0, 0, 0, 0, 0, 0, 0, 0]);
    for start in [
        [11, 1, 0, 2, 2],
        [12, 0, 1, 2, 1],
        [2, 0, 0, 3, 1],
        [15, 0, 0, 1, 1],
        [1, 0, 0, 3, 7],
        [15, 0, 0, 1, 1],
        [14, 0, 0, 0, 0],
        [2, 0, 0, 1, 2],
        [15, 0, 0, 1, 1],
    ] {
        expected.extend(start);
        expected.extend([0; 7]);
    }
    assert_eq!(program_f(), expected);
}

#[test]
fn seven_bytes_are_refused_by_1_and_eight_go_on_to_2() {
    assert_eq!(answer(&[0; 7]), 1);
    assert_eq!(answer(&[0; 8]), 2);
    assert_eq!(answer(&program_f()[..7]), 1);
    assert_eq!(answer(&program_f()[..8]), 5);
}

#[test]
fn most_blocks_are_128() {
    assert_eq!(answer(&even_blocks(127, 127)), 0);
    assert_eq!(answer(&even_blocks(128, 128)), 0);
    assert_eq!(answer(&even_blocks(128, 1024)), 0);
    assert_eq!(answer(&even_blocks(129, 129)), 4);
    assert_eq!(answer(&even_blocks(129, 1024)), 4);
    assert_eq!(answer(&even_blocks(255, 1024)), 4);
}

#[test]
fn most_instructions_are_1024() {
    assert_eq!(answer(&even_blocks(1, 1023)), 0);
    assert_eq!(answer(&even_blocks(1, 1024)), 0);
    assert_eq!(answer(&even_blocks(1, 1025)), 4);
    assert_eq!(answer(&even_blocks(128, 1025)), 4);
    assert_eq!(answer(&even_blocks(1, 65_535)), 4);
}

// Document 02, request 4.

#[test]
fn the_least_image_of_version_2() {
    let least = second(&[plain(0)], &[halt()]);
    assert_eq!(least.len(), 8 + 14 + 12);
    assert_eq!(answer(&least), 0);
    for length in [8 + 10 + 12, least.len() - 1, least.len() + 1] {
        let mut other = least.clone();
        other.resize(length, 0);
        assert_eq!(answer(&other), 5);
    }
}

#[test]
fn the_largest_image_of_version_2() {
    let largest = even_blocks_of(2, 128, 1024);
    assert_eq!(largest.len(), 8 + 14 * 128 + 12 * 1024);
    assert_eq!(answer(&largest), 0);
    assert_eq!(answer(&even_blocks_of(2, 129, 1024)), 4);
    assert_eq!(answer(&even_blocks_of(2, 128, 1025)), 4);
    let last = HEADER + LONG_BLOCK * 127 + block_field::PAIRS + 7;
    assert_eq!(answer(&with_byte(largest.clone(), last, 0)), 7);
    assert_eq!(answer(&with_byte(largest, last, 0x0f)), 0);
}

#[test]
fn opcodes_16_and_17_are_version_2s() {
    let push = push(LABEL, 1);
    let pop = pop(3);
    let blocks = [plain(0), plain(3)];
    for (instructions, answers) in [
        ([push, pop, halt(), halt()], [8, 0]),
        ([push, set(0, 1), halt(), halt()], [8, 0]),
        ([set(0, 1), pop, halt(), halt()], [8, 0]),
        // They end no block.
        ([set(0, 1), set(0, 1), push, halt()], [8, 9]),
        ([set(0, 1), set(0, 1), pop, halt()], [8, 9]),
        ([set(0, 1), set(0, 1), halt(), pop], [8, 9]),
    ] {
        let images = [
            image(&blocks, &instructions),
            second(&blocks, &instructions),
        ];
        assert_eq!(images.map(|image| answer(&image)), answers);
    }
}

#[test]
fn fields_of_opcodes_16_and_17() {
    let answer = |record: InstructionRecord| {
        answer(&second(&[plain(0), plain(2)], &[record, halt(), halt()]))
    };
    for (kind, operand, expected) in [
        (ABSENT, 0, 8),
        (REGISTER, 15, 0),
        (REGISTER, 16, 8),
        (LABEL, 1, 0),
        (LABEL, 2, 8),
        (INTEGER, u64::MAX, 0),
        (4, 0, 8),
    ] {
        assert_eq!(answer(push(kind, operand)), expected);
    }
    assert_eq!(answer(instruction(16, 1, 0, INTEGER, 0)), 8);
    assert_eq!(answer(instruction(16, 0, 1, INTEGER, 0)), 8);
    for (r, expected) in [(0, 0), (15, 0), (16, 8), (255, 8)] {
        assert_eq!(answer(pop(r)), expected);
    }
    assert_eq!(answer(instruction(17, 0, 1, ABSENT, 0)), 8);
    assert_eq!(answer(instruction(17, 0, 0, REGISTER, 0)), 8);
    assert_eq!(answer(instruction(17, 0, 0, ABSENT, 1)), 8);
    for opcode in [0, 18, 19, 32, 255] {
        assert_eq!(answer(instruction(opcode, 0, 0, ABSENT, 0)), 8);
    }
}

#[test]
fn at_most_eight_pairs_in_version_2() {
    let pairs: Vec<u8> = (1..=8).map(|target| pair(0, target)).collect();
    let answer =
        |block: BlockRecord| answer(&second(&[plain(0), block, plain(4)], &small_instructions()));
    for count in 0..=8 {
        assert_eq!(answer(join_target(2, 0, 1, &pairs[..count])), 0);
    }
    for count in 9..=255 {
        let mut record = join_target(2, 0, 1, &pairs);
        record[block_field::PAIR_COUNT] = count;
        assert_eq!(answer(record), 7);
    }
    // The unused are 0, and targets rise over all of them.
    for count in 0..8 {
        let mut record = join_target(2, 0, 1, &pairs);
        record[block_field::PAIR_COUNT] = count;
        assert_eq!(answer(record), 7);
        let mut equal = pairs.clone();
        equal[usize::from(count)] = pair(15, 5);
        let expected = if count == 4 { 0 } else { 7 };
        assert_eq!(answer(join_target(2, 0, 1, &equal)), expected);
    }
    for at in block_field::POLICY..LONG_BLOCK {
        let mut record = plain(2);
        record[at] = 1;
        assert_eq!(answer(record), 7, "byte {}", at);
    }
}

// The header.

#[test]
fn empty_image() {
    assert_eq!(answer(&[]), 1);
    assert_eq!(answer_into(&[], 100), 1);
}

#[test]
fn least_image() {
    let least = image(&[plain(0)], &[halt()]);
    assert_eq!(least.len(), 30);
    assert_eq!(answer(&least), 0);
}

#[test]
fn each_letter_of_the_mark_counts() {
    for at in 0..3 {
        let letter = small()[at];
        for other in [0, letter + 1, letter - 1, letter ^ 0x20, letter ^ 0x80] {
            assert_eq!(answer(&with_byte(small(), at, other)), 2);
        }
    }
}

#[test]
fn version_is_1_or_2_in_16_bits() {
    for version in [0u16, 3, 4, 0x0100, 0x0101, 0x0102, 0x8001, u16::MAX] {
        let mut image = small();
        image[3..5].copy_from_slice(&version.to_le_bytes());
        assert_eq!(answer(&image), 3, "version {}", version);
        // Before question 4.
        image[5] = 0;
        assert_eq!(answer(&image), 3, "version {}", version);
    }
    // The other version's length is another.
    assert_eq!(answer(&with_byte(small(), 3, 2)), 5);
    assert_eq!(
        answer(&with_byte(
            second(&small_blocks(), &small_instructions()),
            3,
            1
        )),
        5
    );
}

#[test]
fn counts_of_0() {
    assert_eq!(answer(&image(&[], &[halt()])), 4);
    assert_eq!(answer(&image(&[plain(0)], &[])), 4);
    assert_eq!(answer(b"TPB\x01\0\0\0\0"), 4);
}

#[test]
fn the_number_of_instructions_is_little_endian() {
    // 0x0102 instructions, not 0x0201.
    assert_eq!(answer(&even_blocks(3, 0x0102)), 0);
    let mut swapped = even_blocks(3, 0x0102);
    swapped.swap(6, 7);
    assert_eq!(answer(&swapped), 5);
}

#[test]
fn length_is_exact() {
    let good = small();
    let mut longer = good.clone();
    longer.push(0);
    assert_eq!(answer(&good), 0);
    assert_eq!(answer(&longer), 5);
    assert_eq!(answer(&good[..good.len() - 1]), 5);
    assert_eq!(answer(&good[..good.len() - INSTRUCTION]), 5);
    // Lengths that agree in 8 or 16 bits only.
    for extra in [256, 65_536] {
        let mut longer = good.clone();
        longer.resize(good.len() + extra, 0);
        assert_eq!(answer(&longer), 5);
    }
}

// Question 6.

#[test]
fn block_0_starts_at_0() {
    assert_eq!(with_blocks(&[plain(0), plain(2), plain(4)]), 0);
    assert_eq!(with_blocks(&[plain(1), plain(2), plain(4)]), 6);
    assert_eq!(with_blocks(&[plain(256), plain(2), plain(4)]), 6);
    assert_eq!(answer(&image(&[plain(1)], &[set(0, 0), halt()])), 6);
}

#[test]
fn a_later_block_starts_after_its_predecessor() {
    assert_eq!(with_blocks(&[plain(0), plain(0), plain(4)]), 6);
    assert_eq!(with_blocks(&[plain(0), plain(2), plain(2)]), 6);
    assert_eq!(with_blocks(&[plain(0), plain(4), plain(2)]), 6);
}

#[test]
fn blocks_start_below_the_number_of_instructions() {
    let one_each = [halt(), halt(), halt()];
    let third_at = |first| answer(&image(&[plain(0), plain(1), plain(first)], &one_each));
    assert_eq!(third_at(2), 0);
    assert_eq!(third_at(3), 6);
    assert_eq!(third_at(4), 6);
    assert_eq!(third_at(0x0102), 6);
    assert_eq!(third_at(u16::MAX), 6);
}

#[test]
fn block_starts_beyond_255_are_little_endian() {
    let mut instructions = vec![set(0, 0); 0x0203];
    instructions[0x0102 - 1] = halt();
    instructions.push(halt());
    assert_eq!(answer(&image(&[plain(0), plain(0x0102)], &instructions)), 0);
    assert_eq!(answer(&image(&[plain(0), plain(0x0201)], &instructions)), 9);
}

// Question 7.

#[test]
fn annotations_are_0_1_and_2() {
    assert_eq!(with_block(plain(2)), 0);
    assert_eq!(with_block(promotion_ready(2, 0)), 0);
    assert_eq!(with_block(join_target(2, 0, 0, &[])), 0);
    for annotation in 3..=255 {
        let mut record = plain(2);
        record[block_field::ANNOTATION] = annotation;
        assert_eq!(with_block(record), 7);
    }
}

#[test]
fn a_label_is_below_the_number_of_blocks() {
    assert_eq!(with_block(promotion_ready(2, 2)), 0);
    assert_eq!(with_block(promotion_ready(2, 3)), 7);
    assert_eq!(with_block(promotion_ready(2, 255)), 7);
    assert_eq!(with_block(join_target(2, 0, 2, &[])), 0);
    assert_eq!(with_block(join_target(2, 0, 3, &[])), 7);
    assert_eq!(with_block(join_target(2, 0, 255, &[])), 7);

    let largest = even_blocks(128, 1024);
    for (label, expected) in [(127, 0), (128, 7), (255, 7)] {
        let at = block_at(127) + block_field::LABEL;
        assert_eq!(answer(&with_byte(largest.clone(), at, label)), expected);
    }
}

#[test]
fn annotation_0_has_only_zeros() {
    for at in block_field::POLICY..BLOCK {
        let mut record = plain(2);
        record[at] = 1;
        assert_eq!(with_block(record), 7, "byte {}", at);
    }
}

#[test]
fn annotation_1_has_only_a_label() {
    for at in block_field::POLICY..BLOCK {
        let mut record = promotion_ready(2, 0);
        record[at] = 1;
        let expected = if at == block_field::LABEL { 0 } else { 7 };
        assert_eq!(with_block(record), expected, "byte {}", at);
    }
}

#[test]
fn policies_are_0_and_1() {
    for policy in 0..=255 {
        let expected = if policy < 2 { 0 } else { 7 };
        assert_eq!(with_block(join_target(2, policy, 1, &[])), expected);
    }
}

#[test]
fn at_most_four_pairs() {
    let pairs = [pair(0, 1), pair(0, 2), pair(0, 3), pair(0, 4)];
    for count in 0..=4 {
        assert_eq!(with_block(join_target(2, 0, 1, &pairs[..count])), 0);
    }
    for count in 5..=255 {
        // Version 1 has no room for a fifth.
        let mut record = join_target(2, 0, 1, &pairs);
        record[block_field::PAIR_COUNT] = count;
        assert_eq!(with_block(record), 7);
    }
}

#[test]
fn unused_pairs_are_0() {
    let pairs = [pair(0, 1), pair(0, 2), pair(0, 3), pair(0, 4)];
    for count in 0..4 {
        let mut record = join_target(2, 0, 1, &pairs);
        record[block_field::PAIR_COUNT] = count;
        assert_eq!(with_block(record), 7);
    }
    let mut gap = join_target(2, 0, 1, &[pair(0, 1)]);
    gap[block_field::PAIRS + 3] = pair(0, 4);
    assert_eq!(with_block(gap), 7);
}

#[test]
fn pairs_rise_strictly_by_target_and_not_by_byte() {
    let pairs = |pairs: &[u8]| with_block(join_target(2, 0, 1, pairs));
    assert_eq!(pairs(&[pair(15, 0), pair(0, 15)]), 0);
    assert_eq!(pairs(&[pair(0, 1), pair(15, 0)]), 7);
    assert_eq!(pairs(&[pair(0, 5), pair(1, 5)]), 7);
    assert_eq!(pairs(&[pair(0, 5), pair(0, 5)]), 7);
    assert_eq!(pairs(&[pair(0, 0)]), 0);
    assert_eq!(pairs(&[pair(0, 0), pair(0, 0)]), 7);
    assert_eq!(pairs(&[pair(3, 0), pair(3, 1), pair(3, 2), pair(3, 2)]), 7);
    assert_eq!(pairs(&[pair(3, 0), pair(3, 2), pair(3, 1), pair(3, 3)]), 7);
}

// Question 8.

#[test]
fn opcodes_are_1_to_15() {
    for opcode in (0..=0).chain(16..=255) {
        assert_eq!(with_instruction(instruction(opcode, 0, 0, ABSENT, 0)), 8);
        assert_eq!(with_instruction(instruction(opcode, 0, 0, INTEGER, 0)), 8);
    }
}

#[test]
fn every_opcode_with_every_kind_of_operand() {
    let all = every_form(1);
    assert_eq!(all.len(), 8 + 10 * 7 + 12 * 43);
    assert_eq!(answer(&all), 0);
    let all = every_form(2);
    assert_eq!(all.len(), 8 + 14 * 7 + 12 * 47);
    assert_eq!(answer(&all), 0);
}

#[test]
fn an_opcode_has_the_fields_of_the_table() {
    for opcode in 1..=15 {
        let (r, s, v) = match opcode {
            1 | 9 | 11 => (1, 0, 1),
            2..=8 => (1, 1, 1),
            10 | 12 => (0, 1, 1),
            13 | 15 => (0, 0, 1),
            _ => (0, 0, 0),
        };
        let kind = v * INTEGER;
        let expected = |has: u8| if has == 1 { 0 } else { 8 };
        assert_eq!(with_instruction(instruction(opcode, 0, 0, kind, 0)), 0);
        assert_eq!(
            with_instruction(instruction(opcode, 1, 0, kind, 0)),
            expected(r)
        );
        assert_eq!(
            with_instruction(instruction(opcode, 0, 1, kind, 0)),
            expected(s)
        );
        assert_eq!(
            with_instruction(instruction(opcode, 0, 0, kind, 1)),
            expected(v)
        );
        for kind in [REGISTER, LABEL, INTEGER] {
            assert_eq!(
                with_instruction(instruction(opcode, 0, 0, kind, 0)),
                expected(v)
            );
        }
        let absent = with_instruction(instruction(opcode, 0, 0, ABSENT, 0));
        assert_eq!(absent, expected(1 - v));
    }
}

#[test]
fn registers_are_0_to_15() {
    for (register, expected) in [(15, 0), (16, 8), (31, 8), (255, 8)] {
        assert_eq!(with_instruction(add(register, 0, INTEGER, 0)), expected);
        assert_eq!(with_instruction(add(0, register, INTEGER, 0)), expected);
        let operand = u64::from(register);
        assert_eq!(with_instruction(add(0, 0, REGISTER, operand)), expected);
    }
}

#[test]
fn a_label_operand_is_below_the_number_of_blocks() {
    for (label, expected) in [(0, 0), (2, 0), (3, 8), (15, 8), (128, 8), (255, 8)] {
        assert_eq!(with_instruction(jump(label)), expected);
        assert_eq!(
            with_instruction(add(0, 0, LABEL, u64::from(label))),
            expected
        );
    }
    let largest = even_blocks(128, 1024);
    for (label, expected) in [(127, 0), (128, 8)] {
        let at = instruction_at(&largest, 1023) + instruction_field::OPERAND;
        assert_eq!(answer(&with_byte(largest.clone(), at, label)), expected);
    }
}

#[test]
fn an_operand_counts_in_all_its_8_bytes() {
    for byte in 0..8 {
        let high = 1 << (8 * byte + 7);
        assert_eq!(with_instruction(add(0, 0, REGISTER, high)), 8);
        assert_eq!(with_instruction(add(0, 0, LABEL, high)), 8);
        assert_eq!(with_instruction(add(0, 0, INTEGER, high)), 0);
        assert_eq!(with_instruction(instruction(14, 0, 0, ABSENT, high)), 8);
    }
}

#[test]
fn an_integer_operand_is_any() {
    for integer in [i64::MIN, -1, 0, 1, i64::MAX] {
        assert_eq!(with_instruction(set(0, integer)), 0);
    }
}

#[test]
fn operand_kinds_are_1_to_3() {
    for kind in 0..=255 {
        let expected = if (1..=3).contains(&kind) { 0 } else { 8 };
        assert_eq!(with_instruction(add(0, 0, kind, 0)), expected);
    }
}

// Question 9.

#[test]
fn only_the_last_in_its_block_ends_it() {
    let blocks = [plain(0), plain(3)];
    let set = set(0, 1);
    let answer = |instructions: [InstructionRecord; 6]| answer(&image(&blocks, &instructions));
    for end in [jump(1), halt(), instruction(15, 0, 0, INTEGER, 0)] {
        assert_eq!(answer([set, set, end, set, set, end]), 0);
        assert_eq!(answer([end, set, end, set, set, end]), 9);
        assert_eq!(answer([set, end, end, set, set, end]), 9);
        assert_eq!(answer([set, set, set, set, set, end]), 9);
        assert_eq!(answer([set, set, end, end, set, end]), 9);
        assert_eq!(answer([set, set, end, set, end, end]), 9);
        assert_eq!(answer([set, set, end, set, set, set]), 9);
    }
    // A taken if-jump or a fork goes on otherwise.
    let if_jump = instruction(10, 0, 0, LABEL, 0);
    assert_eq!(answer([set, set, if_jump, set, set, halt()]), 9);
    let fork = instruction(12, 0, 0, LABEL, 0);
    assert_eq!(answer([set, set, halt(), set, set, fork]), 9);
}

#[test]
fn blocks_of_one_instruction() {
    let blocks = [plain(0), plain(1), plain(2)];
    assert_eq!(answer(&image(&blocks, &[halt(), jump(0), halt()])), 0);
    assert_eq!(answer(&image(&blocks, &[halt(), set(0, 0), halt()])), 9);
}

// The first no decides.

#[test]
fn questions_1_to_5_in_order() {
    let mut image = small();
    image.push(0); // 5
    assert_eq!(answer(&image), 5);
    image[5] = 0; // 4
    assert_eq!(answer(&image), 4);
    image[4] = 1; // 3
    assert_eq!(answer(&image), 3);
    image[0] = 0; // 2
    assert_eq!(answer(&image), 2);
    assert_eq!(answer(&image[..7]), 1);
}

#[test]
fn length_before_the_records() {
    let mut image = image(&[plain(1)], &[instruction(0, 0, 0, 0, 0)]);
    assert_eq!(answer(&image), 6);
    image.pop();
    assert_eq!(answer(&image), 5);
}

#[test]
fn start_before_annotation_within_a_block() {
    let mut both = promotion_ready(0, 9);
    assert_eq!(with_blocks(&[both, plain(2), plain(4)]), 7);
    both[block_field::FIRST] = 1;
    assert_eq!(with_blocks(&[both, plain(2), plain(4)]), 6);
}

#[test]
fn a_block_before_the_next_block() {
    let bad_label = promotion_ready(0, 9);
    assert_eq!(with_blocks(&[bad_label, plain(0), plain(4)]), 7);
    assert_eq!(with_blocks(&[bad_label, plain(2), plain(9)]), 7);
    let second = promotion_ready(2, 9);
    assert_eq!(with_blocks(&[plain(0), second, plain(2)]), 7);
    assert_eq!(with_blocks(&[plain(0), plain(0), promotion_ready(4, 9)]), 6);
}

#[test]
fn all_blocks_before_all_instructions() {
    let mut instructions = small_instructions();
    instructions[0] = instruction(0, 0, 0, 0, 0);
    let answer = |blocks: &[BlockRecord]| answer(&image(blocks, &instructions));
    assert_eq!(answer(&small_blocks()), 8);
    assert_eq!(answer(&[plain(0), plain(2), promotion_ready(4, 9)]), 7);
    assert_eq!(answer(&[plain(0), plain(2), plain(6)]), 6);
}

#[test]
fn fields_before_place_within_an_instruction() {
    let mut instructions = small_instructions();
    instructions[0] = halt();
    assert_eq!(answer(&image(&small_blocks(), &instructions)), 9);
    instructions[0][instruction_field::R] = 1;
    assert_eq!(answer(&image(&small_blocks(), &instructions)), 8);
}

#[test]
fn an_instruction_before_the_next_instruction() {
    let mut instructions = small_instructions();
    instructions[2] = halt(); // 9
    instructions[3] = instruction(0, 0, 0, 0, 0); // 8
    assert_eq!(answer(&image(&small_blocks(), &instructions)), 9);
    instructions[1] = instruction(0, 0, 0, 0, 0); // 8
    assert_eq!(answer(&image(&small_blocks(), &instructions)), 8);
}

#[test]
fn the_last_record_of_the_largest_image_is_asked() {
    let largest = even_blocks(128, 1024);
    assert_eq!(largest.len(), 13_576);
    assert_eq!(answer(&largest), 0);
    let block = block_at(127);
    let instruction = instruction_at(&largest, 1023);
    let first = largest[block];
    let with = |at, byte| answer(&with_byte(largest.clone(), at, byte));
    assert_eq!(with(block + block_field::FIRST, first - 8), 6);
    assert_eq!(with(block + block_field::POLICY, 2), 7);
    assert_eq!(with(block + block_field::PAIRS + 3, 0), 7);
    assert_eq!(with(instruction + instruction_field::R, 1), 8);
    assert_eq!(with(instruction + 11, 1), 8);
    assert_eq!(with(instruction + instruction_field::OPCODE, 1), 9);
}

// Question 15.

#[test]
fn an_out_of_another_length_is_refused_by_15() {
    let f = program_f();
    for out_len in [0, 1, 8, 155, 157, 312, 156 + 256, 156 + 65_536] {
        assert_eq!(answer_into(&f, out_len), 15, "out of {} bytes", out_len);
    }
}

#[test]
fn question_15_is_put_last() {
    assert_eq!(answer_into(&[], 1), 1);
    assert_eq!(answer_into(&[0; 8], 0), 2);
    let mut refused = program_f();
    refused[155] = 1;
    assert_eq!(answer_into(&refused, 156), 8);
    assert_eq!(answer_into(&refused, 0), 8);
    assert_eq!(answer_into(&refused, 157), 8);
}
