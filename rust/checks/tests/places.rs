//! Every record is read and written at its place (document 02, request 3): engine and model on
//! images in which one record after the other tells whether the engine's offset is right there.

use checks::compare::{compare, Answers};
use checks::generate::valid_image;
use checks::layout::{block_len, even_blocks_of};
use model::question::{FIELDS, LAST_IN_BLOCK};
use model::{last_opcode, HEADER_BYTES, INSTRUCTION_BYTES, MAX_BLOCKS, MAX_INSTRUCTIONS, VERSIONS};

const SEED: u64 = 3;

/// With their versions.
fn largest_images() -> impl Iterator<Item = (u16, Vec<u8>)> {
    let images = |version| {
        [
            valid_image(SEED, version, MAX_BLOCKS, MAX_INSTRUCTIONS),
            even_blocks_of(version, MAX_BLOCKS, MAX_INSTRUCTIONS),
        ]
        .map(|image| (version, image))
    };
    VERSIONS.flat_map(images)
}

fn compared(image: &[u8], what: &str) -> Answers {
    compare(image, image.len(), image.len() as u64)
        .unwrap_or_else(|difference| panic!("{}: {}", what, difference))
}

/// Where the records of an image with these counts begin, and where the last one ends.
fn places(version: u16, block_count: usize, instruction_count: usize) -> Vec<usize> {
    let mut places = vec![HEADER_BYTES];
    let widths = [
        (block_len(version), block_count),
        (INSTRUCTION_BYTES, instruction_count),
    ];
    for (width, count) in widths {
        for _ in 0..count {
            places.push(places.last().unwrap() + width);
        }
    }
    places
}

#[test]
fn every_byte_of_the_largest_images() {
    for (_, image) in largest_images() {
        let mut changed = image.clone();
        for at in 0..image.len() {
            for byte in [image[at].wrapping_add(1), !image[at], 255] {
                changed[at] = byte;
                compared(&changed, &format!("byte {} set to {}", at, byte));
            }
            changed[at] = image[at];
        }
    }
}

/// An opcode that there is not, in one instruction after the other: the answer is 8, so the record
/// was found. A halt in place of what goes on, or the other way, is 9.
#[test]
fn one_instruction_after_the_other_refused() {
    VERSIONS.for_each(one_instruction_of_a_version_refused);
}

fn one_instruction_of_a_version_refused(version: u16) {
    let image = even_blocks_of(version, MAX_BLOCKS, MAX_INSTRUCTIONS);
    let places = places(version, MAX_BLOCKS, MAX_INSTRUCTIONS);
    assert_eq!(places.last(), Some(&image.len()));
    let first = HEADER_BYTES + block_len(version) * MAX_BLOCKS;
    for &at in places.iter().filter(|&&at| first <= at && at < image.len()) {
        let mut changed = image.clone();
        changed[at] = last_opcode(version) + 1;
        let unknown = compared(&changed, &format!("no opcode at {}", at));
        assert_eq!(unknown.rewrite, Err(FIELDS));

        let halt = [14, 0, 0, 0, 0, 0, 0, 0, 0, 0, 0, 0];
        let set = [1, 0, 0, 3, 0, 0, 0, 0, 0, 0, 0, 0];
        let other = if image[at] < 13 { halt } else { set };
        changed[at..at + INSTRUCTION_BYTES].copy_from_slice(&other);
        let misplaced = compared(&changed, &format!("an end misplaced at {}", at));
        assert_eq!(misplaced.rewrite, Err(LAST_IN_BLOCK));
    }
}

/// A byte taken out, or put in, where a record begins; the length stays right.
#[test]
fn records_that_slip_by_a_byte() {
    for (version, image) in largest_images() {
        for at in places(version, MAX_BLOCKS, MAX_INSTRUCTIONS) {
            for byte in [0, 1] {
                let mut early = image.clone();
                early.push(byte);
                early.remove(at);
                compared(&early, &format!("a byte less at {}", at));

                let mut late = image.clone();
                late.insert(at, byte);
                late.pop();
                compared(&late, &format!("a byte more at {}", at));
            }
        }
    }
}

#[test]
fn every_number_of_blocks_and_of_instructions() {
    let blocks = (1..=MAX_BLOCKS).flat_map(|b| [(b, b), (b, MAX_INSTRUCTIONS)]);
    let instructions = (1..=MAX_INSTRUCTIONS).flat_map(|i| [(1, i), (i.min(MAX_BLOCKS), i)]);
    for (block_count, instruction_count) in blocks.chain(instructions) {
        for version in VERSIONS {
            let what = format!("{} blocks, {} instructions", block_count, instruction_count);
            let image = valid_image(SEED, version, block_count, instruction_count);
            let places = places(version, block_count, instruction_count);
            assert_eq!(Some(&image.len()), places.last(), "{}", what);
            assert_eq!(compared(&image, &what).rewrite, Ok(()), "{}", what);
        }
    }
}
