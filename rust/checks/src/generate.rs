//! Cases: images that are valid, damaged, cut, lengthened or random, each with an `out` length.

use crate::damage::Field;
use crate::draft::Draft;
use crate::layout::HEADER;
use crate::random::Random;
use model::{VERSION_1, VERSION_2};

#[derive(Clone, Copy, Debug, PartialEq, Eq)]
pub enum Shape {
    Valid,
    OneField,
    SeveralFields,
    Replaced,
    /// Written as the other version.
    Moved,
    Resized,
    Cut,
    Lengthened,
    RandomBytes,
    RandomRecords,
}

pub const SHAPES: [Shape; 10] = [
    Shape::Valid,
    Shape::OneField,
    Shape::SeveralFields,
    Shape::Replaced,
    Shape::Moved,
    Shape::Resized,
    Shape::Cut,
    Shape::Lengthened,
    Shape::RandomBytes,
    Shape::RandomRecords,
];

pub struct Case {
    pub shape: Shape,
    pub image: Vec<u8>,
    pub out_len: usize,
    /// Of a case of shape `OneField`.
    pub damaged: Option<Field>,
}

/// The case of this number under this seed.
pub fn case(seed: u64, number: u64) -> Case {
    let random = &mut Random::new(seed, number);
    let mut damaged = None;
    let shape = shape(random);
    let image = if shape == Shape::RandomBytes {
        random_bytes(random)
    } else {
        let counts = counts(random);
        let version = random.pick(&[VERSION_1, VERSION_2]);
        let mut draft = Draft::valid(random, version, counts);
        match shape {
            Shape::OneField => damaged = Some(draft.damage(random)),
            Shape::SeveralFields => {
                for _ in 0..random.between(2, 6) {
                    draft.damage(random);
                }
            }
            Shape::Replaced => draft.replace(random),
            Shape::Moved => draft.move_to_other_version(),
            Shape::Resized => draft.resize(random),
            Shape::Cut => draft.cut(random),
            Shape::Lengthened => draft.lengthen(random),
            Shape::RandomRecords => draft.randomize_records(random),
            Shape::Valid | Shape::RandomBytes => {}
        }
        draft.image
    };
    let out_len = out_len(random, image.len());
    Case {
        shape,
        image,
        out_len,
        damaged,
    }
}

fn shape(random: &mut Random) -> Shape {
    match random.below(32) {
        0..=7 => Shape::Valid,
        8..=17 => Shape::OneField,
        18..=20 => Shape::SeveralFields,
        21..=22 => Shape::Replaced,
        23 => Shape::Moved,
        24..=25 => Shape::Resized,
        26 => Shape::Cut,
        27 => Shape::Lengthened,
        28..=29 => Shape::RandomBytes,
        _ => Shape::RandomRecords,
    }
}

/// A valid image of this version and these counts, with B not above I.
pub fn valid_image(
    seed: u64,
    version: u16,
    block_count: usize,
    instruction_count: usize,
) -> Vec<u8> {
    let counts = (block_count, instruction_count);
    Draft::valid(&mut Random::new(seed, 0), version, counts).image
}

/// Mostly the image's length.
fn out_len(random: &mut Random, image_len: usize) -> usize {
    match random.below(32) {
        0 => 0,
        1 => 1,
        2 => image_len.saturating_sub(1),
        3 => image_len + 1,
        4 => random.below(2 * image_len + 1),
        _ => image_len,
    }
}

/// B and I, small ones mostly, with the ends of both ranges and what lies between.
fn counts(random: &mut Random) -> (usize, usize) {
    match random.below(64) {
        0 | 1 => (1, 1),
        2 | 3 => (128, 1024),
        4 => (128, random.between(128, 1024)),
        5 => (random.between(1, 128), 1024),
        6 => (1, random.between(1, 1024)),
        7 => {
            let count = random.between(1, 128);
            (count, count)
        }
        _ => {
            let most = 1 << random.between(0, 7);
            let instruction_count = random.between(1, most);
            (
                random.between(1, instruction_count.min(128)),
                instruction_count,
            )
        }
    }
}

fn random_bytes(random: &mut Random) -> Vec<u8> {
    let len = match random.below(16) {
        0 => random.below(8),
        1 => 8,
        2 => random.below(14_000),
        _ => random.below(200),
    };
    let mut bytes: Vec<u8> = (0..len).map(|_| random.byte()).collect();
    // One question further each time, as far as the length goes.
    let known = random.pick(&[0, 1, 2, 3, 4, 5, 5, 5]);
    let version = random.pick(b"\x01\x02");
    for (byte, right) in bytes
        .iter_mut()
        .zip([b'T', b'P', b'B', version, 0])
        .take(known)
    {
        *byte = right;
    }
    if len > HEADER && random.one_in(2) {
        bytes[7] = 0;
    }
    bytes
}
