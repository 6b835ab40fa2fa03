//! Calls made wrong: a state's number or a program's cell changed, a buffer of another length, other
//! numbers.

mod program;
mod state;

pub use program::{damage_program, CELL_FIELDS};
pub use state::{damage_state, is_fault_number, JOB_FIELDS, SITTERS, SLOT_FIELDS};

use super::call::{Buffer, Call, Door};
use crate::random::Random;
use model::MAX_WORDS;
use program::used_lengths;

/// How a number is changed.
pub const MANNERS: [&str; 5] = [
    "by one",
    "in one bit",
    "in high bits alone",
    "to any number",
    "to a likely one",
];
const HIGH_BITS: usize = 2;
const LIKELY: usize = 4;

/// What was changed, in words: the field, and the manner.
#[derive(Clone, Copy, Debug, PartialEq, Eq)]
pub enum Damage {
    JobNumber {
        field: usize,
        manner: usize,
    },
    SlotNumber {
        field: usize,
        sitter: usize,
        manner: usize,
        /// Of an entry's numbers, whether it is below the stack's height.
        below_height: Option<bool>,
        /// The number that was put there.
        number: u64,
    },
    /// A version that there is not, and a count that there may not be.
    VersionAndCount,
    Cell {
        field: usize,
        manner: usize,
    },
    Length {
        buffer: Buffer,
    },
    Numbers,
}

fn set(bytes: &mut [u8], index: usize, number: u64) {
    model::numbers::write([number], &mut bytes[8 * index..]);
}

/// Another number than `old`, and the manner.
fn other(random: &mut Random, old: u64, likely: &[u64]) -> (u64, usize) {
    let manner = random.below(MANNERS.len());
    let new = match manner {
        0 => random.pick(&[old.wrapping_add(1), old.wrapping_sub(1)]),
        1 => old ^ 1 << random.below(64),
        // What is lost where a number is cut to 8, 16 or 32 bits.
        HIGH_BITS => old ^ (random.bits() | 1) << random.pick(&[8, 16, 32, 32, 63]),
        3 => random.bits(),
        _ => random.pick(likely),
    };
    if new == old {
        (!old, 3)
    } else {
        (new, manner)
    }
}

/// Numbers in place of the one at this index of a state: beside it, and each that is the same when
/// it is cut to fewer bits.
pub fn others(old: u64) -> [u64; 8] {
    [
        old.wrapping_add(1),
        old.wrapping_sub(1),
        old ^ 1 << 8,
        old ^ 1 << 16,
        old ^ 1 << 32,
        old ^ 1 << 63,
        !old,
        9,
    ]
}

/// Gives one buffer of a call another length: what it has is cut off, or goes on with any bytes.
pub fn damage_length(random: &mut Random, call: &mut Call) -> Damage {
    let buffer = random.pick(call.door.buffers());
    let used = {
        let program = call.buffer(Buffer::Program).unwrap_or_default();
        used_lengths(program)
    };
    let bytes = call.buffer_mut(buffer).expect("it is the door's");
    let old = bytes.len();
    let near = random.pick(&[1, 7, 8, 9, 16]);
    let part = random.between(1, 7);
    let new = match (buffer, random.below(8)) {
        (_, 0) => random.pick(&[0, 1, 7, 8, 15, 16]),
        (_, 1) => random.below(old + 1),
        (_, 2 | 3) => old.saturating_sub(near),
        (_, 4) => old + near,
        (Buffer::Program, 5 | 6) => random.pick(&used).saturating_sub(random.pick(&[0, 1, 8])),
        (Buffer::Registers, 5 | 6) => random.pick(&[120, 127, 129, 135, 136, 256]),
        (Buffer::Words, 5) => 8 * MAX_WORDS + part,
        (Buffer::Words, 6) => 8 * (MAX_WORDS + random.pick(&[0, 1, 2])) + random.pick(&[0, part]),
        (Buffer::Words, _) => old / 8 * 8 + part,
        _ => 2 * old,
    };
    let fill = random.byte();
    bytes.resize(new, fill);
    Damage::Length { buffer }
}

/// Other numbers than start, pick or run would take.
fn damage_numbers(random: &mut Random, call: &mut Call) -> Damage {
    // What would be right if it were cut to size.
    let high = (random.bits() | 1) << random.pick(&[8, 16, 32, 63]);
    let short = random.below(8) as u64;
    let [first, second] = &mut call.numbers;
    match call.door {
        Door::Start if random.one_in(2) => {
            *second = random.pick(&[1, 7, short, 65_536, *second ^ high, high]);
        }
        Door::Start => *first = random.pick(&[0, 3, 63, 65, 128, *first ^ high, u64::MAX]),
        Door::Pick => *first = random.pick(&[64, *first ^ high, *first + 1, u64::MAX]),
        _ => {}
    }
    Damage::Numbers
}

/// Makes one thing of a call wrong, or more.
pub fn damage(random: &mut Random, call: &mut Call) -> Vec<Damage> {
    let mut damages = Vec::new();
    for _ in 0..random.pick(&[1, 1, 1, 1, 2, 3]) {
        let whole = |buffer, length| call.buffer(buffer).map_or(false, |b| b.len() == length);
        let has_state = call.door != Door::Start && whole(Buffer::State, model::state::BYTES);
        let has_program = call.door != Door::Read && whole(Buffer::Program, model::cells::BYTES);
        damages.push(match random.below(8) {
            0..=3 if has_state => {
                let state = call.buffer_mut(Buffer::State).expect("it is there");
                damage_state(random, state)
            }
            0..=5 if has_program => {
                let program = call.buffer_mut(Buffer::Program).expect("it is there");
                damage_program(random, program)
            }
            6 if matches!(call.door, Door::Start | Door::Pick) => damage_numbers(random, call),
            _ => damage_length(random, call),
        });
    }
    damages
}
