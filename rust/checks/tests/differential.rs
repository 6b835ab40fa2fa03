//! Engine and model on seeded images.

use checks::compare::compare;
use checks::layout::{even_blocks, every_form, program_f};
use checks::run::run;
use checks::shares::expect_all_met;

const SEED: u64 = 0x7470_616c;
const CASES: u64 = 300_000;

#[test]
fn seeded_images() {
    expect_all_met(run(SEED, 0..CASES), CASES);
}

fn every_byte_changed_to_every_other(image: &[u8]) {
    let mut changed = image.to_vec();
    let mut refusals = [0; 16];
    for at in 0..image.len() {
        for byte in 0..=255 {
            changed[at] = byte;
            match compare(&changed, image.len(), (at * 256) as u64) {
                Ok(answers) => refusals[usize::from(answers.rewrite.err().unwrap_or(0))] += 1,
                Err(what) => panic!("byte {} set to {}: {}", at, byte, what),
            }
        }
        changed[at] = image[at];
    }
    println!("answers by number: {:?}", refusals);
    for number in [0, 2, 3, 4, 5, 6, 7, 8, 9] {
        assert!(refusals[number] > 0, "nothing answered {}", number);
    }
}

#[test]
fn every_byte_of_program_f() {
    every_byte_changed_to_every_other(&program_f());
}

#[test]
fn every_byte_of_a_program_with_every_form() {
    every_byte_changed_to_every_other(&every_form(1));
    every_byte_changed_to_every_other(&every_form(2));
}

#[test]
fn every_shorter_and_some_longer_lengths() {
    for image in [
        program_f(),
        every_form(1),
        every_form(2),
        even_blocks(128, 1024),
    ] {
        let mut longer = image.clone();
        longer.extend([0; 300]);
        for len in 0..longer.len() {
            let lent = &longer[..len];
            let answers = compare(lent, len, len as u64).unwrap_or_else(|what| {
                panic!("{} of {} bytes: {}", len, image.len(), what);
            });
            let expected = match len {
                0..=7 => Err(1),
                _ if len == image.len() => Ok(()),
                _ => Err(5),
            };
            assert_eq!(answers.rewrite, expected);
        }
    }
}

#[test]
fn every_out_length_up_to_twice_the_image() {
    for image in [program_f(), every_form(1), every_form(2)] {
        let mut refused = image.clone();
        let last = refused.len() - 12;
        refused[last] = 1;
        for out_len in 0..=2 * image.len() {
            let answers = compare(&image, out_len, out_len as u64).unwrap();
            let expected = if out_len == image.len() {
                Ok(())
            } else {
                Err(15)
            };
            assert_eq!(answers.rewrite, expected);
            let answers = compare(&refused, out_len, out_len as u64).unwrap();
            assert!(matches!(answers.rewrite, Err(8 | 9)));
        }
    }
}
