//! Images and jobs to text and back, on seeded ones; every image that is made is held to the proved
//! reader.

use checks::generate::{case, valid_image};
use checks::layout::{even_blocks_of, every_form, program_f};
use checks::{hand, jobs};
use model::VERSIONS;
use tpasm::{assemble, job, list, list_file, Refusal};

const SEED: u64 = 0x7470_6173;
const CASES: u64 = 20_000;

/// The image of a source, which the proved reader accepts.
fn assembled(source: &str) -> Vec<u8> {
    let image = match assemble(source.as_bytes()) {
        Ok(assembly) => assembly.image,
        Err(errors) => panic!("{}", errors[0]),
    };
    assert_eq!(engine::image_check(&image), Ok(()));
    image
}

fn comes_back(image: &[u8]) {
    let text = list(image).expect("the image is accepted");
    assert_eq!(assembled(&text), image);
    assert_eq!(assembled(&renamed(&text)), image);
}

/// The same for the listing of a file.
fn comes_back_from_a_file(image: &[u8]) {
    for offsets in [false, true] {
        let text = list_file(image, offsets).expect("the image is accepted");
        assert!(text.starts_with("// image of "));
        assert_eq!(assembled(&text), image);
    }
}

/// The source with other names: `label-N` for bN, `reg-N` for rN; and with the pairs turned round.
fn renamed(text: &str) -> String {
    let names: Vec<String> = (0..16).map(|n| format!("reg-{} = r{}", n, n)).collect();
    let mut source = format!("reg {}\n", names.join(", "));
    for line in text.lines() {
        let words: Vec<String> = pairs_reversed(line).split(' ').map(renamed_word).collect();
        source += &words.join(" ");
        source += "\n";
    }
    source
}

fn renamed_word(word: &str) -> String {
    let prefix = match word.as_bytes().first() {
        Some(b'b') => "label-",
        Some(b'r') => "reg-",
        _ => return word.to_string(),
    };
    format!("{}{}", prefix, &word[1..])
}

fn pairs_reversed(line: &str) -> String {
    match line.split("; ").collect::<Vec<_>>()[..] {
        [start, pairs, end] => {
            let pairs: Vec<&str> = pairs.rsplit(", ").collect();
            format!("{}; {}; {}", start, pairs.join(", "), end)
        }
        _ => line.to_string(),
    }
}

#[test]
fn images_tried_by_hand() {
    comes_back(&program_f());
    comes_back_from_a_file(&program_f());
    for version in VERSIONS {
        comes_back(&every_form(version));
        comes_back_from_a_file(&every_form(version));
        for (blocks, instructions) in [(1, 1), (1, 1024), (128, 128), (128, 1024)] {
            comes_back(&even_blocks_of(version, blocks, instructions));
            comes_back(&valid_image(SEED, version, blocks, instructions));
        }
    }
}

#[test]
fn seeded_images() {
    let mut accepted = 0;
    let mut refused = [0; 10];
    for number in 0..CASES {
        let image = case(SEED, number).image;
        match engine::image_check(&image) {
            Ok(()) => {
                comes_back(&image);
                if accepted % 8 == 0 {
                    comes_back_from_a_file(&image);
                }
                accepted += 1;
            }
            Err(refusal) => {
                assert_eq!(list(&image), Err(Refusal(refusal)));
                assert!(list_file(&image, true).is_err());
                refused[usize::from(refusal)] += 1;
            }
        }
    }
    println!("{} accepted; refused by number: {:?}", accepted, refused);
    assert!(accepted > 5_000);
    assert!(refused[1..].iter().all(|&count| count > 0));
}

#[test]
fn seeded_jobs() {
    for number in 0..CASES / 10 {
        let bytes = jobs::job(SEED, number).input.bytes();
        for offsets in [false, true] {
            let text = list_file(&bytes, offsets).expect("the job is accepted");
            assert!(text.starts_with("// job of "));
            let assembly = assemble(text.as_bytes()).unwrap();
            assert_eq!(job(&assembly.image, &assembly.settings), bytes);
        }
    }
}

#[test]
fn refused_jobs() {
    for (number, bytes) in hand::refused() {
        assert_eq!(list_file(&bytes, false), Err(Refusal(number)));
    }
}
