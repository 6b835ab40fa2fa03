//! Sources with tokens changed at random: each has errors at places inside it, in their order, or gives
//! an image that the proved reader accepts and that comes back. And random bytes, which are no program.

use checks::generate::valid_image;
use checks::random::Random;
use model::{VERSION_1, VERSION_2};
use tpasm::{assemble, list, show, Message};

const SEED: u64 = 0x6461_6d61;
const SOURCES: u64 = 50_000;

/// Tokens that a change may put anywhere.
const TOKENS: [&str; 63] = [
    "r0",
    "r15",
    "r16",
    "b0",
    "b1",
    "x",
    "-1",
    "7",
    "9223372036854775808",
    ":",
    ":=",
    "->",
    ";",
    ",",
    "[",
    "]",
    ".",
    "+",
    "-",
    "*",
    "/",
    "%",
    "<",
    "=",
    "\n",
    "//",
    "é",
    "word",
    "if-jump",
    "jralloc",
    "fork",
    "jump",
    "halt",
    "join",
    "prppt",
    "jtppt",
    "assoc",
    "assoc-comm",
    "reg",
    "words",
    "places",
    "set",
    "reg x = r16\n",
    "main:",
    "HALT",
    "mov",
    "ifjump",
    "lop",
    "version",
    "push",
    "pop",
    "0xff",
    "1_0",
    "==",
    ">=",
    "+=",
    "#",
    "#1",
    "/*",
    "*/",
    "\t",
    "\r",
    "\r\n",
];

/// The listing of a small image, cut at its blanks, with some of its tokens changed.
fn source(random: &mut Random) -> String {
    let instructions = random.between(1, 12);
    let blocks = random.between(1, instructions);
    let version = random.pick(&[VERSION_1, VERSION_2]);
    let text = list(&valid_image(random.bits(), version, blocks, instructions)).unwrap();
    let mut words: Vec<&str> = text.split_inclusive(' ').collect();
    for _ in 0..random.pick(&[0, 1, 2, 3, 40]) {
        let at = random.below(words.len());
        match random.below(4) {
            0 if words.len() > 1 => drop(words.remove(at)),
            1 => words.insert(at, random.pick(&words)),
            2 => words[at] = random.pick(&TOKENS),
            _ => words.insert(at, random.pick(&TOKENS)),
        }
    }
    words.concat()
}

/// The place has characters of one line of the source, or stands right behind a line's last one.
fn lies_in(error: &Message, source: &str) -> bool {
    let source = source.replace("\r\n", "\n").replace('\r', "\n");
    let line = source.split('\n').nth(error.span.position.line - 1);
    let first = error.span.position.column;
    let end = first + error.span.width;
    line.map_or(false, |line| {
        (1..=line.chars().count() + 1).contains(&first) && end <= line.chars().count() + 1
    })
}

/// Each error lies in the source, and none before the one ahead of it. They can be shown.
fn check(errors: &[Message], source: &str) {
    assert!(!errors.is_empty(), "{}", source);
    for error in errors {
        assert!(lies_in(error, source), "{} in {}", error, source);
    }
    let places = errors.iter().map(|error| error.span.position);
    let later = errors.iter().skip(1).map(|error| error.span.position);
    assert!(places.zip(later).all(|(place, next)| place <= next));
    let shown = show("x", source.as_bytes(), errors);
    assert!(shown.lines().count() >= 3 * errors.len().min(20));
}

#[test]
fn damaged_sources() {
    let (mut assembled, mut refused) = (0, 0);
    for number in 0..SOURCES {
        let source = source(&mut Random::new(SEED, number));
        match assemble(source.as_bytes()) {
            Ok(assembly) => {
                assert_eq!(engine::image_check(&assembly.image), Ok(()), "{}", source);
                let again = assemble(list(&assembly.image).unwrap().as_bytes());
                assert_eq!(again.unwrap().image, assembly.image, "{}", source);
                for warning in &assembly.warnings {
                    assert!(lies_in(warning, &source), "{} in {}", warning, source);
                }
                assembled += 1;
            }
            Err(errors) => {
                check(&errors, &source);
                refused += 1;
            }
        }
    }
    println!("{} assembled, {} refused", assembled, refused);
    assert!(assembled > 10_000 && refused > 10_000);
}

#[test]
fn random_bytes() {
    for number in 0..SOURCES {
        let random = &mut Random::new(!SEED, number);
        let length = random.below(60);
        let source: Vec<u8> = (0..length).map(|_| random.byte()).collect();
        let errors = assemble(&source).unwrap_err();
        assert!(!show("x", &source, &errors).is_empty());
    }
}

/// A source of such tokens alone, with a space between them or not.
#[test]
fn random_tokens() {
    for number in 0..SOURCES {
        let random = &mut Random::new(SEED + 1, number);
        let mut source = String::new();
        for _ in 0..random.below(40) {
            source += random.pick(&TOKENS);
            source += random.pick(&["", " "]);
        }
        if let Err(errors) = assemble(source.as_bytes()) {
            check(&errors, &source);
        }
    }
}
