//! The image's version: that of a `version` line or, without one, the first that has all that the text
//! uses.

use crate::cursor::Parser;
use crate::message::Message;
use crate::token::Token;
use model::{last_opcode, most_pairs, Program, VERSIONS, VERSION_1, VERSION_2};

/// What the reader accepts, in words.
pub const IN_WORDS: &str = "1 or 2";

/// A `version` line: what it says, and where.
#[derive(Clone, Copy)]
pub struct Stated {
    version: u16,
    line: usize,
}

/// Question 3.
pub fn allowed(number: i64) -> Option<u16> {
    let version = u16::try_from(number).ok()?;
    VERSIONS.contains(&version).then_some(version)
}

impl Stated {
    pub fn new(version: u16, word: Token) -> Self {
        let line = word.position.line;
        Stated { version, line }
    }

    /// What is to be done where the text uses more than the version has.
    fn hint(self, what: &str) -> String {
        format!(
            "{} of version {}: write 'version {}' in line {}, or leave that line out",
            what, VERSION_2, VERSION_2, self.line
        )
    }
}

impl<'a> Parser<'a> {
    /// The version that a line has fixed below 2.
    fn stated_first(&self) -> Option<Stated> {
        self.version.filter(|stated| stated.version == VERSION_1)
    }

    /// An instruction's word, which has been taken, is one of the stated version.
    pub fn check_version(&mut self, word: Token<'a>, opcode: u8) {
        let stated = self.stated_first();
        if let Some(stated) = stated.filter(|_| opcode > last_opcode(VERSION_1)) {
            let expected = format!(
                "an instruction of version {}, as line {} says",
                VERSION_1, stated.line
            );
            let hint = stated.hint("'push' and 'pop' are instructions");
            self.report(Message::expected(word, expected, word).with_hint(hint));
        }
    }

    /// A pair that begins with `first` is one more than there is room for.
    pub fn too_many_pairs(&self, first: Token<'a>) -> Message {
        match self.stated_first() {
            None => {
                let expected = format!("at most {} pairs", most_pairs(VERSION_2));
                Message::expected(first, expected, "one more")
            }
            Some(stated) => {
                let (most, line) = (most_pairs(VERSION_1), stated.line);
                let expected = format!(
                    "at most {} pairs in version {}, as line {} says",
                    most, VERSION_1, line
                );
                let hint = stated.hint(&format!("up to {} are", most_pairs(VERSION_2)));
                Message::expected(first, expected, "one more").with_hint(hint)
            }
        }
    }

    pub fn most_pairs(&self) -> usize {
        most_pairs(self.stated_first().map_or(VERSION_2, |_| VERSION_1))
    }

    /// The version of a program without an error.
    pub fn version_of(&self, program: &Program) -> u16 {
        let mut blocks = program.blocks.iter();
        let mut instructions = program.instructions.iter();
        let needs_second = blocks.any(|b| usize::from(b.pair_count) > most_pairs(VERSION_1))
            || instructions.any(|i| i.opcode > last_opcode(VERSION_1));
        let least = if needs_second { VERSION_2 } else { VERSION_1 };
        self.version.map_or(least, |stated| stated.version)
    }
}
