//! What is wrong with a token: what it is, and what may have been meant.

use crate::cursor::Parser;
use crate::habits;
use crate::message::Message;
use crate::names::{looks_numbered, numbered};
use crate::notation::{self, ANNOTATIONS, POLICIES, WORDS};
use crate::settings::SETTING_WORDS;
use crate::suggest::nearest;
use crate::text::{cut, quoted};
use crate::token::{Kind, Token};

const SETTING: &str = "a setting (reg, version, places, interval, set or words) or a label and ':'";

/// The names that would fit at a place.
#[derive(Clone, Copy)]
pub struct Fitting {
    registers: bool,
    labels: bool,
    words: &'static [&'static str],
}

const fn fitting(registers: bool, labels: bool, words: &'static [&'static str]) -> Fitting {
    Fitting {
        registers,
        labels,
        words,
    }
}

impl Fitting {
    pub const NOTHING: Fitting = fitting(false, false, &[]);
    pub const REGISTERS: Fitting = fitting(true, false, &[]);
    pub const LABELS: Fitting = fitting(false, true, &[]);
    pub const OPERANDS: Fitting = fitting(true, true, &[]);
    pub const MOVED: Fitting = fitting(true, true, &["word", "jralloc"]);
    pub const INSTRUCTIONS: Fitting = fitting(false, false, &WORDS);
    pub const SETTINGS: Fitting = fitting(false, false, &SETTING_WORDS);
    pub const ANNOTATIONS: Fitting = fitting(false, false, &ANNOTATIONS);
    pub const POLICIES: Fitting = fitting(false, false, &POLICIES);
}

impl<'a> Parser<'a> {
    /// The next token is not what was expected.
    pub fn unexpected(&self, expected: impl Into<String>) -> Message {
        self.unexpected_among(expected, Fitting::NOTHING)
    }

    /// The same, where some words would fit.
    pub fn unexpected_among(&self, expected: impl Into<String>, fitting: Fitting) -> Message {
        let token = self.peek();
        let message = Message::expected(token, expected.into(), token);
        message.with_hint(self.hint(token, fitting))
    }

    /// A name that is not what was expected: the error says what it is.
    pub fn misused(
        &self,
        name: Token<'a>,
        expected: impl Into<String>,
        fitting: Fitting,
    ) -> Message {
        let message = Message::expected(name, expected.into(), self.described(name.text));
        message.with_hint(self.hint(name, fitting))
    }

    /// As `unexpected` or, for a name, `misused`.
    pub fn wrong(&self, expected: impl Into<String>, fitting: Fitting) -> Message {
        match self.peek().kind {
            Kind::Name => self.misused(self.peek(), expected, fitting),
            _ => self.unexpected_among(expected, fitting),
        }
    }

    /// What stands where an instruction or a label should, and where it would belong.
    pub fn misplaced(&self, expected: impl Into<String>) -> Message {
        let token = self.peek();
        let belongs = if SETTING_WORDS.contains(&token.text) {
            "settings stand before the first block"
        } else if token.is("[") {
            "an annotation stands on the line of its label"
        } else {
            let message = self.wrong(expected, Fitting::NOTHING);
            let hint = message.hint.clone();
            return message.with_hint(hint.or_else(|| self.statement_hint()));
        };
        Message::expected(token, expected.into(), format!("{}; {}", token, belongs))
    }

    /// A name that begins a statement in a block, and no instruction.
    pub fn no_instruction(&self) -> Message {
        let token = self.peek();
        let hint = self.hint(token, Fitting::INSTRUCTIONS);
        let text = format!("no such instruction: {}", token);
        Message::error(token, text).with_hint(hint.or_else(|| self.statement_hint()))
    }

    /// A name or mark that begins no setting and no block.
    pub fn no_setting(&self) -> Message {
        let message = self.unexpected_among(SETTING, Fitting::SETTINGS);
        if self.at_instruction() {
            return message
                .with_hint("an instruction stands in a block: begin one with 'main:'".to_string());
        }
        let hint = message.hint.clone();
        message.with_hint(hint.or_else(|| self.statement_hint()))
    }

    /// What a name is.
    fn described(&self, name: &str) -> String {
        let shown = quoted(name);
        if notation::of_text(name).is_some() {
            return format!("the instruction {}", shown);
        }
        if self.find_register(name).is_some() {
            return format!("the register {}", shown);
        }
        if looks_numbered(name) {
            return format!("{} (the registers are r0 to r15)", shown);
        }
        if self.labels.find(name).is_some() {
            return format!("the label {}", shown);
        }
        match self.difference(name) {
            Some((left, right)) => format!(
                "{} (for a difference write spaces: {} - {})",
                shown,
                cut(left),
                cut(right)
            ),
            None => format!("{}, which names no register and no block", shown),
        }
    }

    /// The two sides, where the left one is a register.
    fn difference<'n>(&self, name: &'n str) -> Option<(&'n str, &'n str)> {
        let sides = name.split_once('-');
        sides.filter(|(left, _)| self.find_register(left).is_some())
    }

    /// What may have been meant by a token.
    pub fn hint(&self, token: Token<'a>, fitting: Fitting) -> Option<String> {
        match token.kind {
            Kind::Unknown => habits::of_mark(token.text),
            Kind::Name if !self.is_known(token.text) => self.name_hint(token.text, fitting),
            _ => None,
        }
    }

    fn is_known(&self, name: &str) -> bool {
        self.is_taken(name) || self.labels.find(name).is_some() || self.difference(name).is_some()
    }

    fn name_hint(&self, name: &str, fitting: Fitting) -> Option<String> {
        let lower = name.to_ascii_lowercase();
        let register = numbered(&lower).filter(|_| fitting.registers);
        let mut names = self.fitting_names(fitting);
        let same = names.find(|known| known.eq_ignore_ascii_case(name));
        if let Some(right) = same.or_else(|| register.map(|_| lower.as_str())) {
            return Some(format!("letter case counts: write {}", quoted(right)));
        }
        if fitting.words == WORDS {
            if let Some(hint) = habits::of_instruction(name) {
                return Some(hint.to_string());
            }
        }
        let near = nearest(name, self.fitting_names(fitting));
        near.map(|near| format!("did you mean {}?", quoted(near)))
    }

    /// Names of registers before labels, each in the order of the source or of their numbers.
    fn fitting_names(&self, fitting: Fitting) -> impl Iterator<Item = &str> {
        let registers = self.registers.named().map(|(_, name)| name);
        let labels = self.labels.all().iter().map(|label| label.text);
        let registers = registers.filter(move |_| fitting.registers);
        let labels = labels.filter(move |_| fitting.labels);
        registers.chain(labels).chain(fitting.words.iter().copied())
    }

    /// The next token begins no setting, instruction or label: it may be a comment as in other
    /// assemblers, or a label without its `:`.
    fn statement_hint(&self) -> Option<String> {
        let token = self.peek();
        let line = token.position.line;
        let before = self.last().filter(|last| last.position.line == line);
        if self.is_taken(token.text) {
            return None;
        }
        if before.map_or(false, |last| last.is(";")) {
            return Some("';' ends an instruction; a comment begins with '//'".to_string());
        }
        let is_alone = self.peek_second().ends_statement() && before.is_none();
        let is_new = token.kind == Kind::Name && self.labels.find(token.text).is_none();
        let label = quoted(&format!("{}:", token.text));
        (is_alone && is_new).then(|| format!("a block begins with its label and ':', {}", label))
    }
}
