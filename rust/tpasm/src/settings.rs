//! The lines before the first block: names of registers, the image's version, and the job's settings.

use crate::cursor::Parser;
use crate::describe::Fitting;
use crate::message::Message;
use crate::names::numbered;
use crate::text::quoted;
use crate::token::{Kind, Token};
use crate::version::{self, Stated};
use model::{MAX_PLACES, MAX_WORDS, REGISTERS};

/// What start accepts, in words.
pub const PLACES: &str = "1, 2, 4, 8, 16, 32 or 64";
pub const INTERVALS: &str = "0 or 8 to 65535";

/// The words that begin a setting. They mean nothing in a block, so a label may be called so.
pub const SETTING_WORDS: [&str; 6] = ["reg", "version", "places", "interval", "set", "words"];

/// A job's settings as far as they were given.
#[derive(Clone, Debug, Default, PartialEq, Eq)]
pub struct Settings {
    pub places: Option<u8>,
    pub interval: Option<u16>,
    pub registers: [Option<i64>; REGISTERS],
    pub words: Vec<i64>,
}

impl Settings {
    /// Question 11.
    pub fn allowed_places(number: i64) -> Option<u8> {
        let allowed = u8::try_from(number).ok()?;
        let in_range = u64::from(allowed) <= MAX_PLACES;
        (in_range && allowed.is_power_of_two()).then_some(allowed)
    }

    /// Question 12.
    pub fn allowed_interval(number: i64) -> Option<u16> {
        let allowed = u16::try_from(number).ok()?;
        (!(1..8).contains(&allowed)).then_some(allowed)
    }
}

impl<'a> Parser<'a> {
    /// The lines up to the first label; and whether instructions stood among them.
    pub fn settings(&mut self) -> (Settings, bool) {
        let mut settings = Settings::default();
        let mut has_strays = false;
        loop {
            self.skip_separators();
            if self.at_label() || self.peek().kind == Kind::FileEnd || self.is_full() {
                return (settings, has_strays);
            }
            let is_stray = self.at_instruction();
            has_strays |= is_stray;
            self.setting_or_error(&mut settings);
            if is_stray {
                self.skip_instructions();
            }
        }
    }

    /// A setting or, after an error, what stands there up to its end.
    fn setting_or_error(&mut self, settings: &mut Settings) {
        let first = self.peek();
        let ends = |token: &&Token| !token.ends_statement();
        let statement: Vec<Token> = self.rest().iter().take_while(ends).copied().collect();
        if let Err(error) = self.setting(settings) {
            self.report(error);
            self.doubt_names(first.text, &statement);
            self.skip_statement();
        }
    }

    fn setting(&mut self, settings: &mut Settings) -> Result<(), Message> {
        let word = self.peek();
        if !SETTING_WORDS.contains(&word.text) {
            return Err(self.no_setting());
        }
        self.next();
        match word.text {
            "reg" => self.reg_line(),
            "version" => self.version_line(word),
            "places" => {
                let allowed = Settings::allowed_places;
                self.number_line(word, PLACES, allowed, &mut settings.places)
            }
            "interval" => {
                let allowed = Settings::allowed_interval;
                self.number_line(word, INTERVALS, allowed, &mut settings.interval)
            }
            "set" => self.set_line(&mut settings.registers),
            _ => self.words_line(&mut settings.words),
        }
    }

    /// `version N`, once.
    fn version_line(&mut self, word: Token<'a>) -> Result<(), Message> {
        let stated = |number| version::allowed(number).map(|version| Stated::new(version, word));
        let mut setting = self.version;
        let line = self.number_line(word, version::IN_WORDS, stated, &mut setting);
        self.version = setting;
        line
    }

    /// `reg NAME = rN, ..`
    fn reg_line(&mut self) -> Result<(), Message> {
        loop {
            let name = self.new_name()?;
            self.expect("=", "'='")?;
            let number = self.unnamed_register()?;
            self.registers.declare(name, number);
            if !self.accept(",") {
                return self.expect_end("',', ");
            }
        }
    }

    /// A name that means nothing yet.
    fn new_name(&mut self) -> Result<&'a str, Message> {
        let token = self.peek();
        if token.kind != Kind::Name || self.is_taken(token.text) {
            return Err(self.wrong("a new name for a register", Fitting::NOTHING));
        }
        Ok(self.next().text)
    }

    fn unnamed_register(&mut self) -> Result<u8, Message> {
        let token = self.peek();
        let wrong = || self.wrong("r0 to r15", Fitting::REGISTERS);
        let number = numbered(token.text).ok_or_else(wrong)?;
        if let Some(name) = self.registers.name(number) {
            let found = format!("{}, which {} names", token, quoted(name));
            let expected = "a register without a name";
            return Err(Message::expected(token, expected, found));
        }
        self.next();
        Ok(number)
    }

    /// `places N`, `interval N` or `version N`, once.
    fn number_line<T>(
        &mut self,
        word: Token,
        expected: &str,
        allowed: impl Fn(i64) -> Option<T>,
        setting: &mut Option<T>,
    ) -> Result<(), Message> {
        let first = self.peek();
        let number = self.integer(expected)?;
        let wrong = || Message::expected(self.since(first), expected, format!("'{}'", number));
        let value = allowed(number).ok_or_else(wrong)?;
        if setting.replace(value).is_some() {
            let expected = format!("one '{}' line", word.text);
            self.report(Message::expected(word, expected, "a second"));
        }
        self.expect_end("")
    }

    /// `set REGISTER = INTEGER, ..`
    fn set_line(&mut self, registers: &mut [Option<i64>]) -> Result<(), Message> {
        loop {
            let token = self.peek();
            let register = self.register("a register")?;
            self.expect("=", "'='")?;
            let integer = self.integer("an integer")?;
            // A register whose declaration has an error is none of these.
            let set = registers.get_mut(usize::from(register));
            if set.and_then(|set| set.replace(integer)).is_some() {
                let found = format!("r{} again, as {}", register, token);
                self.report(Message::expected(token, "each register set once", found));
            }
            if !self.accept(",") {
                return self.expect_end("',', ");
            }
        }
    }

    /// `words INTEGER ..`; several such lines make one call record.
    fn words_line(&mut self, words: &mut Vec<i64>) -> Result<(), Message> {
        loop {
            let token = self.peek();
            let word = self.integer("an integer")?;
            if words.len() == MAX_WORDS {
                let expected = format!("at most {} words", MAX_WORDS);
                self.report(Message::expected(token, expected, "one more"));
            }
            words.push(word);
            if !self.accept(",") && !self.at_integer() {
                return self.expect_end("an integer, ',', ");
            }
        }
    }
}
