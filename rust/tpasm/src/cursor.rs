//! The parser's place in the tokens, and the questions that all of its parts put.

use crate::describe::Fitting;
use crate::message::{Message, Span};
use crate::names::{looks_numbered, Labels, Registers};
use crate::notation;
use crate::origins::Origins;
use crate::show::MAX_MESSAGES;
use crate::text::quoted;
use crate::token::{Kind, Token};
use crate::version::Stated;
use crate::warnings::Notes;
use std::collections::HashSet;

/// Stands for the register of a name whose declaration has an error.
pub const UNCLEAR: u8 = u8::MAX;

pub struct Parser<'a> {
    tokens: Vec<Token<'a>>,
    at: usize,
    pub registers: Registers,
    /// Names whose declaration has an error. To use them is none.
    pub doubtful: HashSet<&'a str>,
    pub labels: Labels<'a>,
    /// What a `version` line says.
    pub version: Option<Stated>,
    pub notes: Notes,
    /// Of the blocks and instructions so far.
    pub origins: Origins,
    /// In order of place, since each is reported where parsing has come to.
    pub errors: Vec<Message>,
}

impl<'a> Parser<'a> {
    pub fn new(tokens: Vec<Token<'a>>) -> Self {
        Parser {
            labels: Labels::collect(&tokens),
            tokens,
            at: 0,
            registers: Registers::default(),
            doubtful: HashSet::new(),
            version: None,
            notes: Notes::default(),
            origins: Origins::default(),
            errors: Vec::new(),
        }
    }

    pub fn peek(&self) -> Token<'a> {
        self.tokens[self.at]
    }

    /// The token after the next; at the end, the file's end again.
    pub fn peek_second(&self) -> Token<'a> {
        self.tokens[(self.at + 1).min(self.tokens.len() - 1)]
    }

    /// The token before the next.
    pub fn last(&self) -> Option<Token<'a>> {
        self.at.checked_sub(1).map(|at| self.tokens[at])
    }

    /// The tokens from the next one on.
    pub fn rest(&self) -> &[Token<'a>] {
        &self.tokens[self.at..]
    }

    /// Stays at the file's end.
    pub fn next(&mut self) -> Token<'a> {
        let token = self.peek();
        self.at = (self.at + 1).min(self.tokens.len() - 1);
        token
    }

    /// Notes an error, after which parsing goes on.
    pub fn report(&mut self, error: Message) {
        self.errors.push(error);
    }

    /// There are more errors than are shown.
    pub fn is_full(&self) -> bool {
        self.errors.len() > MAX_MESSAGES
    }

    pub fn accept(&mut self, mark: &str) -> bool {
        let found = self.peek().is(mark);
        if found {
            self.next();
        }
        found
    }

    /// Takes a mark; `expected` says what else could stand there.
    pub fn expect(&mut self, mark: &str, expected: &str) -> Result<(), Message> {
        if self.accept(mark) {
            Ok(())
        } else {
            Err(self.unexpected(expected))
        }
    }

    pub fn skip_separators(&mut self) {
        while self.peek().kind != Kind::FileEnd && self.peek().ends_statement() {
            self.next();
        }
    }

    /// The end of a setting or instruction; `or` says what could have continued it.
    pub fn expect_end(&mut self, or: &str) -> Result<(), Message> {
        if !self.peek().ends_statement() {
            return Err(self.unexpected(format!("{}';' or the end of the line", or)));
        }
        self.next();
        Ok(())
    }

    pub fn at_label(&self) -> bool {
        self.peek().kind == Kind::Name && self.peek_second().is(":")
    }

    /// The register of a name.
    pub fn find_register(&self, name: &str) -> Option<u8> {
        let doubtful = || self.doubtful.contains(name).then_some(UNCLEAR);
        self.registers.number(name).or_else(doubtful)
    }

    /// A register's name, one of that look, or an instruction's word.
    pub fn is_taken(&self, name: &str) -> bool {
        self.find_register(name).is_some()
            || looks_numbered(name)
            || notation::of_text(name).is_some()
    }

    /// A declared name or `r0` to `r15`.
    pub fn register(&mut self, expected: &str) -> Result<u8, Message> {
        let token = self.peek();
        let number = match token.kind {
            Kind::Name => self.find_register(token.text),
            _ => None,
        };
        let number = number.ok_or_else(|| self.wrong(expected, Fitting::REGISTERS))?;
        self.next();
        Ok(number)
    }

    /// A block's name.
    pub fn label(&mut self, expected: &str, fitting: Fitting) -> Result<usize, Message> {
        let token = self.peek();
        let label = match token.kind {
            Kind::Name => self.labels.find(token.text),
            _ => None,
        };
        let label = label.ok_or_else(|| self.wrong(expected, fitting))?;
        self.next();
        self.notes.name_block(label);
        Ok(label)
    }

    /// From a token, which was taken, to the last one taken.
    pub fn since(&self, first: Token) -> Span {
        let first = Span::from(first);
        self.last().map_or(first, |last| first.up_to(last.into()))
    }

    /// From a token, which was taken, to the last one taken but for what ended the statement.
    pub fn statement_since(&self, first: Token) -> Span {
        let taken = self.tokens[..self.at].iter().rev();
        let last = taken.copied().find(|token| !token.ends_statement());
        let first = Span::from(first);
        last.map_or(first, |last| first.up_to(last.into()))
    }

    pub fn at_integer(&self) -> bool {
        self.peek().kind == Kind::Number || self.peek().is("-")
    }

    /// Digits, with a `-` before them or not, of 64 bits.
    pub fn integer(&mut self, expected: &str) -> Result<i64, Message> {
        let first = self.peek();
        let sign = if self.accept("-") { "-" } else { "" };
        let digits = self.peek();
        if digits.kind != Kind::Number {
            let expected = if sign.is_empty() { expected } else { "digits" };
            return Err(self.unexpected(expected));
        }
        self.next();
        let written = format!("{}{}", sign, digits.text);
        written.parse().map_err(|_| {
            let range = format!("an integer from {} to {}", i64::MIN, i64::MAX);
            Message::expected(self.since(first), range, quoted(&written))
        })
    }
}
