//! After an error: where parsing goes on, so that one error is one message.

use crate::cursor::Parser;
use crate::names::looks_numbered;
use crate::notation;
use crate::settings::SETTING_WORDS;
use crate::token::{Kind, Token};

impl<'a> Parser<'a> {
    /// Up to the end of the statement, or to a label.
    pub fn skip_statement(&mut self) {
        if self.peek().is("[") {
            self.skip_annotation();
        }
        while !self.peek().ends_statement() && !self.at_label() {
            self.next();
        }
    }

    /// Behind the `]`, in this line or, where the annotation goes on there, a later one; without it, to
    /// the line's end.
    pub fn skip_annotation(&mut self) {
        let rest = self.rest();
        let ends_line = |token: &Token| matches!(token.kind, Kind::LineEnd | Kind::FileEnd);
        let closes = |token: &Token| token.is("]");
        let ends = |token: &Token| {
            closes(token) || token.is(":=") || token.is(":") || token.kind == Kind::FileEnd
        };
        let line = rest.iter().position(ends_line).unwrap_or_default();
        let in_line = rest[..line].iter().position(closes);
        let later = rest.iter().position(ends).filter(|at| closes(&rest[*at]));
        let count = in_line.or(later).map_or(line, |at| at + 1);
        for _ in 0..count {
            self.next();
        }
    }

    /// An instruction by its first tokens, also where its names mean nothing.
    pub fn at_instruction(&self) -> bool {
        let first = self.peek();
        let is_worded = notation::of_text(first.text).is_some() || looks_numbered(first.text);
        first.kind == Kind::Name && (is_worded || self.peek_second().is(":="))
    }

    /// Instructions before the first label, of which the first is reported: up to a setting or label.
    pub fn skip_instructions(&mut self) {
        loop {
            self.skip_statement();
            self.skip_separators();
            let first = self.peek();
            let is_setting = SETTING_WORDS.contains(&first.text) && !self.peek_second().is(":=");
            if is_setting || first.kind == Kind::FileEnd || self.at_label() {
                return;
            }
        }
    }

    /// In a statement that begins with `word` and has an error, names stand before a `=`, or where a
    /// `reg` line has them: to use them is no error.
    pub fn doubt_names(&mut self, word: &str, statement: &[Token<'a>]) {
        if word != "reg" && SETTING_WORDS.contains(&word) {
            return;
        }
        for pair in statement.windows(2) {
            let declares = pair[1].is("=") || (word == "reg" && !pair[0].is("="));
            let name = if pair[1].is("=") { pair[0] } else { pair[1] };
            let is_new = !self.is_taken(name.text) && self.labels.find(name.text).is_none();
            if declares && name.kind == Kind::Name && is_new {
                self.doubtful.insert(name.text);
            }
        }
    }
}
