//! From a source to its image, the names that it declared and its settings.

use crate::cursor::Parser;
use crate::message::{Message, Position, Span};
use crate::names::Registers;
use crate::origins::Origins;
use crate::settings::Settings;
use crate::text::without_mark;
use crate::token::tokens;
use std::str;

#[derive(Clone, Debug, PartialEq, Eq)]
pub struct Assembly {
    pub image: Vec<u8>,
    pub registers: Registers,
    pub settings: Settings,
    pub origins: Origins,
    /// In order of place.
    pub warnings: Vec<Message>,
}

/// Assembles a source in UTF-8, or says what is wrong with it: its errors in order of place. Of more
/// than are shown, some are left out.
pub fn assemble(source: &[u8]) -> Result<Assembly, Vec<Message>> {
    let text = text(source).map_err(|error| vec![error])?;
    let mut parser = Parser::new(tokens(text));
    let (settings, has_strays) = parser.settings();
    let program = parser.program(has_strays);
    if !parser.errors.is_empty() {
        return Err(parser.errors);
    }
    let image = model::write(&program).expect("the parser has put the writer's questions");
    Ok(Assembly {
        image,
        warnings: parser.notes.warnings(&program, &parser.labels),
        registers: parser.registers,
        settings,
        origins: parser.origins,
    })
}

fn text(source: &[u8]) -> Result<&str, Message> {
    let source = without_mark(source);
    str::from_utf8(source).map_err(|error| {
        let before = str::from_utf8(&source[..error.valid_up_to()]).unwrap_or_default();
        let found = format!("the byte 0x{:02x}", source[error.valid_up_to()]);
        let span = Span {
            position: Position::START.after(before),
            width: 1,
        };
        Message::expected(span, "text in UTF-8", found)
    })
}
