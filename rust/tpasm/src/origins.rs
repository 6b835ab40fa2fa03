//! Where a source has its blocks and instructions.

use crate::message::{Position, Span};

/// A block's label.
#[derive(Clone, Debug, PartialEq, Eq)]
pub struct Label {
    pub name: String,
    pub position: Position,
}

/// By the numbers of blocks and instructions.
#[derive(Clone, Debug, Default, PartialEq, Eq)]
pub struct Origins {
    pub blocks: Vec<Label>,
    pub instructions: Vec<Span>,
}
