//! Names of registers and of blocks. They share one set of names with the instructions' words, so
//! that a name means one thing in the whole source.

use crate::origins::Origins;
use crate::token::{Kind, Token};
use model::REGISTERS;
use std::borrow::Cow;
use std::collections::HashMap;

/// The register that `r0` to `r15` names.
pub fn numbered(name: &str) -> Option<u8> {
    let digits = name.strip_prefix('r')?;
    let has_one_form = digits == "0" || !digits.starts_with(['0', '+']);
    let number: u8 = digits.parse().ok()?;
    (has_one_form && usize::from(number) < REGISTERS).then_some(number)
}

/// `r` and a number: never a name to be declared, also where there is no such register.
pub fn looks_numbered(name: &str) -> bool {
    name.len() > 1 && name.starts_with('r') && name[1..].bytes().all(|b| b.is_ascii_digit())
}

/// The names that a source's `reg` lines gave.
#[derive(Clone, Debug, Default, PartialEq, Eq)]
pub struct Registers {
    names: [Option<String>; REGISTERS],
}

impl Registers {
    /// The register of a declared name or of `r0` to `r15`.
    pub fn number(&self, name: &str) -> Option<u8> {
        numbered(name).or_else(|| self.declared(name))
    }

    fn declared(&self, name: &str) -> Option<u8> {
        let is_it = |given: &Option<String>| given.as_deref() == Some(name);
        self.names.iter().position(is_it).map(|n| n as u8)
    }

    /// The name that was declared for a register.
    pub fn name(&self, number: u8) -> Option<&str> {
        self.names[usize::from(number)].as_deref()
    }

    /// The declared names with their registers, in the order of these.
    pub fn named(&self) -> impl Iterator<Item = (u8, &str)> {
        let names = (0..).zip(&self.names);
        names.filter_map(|(number, name)| Some((number, name.as_deref()?)))
    }

    pub(crate) fn declare(&mut self, name: &str, number: u8) {
        self.names[usize::from(number)] = Some(name.to_string());
    }
}

/// What blocks and registers are called where a program is written out.
#[derive(Clone, Debug, PartialEq, Eq)]
pub struct Names {
    blocks: Vec<String>,
    registers: Registers,
}

impl Names {
    /// Those of a source.
    pub fn new(origins: &Origins, registers: &Registers) -> Self {
        Names {
            blocks: origins
                .blocks
                .iter()
                .map(|label| label.name.clone())
                .collect(),
            registers: registers.clone(),
        }
    }

    /// `b0`, `b1`, .. and `r0` to `r15`.
    pub fn numbered(block_count: usize) -> Self {
        Names {
            blocks: (0..block_count)
                .map(|number| format!("b{}", number))
                .collect(),
            registers: Registers::default(),
        }
    }

    pub fn block(&self, number: usize) -> &str {
        &self.blocks[number]
    }

    pub fn register(&self, number: u8) -> Cow<'_, str> {
        match self.registers.name(number) {
            Some(name) => name.into(),
            None => format!("r{}", number).into(),
        }
    }
}

/// The blocks' labels, collected ahead since a block may be named before it stands there.
pub struct Labels<'a> {
    order: Vec<Token<'a>>,
    numbers: HashMap<&'a str, usize>,
}

impl<'a> Labels<'a> {
    /// A name before a `:` begins a block, and nothing else does. Of equal names the first counts;
    /// the parser refuses the second where it stands.
    pub fn collect(tokens: &[Token<'a>]) -> Self {
        let is_label = |pair: &&[Token]| pair[0].kind == Kind::Name && pair[1].is(":");
        let labels = tokens.windows(2).filter(is_label).map(|pair| pair[0]);
        let order: Vec<Token> = labels.collect();
        let mut numbers = HashMap::new();
        for (number, label) in order.iter().enumerate() {
            numbers.entry(label.text).or_insert(number);
        }
        Labels { order, numbers }
    }

    /// A block's number.
    pub fn find(&self, name: &str) -> Option<usize> {
        self.numbers.get(name).copied()
    }

    /// In the order of the source.
    pub fn all(&self) -> &[Token<'a>] {
        &self.order
    }
}
