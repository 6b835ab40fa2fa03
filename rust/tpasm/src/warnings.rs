//! What a program says that cannot be meant: blocks that never run, instructions that always fault.

use crate::message::{Message, Span};
use crate::names::Labels;
use crate::text::quoted;
use crate::token::Token;
use model::Program;
use std::collections::HashSet;

/// What the parser notes for the warnings, some of which need the whole program.
#[derive(Default)]
pub struct Notes {
    /// The block being parsed.
    block: usize,
    /// The blocks that another block names.
    named: HashSet<usize>,
    /// Operands of `jralloc`: a label's block, or an integer.
    jrallocs: Vec<(Span, Option<usize>)>,
    zero_divisors: Vec<Span>,
}

impl Notes {
    pub fn begin_block(&mut self, number: usize) {
        self.block = number;
    }

    pub fn name_block(&mut self, number: usize) {
        if number != self.block {
            self.named.insert(number);
        }
    }

    pub fn jralloc(&mut self, operand: Span, block: Option<usize>) {
        self.jrallocs.push((operand, block));
    }

    pub fn zero_divisor(&mut self, operand: Span) {
        self.zero_divisors.push(operand);
    }

    /// In order of place. The program has no error.
    pub fn warnings(&self, program: &Program, labels: &Labels) -> Vec<Message> {
        let is_target = |number: &usize| program.blocks[*number].is_join_target();
        let jrallocs = self.jrallocs.iter();
        let mut warnings: Vec<Message> = jrallocs
            .filter(|(_, block)| !block.as_ref().map_or(false, is_target))
            .map(|(operand, block)| no_join_target(*operand, block.map(|n| labels.all()[n])))
            .collect();
        warnings.extend(
            self.zero_divisors
                .iter()
                .map(|operand| zero_divisor(*operand)),
        );
        let later = labels.all().iter().enumerate().skip(1);
        let unnamed = later.filter(|(number, _)| !self.named.contains(number));
        warnings.extend(unnamed.map(|(_, label)| never_entered(*label)));
        warnings.sort_by_key(|warning| warning.span.position);
        warnings
    }
}

/// A label of a block, or an integer.
fn no_join_target(operand: Span, label: Option<Token>) -> Message {
    let what = match label {
        Some(label) => format!("block {}", label),
        None => "an integer".to_string(),
    };
    let hint = label.map(|label| {
        let annotated = format!("{}: [jtppt POLICY; PAIRS; COMBINING]", label.text);
        format!("a join target is annotated, {}", quoted(&annotated))
    });
    let fault = "carried out, this ends the task with fault 35";
    let text = format!("{} is no join target: {}", what, fault);
    Message::warning(operand, text).with_hint(hint)
}

fn zero_divisor(operand: Span) -> Message {
    let text = "the divisor is 0: carried out, this ends the task with fault 32";
    Message::warning(operand, text)
}

fn never_entered(label: Token) -> Message {
    let text = format!("no other block names {}: it never runs", label);
    Message::warning(label, text)
}
