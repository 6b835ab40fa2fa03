//! A block's annotation: `[.]`, `[prppt HANDLER]` or `[jtppt POLICY; PAIRS; COMBINING]`.

use crate::cursor::{Parser, UNCLEAR};
use crate::describe::Fitting;
use crate::message::Message;
use crate::notation::{
    JOIN_TARGET, JOIN_TARGET_NUMBER, POLICIES, PROMOTION_READY, PROMOTION_READY_NUMBER,
};
use crate::text::quoted;
use crate::token::Token;
use model::Block;

const PLAIN: Block = Block::PLAIN;

impl<'a> Parser<'a> {
    /// The block record, but for the first instruction. No annotation is the empty one.
    pub fn annotation(&mut self) -> Result<Block, Message> {
        if !self.accept("[") {
            return Ok(PLAIN);
        }
        let block = self.annotation_inside()?;
        self.expect("]", "']'")?;
        Ok(block)
    }

    fn annotation_inside(&mut self) -> Result<Block, Message> {
        if self.accept(".") {
            return Ok(PLAIN);
        }
        match self.peek().text {
            PROMOTION_READY => {
                self.next();
                self.promotion_ready()
            }
            JOIN_TARGET => {
                self.next();
                self.join_target()
            }
            _ => Err(self.unexpected_among("'prppt', 'jtppt' or '.'", Fitting::ANNOTATIONS)),
        }
    }

    fn promotion_ready(&mut self) -> Result<Block, Message> {
        Ok(Block {
            annotation: PROMOTION_READY_NUMBER,
            label: self.label("the label of a handler block", Fitting::LABELS)? as u8,
            ..PLAIN
        })
    }

    fn join_target(&mut self) -> Result<Block, Message> {
        let policy = self.policy()?;
        self.expect(";", "';'")?;
        let pairs = self.pairs()?;
        let label = self.label("the label of a combining block", Fitting::LABELS)?;
        let mut block = Block {
            annotation: JOIN_TARGET_NUMBER,
            policy,
            label: label as u8,
            pair_count: pairs.len() as u8,
            ..PLAIN
        };
        for (byte, pair) in block.pairs.iter_mut().zip(pairs) {
            *byte = (pair.child << 4) | pair.target;
        }
        Ok(block)
    }

    fn policy(&mut self) -> Result<u8, Message> {
        let text = self.peek().text;
        match POLICIES.iter().position(|policy| *policy == text) {
            None => Err(self.unexpected_among("'assoc' or 'assoc-comm'", Fitting::POLICIES)),
            Some(number) => {
                self.next();
                Ok(number as u8)
            }
        }
    }

    /// `CHILD -> TARGET, ..;` in rising order of target, which is how an image has them.
    fn pairs(&mut self) -> Result<Vec<Pair>, Message> {
        let mut pairs: Vec<Pair> = Vec::new();
        if self.accept(";") {
            return Ok(pairs);
        }
        loop {
            let first = self.peek();
            let child = self.register("a register of the child, or ';'")?;
            self.expect("->", "'->'")?;
            let token = self.peek();
            let target = self.register("a target register")?;
            self.check_pair(&pairs, first, token, target);
            pairs.push(Pair { child, target });
            if !self.accept(",") {
                self.expect(";", "',' or ';'")?;
                pairs.sort_by_key(|pair| pair.target);
                return Ok(pairs);
            }
        }
    }

    /// A pair whose first token is `first` comes after these: a target of its own, and not too many.
    fn check_pair(&mut self, pairs: &[Pair], first: Token<'a>, token: Token<'a>, target: u8) {
        let is_again = pairs.iter().any(|pair| pair.target == target);
        if is_again && target != UNCLEAR {
            let found = format!("r{} again, as {}", target, quoted(token.text));
            self.report(Message::expected(token, "each target once", found));
        } else if pairs.len() == self.most_pairs() {
            self.report(self.too_many_pairs(first));
        }
    }
}

#[derive(Clone, Copy)]
struct Pair {
    child: u8,
    target: u8,
}
