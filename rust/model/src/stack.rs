//! A task's private stack.

use crate::fault;
use crate::task::Value;

/// A stack is full with so many values.
pub const STACK: usize = 32;

/// It takes memory with the first push and keeps it, so that a task without calls pays nothing, and
/// one in a slot that was used before only once.
#[derive(Debug, Default, PartialEq, Eq)]
pub struct Stack(Vec<Value>);

impl Stack {
    pub const EMPTY: Stack = Stack(Vec::new());

    /// Of values from the lowest on. More than `STACK` of them are no stack that a program reaches.
    pub fn of(values: Vec<Value>) -> Self {
        Stack(values)
    }

    pub fn height(&self) -> usize {
        self.0.len()
    }

    /// The lowest first.
    pub fn values(&self) -> &[Value] {
        &self.0
    }

    pub fn clear(&mut self) {
        self.0.clear();
    }

    #[inline]
    pub fn push(&mut self, value: Value) -> Result<(), u8> {
        if self.0.len() >= STACK {
            return Err(fault::FULL);
        }
        if self.0.capacity() == 0 {
            self.0.reserve_exact(STACK);
        }
        self.0.push(value);
        Ok(())
    }

    #[inline]
    pub fn pop(&mut self) -> Result<Value, u8> {
        self.0.pop().ok_or(fault::EMPTY)
    }
}

impl Clone for Stack {
    fn clone(&self) -> Self {
        Stack(self.0.clone())
    }

    /// In the memory that is there.
    fn clone_from(&mut self, source: &Self) {
        self.0.clone_from(&source.0);
    }
}
