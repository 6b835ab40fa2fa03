//! What a report's numbers say.

use crate::numbers;
pub use model::report::{bytes, FAULT, HALT, NUMBERS, SPENT};

const FIELDS: [&str; 5] = ["end", "fault number", "picks", "work", "span"];

/// Places of numbers.
pub const WORK: usize = 3;
pub const SPAN: usize = 4;
/// After a report's own, in a dispatcher's.
pub const ROUNDS: usize = NUMBERS;

/// What the number at this place says.
pub fn meaning(index: usize) -> String {
    match FIELDS.get(index) {
        Some(field) => field.to_string(),
        None if index == ROUNDS => "rounds".to_string(),
        None => numbers::register_meaning(index - FIELDS.len()),
    }
}

#[cfg(test)]
mod tests {
    use super::*;

    #[test]
    fn meanings() {
        assert_eq!(model::report::BYTES, engine::REPORT_BYTES);
        assert_eq!(model::report::DISPATCH_BYTES, engine::DISPATCH_BYTES);
        assert_eq!(
            (meaning(WORK), meaning(SPAN)),
            ("work".into(), "span".into())
        );
        assert_eq!(meaning(5), "r0, kind");
        assert_eq!(meaning(NUMBERS - 1), "r15, second number");
        assert_eq!(meaning(ROUNDS), "rounds");
    }
}
