//! What a state's numbers say.

use crate::numbers;
pub use model::state::{bytes, NUMBERS};
use model::state::{
    FORKS_AT, FORK_NUMBERS, HEIGHT_AT, JOB_NUMBERS, REGISTERS_AT, SLOT_NUMBERS, STACK_AT,
};

const JOB_FIELDS: [&str; JOB_NUMBERS] = ["P", "interval", "work"];
const TASK_FIELDS: [&str; FORKS_AT] = [
    "status",
    "fault number",
    "places",
    "program counter",
    "counter",
    "span",
    "depth",
];
const FORK_FIELDS: [&str; FORK_NUMBERS] = ["continuation", "depth"];

/// What the number at this place says.
pub fn meaning(index: usize) -> String {
    if let Some(field) = JOB_FIELDS.get(index) {
        return field.to_string();
    }
    let index = index - JOB_FIELDS.len();
    let (slot, at) = (index / SLOT_NUMBERS, index % SLOT_NUMBERS);
    let within = if at < FORKS_AT {
        TASK_FIELDS[at].to_string()
    } else if at < REGISTERS_AT {
        let at = at - FORKS_AT;
        let (fork, field) = (at / FORK_FIELDS.len(), at % FORK_FIELDS.len());
        format!("open fork {}, {}", fork, FORK_FIELDS[field])
    } else if at < HEIGHT_AT {
        numbers::register_meaning(at - REGISTERS_AT)
    } else if at < STACK_AT {
        "height".to_string()
    } else {
        numbers::entry_meaning(at - STACK_AT)
    };
    format!("slot {}: {}", slot, within)
}

#[cfg(test)]
mod tests {
    use super::*;

    #[test]
    fn meanings() {
        assert_eq!(model::state::BYTES, engine::STATE_BYTES);
        assert_eq!(meaning(2), "work");
        assert_eq!(meaning(3), "slot 0: status");
        assert_eq!(meaning(10), "slot 0: open fork 0, continuation");
        assert_eq!(meaning(22), "slot 0: r0, kind");
        assert_eq!(meaning(69), "slot 0: r15, second number");
        assert_eq!(meaning(70), "slot 0: height");
        assert_eq!(meaning(71), "slot 0: stack entry 0, kind");
        assert_eq!(meaning(167), "slot 1: status");
        let last = "slot 63: stack entry 31, second number";
        assert_eq!(meaning(NUMBERS - 1), last);
    }
}
