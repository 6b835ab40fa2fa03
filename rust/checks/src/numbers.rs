//! What the engine writes as 64-bit numbers, little-endian: states and reports.

pub use model::numbers::number_at;

const VALUE_FIELDS: [&str; 3] = ["kind", "first number", "second number"];

/// What the number at this place among the registers' says.
pub fn register_meaning(at: usize) -> String {
    format!("r{}", value_meaning(at))
}

/// The same among those of a stack's entries.
pub fn entry_meaning(at: usize) -> String {
    format!("stack entry {}", value_meaning(at))
}

fn value_meaning(at: usize) -> String {
    let (value, field) = (at / VALUE_FIELDS.len(), at % VALUE_FIELDS.len());
    format!("{}, {}", value, VALUE_FIELDS[field])
}

/// The first number in which the two differ, in words.
pub fn first_difference(
    model: &[u8],
    engine: &[u8],
    meaning: impl Fn(usize) -> String,
) -> Option<String> {
    (0..model.len() / 8)
        .find(|&index| number_at(model, index) != number_at(engine, index))
        .map(|index| {
            format!(
                "number {} ({}): the model has {}, the engine {}",
                index,
                meaning(index),
                number_at(model, index),
                number_at(engine, index)
            )
        })
}
