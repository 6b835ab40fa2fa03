//! One image put to the model and to the engine.

use crate::lent::{salt_of, Lent};
use model::Program;

/// What model and engine both answered.
pub struct Answers {
    pub read: Result<Program, u8>,
    pub rewrite: Result<(), u8>,
}

fn number<T>(answer: &Result<T, u8>) -> u8 {
    match answer {
        Ok(_) => 0,
        Err(refusal) => *refusal,
    }
}

/// Puts `image` to both, with an `out` of `out_len` bytes; `salt` places and fills the buffers.
/// The error says in words how the two differ.
pub fn compare(image: &[u8], out_len: usize, salt: u64) -> Result<Answers, String> {
    let read = model::read(image);
    let model_check = model::check(image);
    if number(&model_check) != number(&read) {
        return Err(format!(
            "the model's check answers {}, its reader {}",
            number(&model_check),
            number(&read)
        ));
    }
    if let Ok(program) = &read {
        if model::write(program).as_deref() != Ok(image) {
            return Err("the model does not write back what it read".to_string());
        }
    }

    let mut lent_image = Lent::holding(image, salt);
    let check = engine::image_check(lent_image.slice());
    if number(&check) != number(&read) {
        return Err(format!(
            "check: the model answers {}, the engine {}",
            number(&read),
            number(&check)
        ));
    }

    let expected = match &read {
        Ok(_) if out_len != image.len() => Err(model::question::BUFFER),
        Ok(_) => Ok(()),
        Err(refusal) => Err(*refusal),
    };
    let mut lent_out = Lent::new(out_len, salt_of(salt, 1));
    let rewrite = engine::image_rewrite(lent_image.slice(), lent_out.slice());
    if rewrite != expected {
        return Err(format!(
            "rewrite: the model answers {}, the engine {}",
            number(&expected),
            number(&rewrite)
        ));
    }
    match rewrite {
        Ok(()) if lent_out.slice() != image => {
            return Err("rewrite: out is not the image".to_string())
        }
        Err(_) if !lent_out.is_untouched() => {
            return Err("rewrite: a refused call changed out".to_string())
        }
        _ => {}
    }
    if lent_image.slice() != image {
        return Err("the image was changed".to_string());
    }
    if !lent_out.margins_are_untouched() || !lent_image.margins_are_untouched() {
        return Err("bytes outside the lent buffers were changed".to_string());
    }
    Ok(Answers { read, rewrite })
}
