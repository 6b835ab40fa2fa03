//! A job's bytes for the run program.

use crate::settings::Settings;

/// Without settings: one place, interval 0, registers 0, no words.
pub fn job(image: &[u8], settings: &Settings) -> Vec<u8> {
    let mut bytes = (image.len() as u16).to_le_bytes().to_vec();
    bytes.extend(image);
    bytes.push(settings.places.unwrap_or(1));
    bytes.extend(settings.interval.unwrap_or(0).to_le_bytes());
    for register in settings.registers {
        bytes.extend(register.unwrap_or(0).to_le_bytes());
    }
    bytes.extend((settings.words.len() as u16).to_le_bytes());
    bytes.extend(settings.words.iter().flat_map(|word| word.to_le_bytes()));
    bytes
}
