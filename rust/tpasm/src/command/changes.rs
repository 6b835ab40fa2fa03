//! The options of `tpasm job`: they replace the settings of a source.

use super::arguments::{number, wrong};
use super::failure::{at_fault, Failure};
use super::files::Place;
use crate::names::Registers;
use crate::settings::{Settings, INTERVALS, PLACES};
use crate::suggest::nearest;
use model::MAX_WORDS;
use std::ffi::{OsStr, OsString};

/// What these options say.
#[derive(Debug, Default)]
pub struct Changes {
    pub places: Option<u8>,
    pub interval: Option<u16>,
    pub set: Vec<(String, i64)>,
    pub words: Option<Place>,
}

impl Changes {
    /// Notes an option of this name. The error says what is wrong with its value.
    pub fn note(&mut self, name: &str, value: OsString) -> Result<(), String> {
        match name {
            "--places" => {
                let places = number(&value).and_then(Settings::allowed_places);
                self.places = Some(places.ok_or_else(|| wrong(name, PLACES, &value))?);
            }
            "--interval" => {
                let interval = number(&value).and_then(Settings::allowed_interval);
                self.interval = Some(interval.ok_or_else(|| wrong(name, INTERVALS, &value))?);
            }
            "--set" => {
                let set = register_value(&value);
                self.set
                    .push(set.ok_or_else(|| wrong(name, "REGISTER=INTEGER", &value))?);
            }
            "--words" => self.words = Some(Place::of(value)),
            _ => return Err(format!("unknown option '{}'", name)),
        }
        Ok(())
    }

    /// Standard input is read once.
    pub fn check_input(&self, input: &Place) -> Result<(), String> {
        if *input == Place::Standard && self.words == Some(Place::Standard) {
            return Err("source and words cannot both come from standard input".into());
        }
        Ok(())
    }

    /// These settings, with those of the options in their place.
    pub fn applied(&self, settings: &Settings, registers: &Registers) -> Result<Settings, Failure> {
        let mut settings = settings.clone();
        settings.places = self.places.or(settings.places);
        settings.interval = self.interval.or(settings.interval);
        for (register, integer) in &self.set {
            let number = registers.number(register);
            let number = number.ok_or_else(|| no_register(register, registers))?;
            settings.registers[usize::from(number)] = Some(*integer);
        }
        if let Some(place) = &self.words {
            settings.words = words_of(place)?;
        }
        Ok(settings)
    }
}

fn register_value(value: &OsStr) -> Option<(String, i64)> {
    let (name, integer) = value.to_str()?.split_once('=')?;
    let integer = integer.trim().parse().ok()?;
    Some((name.trim().to_string(), integer))
}

fn no_register(register: &str, registers: &Registers) -> Failure {
    let near = nearest(register, registers.named().map(|(_, name)| name));
    let hint = near.map_or(String::new(), |name| format!(": did you mean '{}'?", name));
    let expected = "--set: expected a register of the source";
    Failure::Usage(format!("{}, found '{}'{}", expected, register, hint))
}

/// The words of a file.
pub fn words_of(place: &Place) -> Result<Vec<i64>, Failure> {
    let bytes = place.read().map_err(at_fault)?;
    let whole = bytes.chunks_exact(8);
    let count = whole.len();
    let wrong = |what: String| Err(at_fault(format!("{}: expected {}", place.name(), what)));
    if !whole.remainder().is_empty() {
        return wrong(format!("64-bit words, found {} bytes", bytes.len()));
    }
    if count > MAX_WORDS {
        return wrong(format!("at most {} words, found {}", MAX_WORDS, count));
    }
    let word = |chunk: &[u8]| i64::from_le_bytes(chunk.try_into().expect("a chunk has 8 bytes"));
    Ok(whole.map(word).collect())
}

/// The output is none of the files that are read.
pub fn check_output(output: &Place, input: &Place, changes: &Changes) -> Result<(), Failure> {
    let canonical = output.canonical();
    let words = changes.words.as_ref().and_then(Place::canonical);
    if canonical.is_some() && (canonical == input.canonical() || canonical == words) {
        let message = format!("-o: {} is read too", output.name());
        return Err(Failure::Usage(message));
    }
    Ok(())
}
