//! The options of `tpasm job` as the examples have them, in one line of text.

use checks::run_program::at_the_root;
use tpasm::command::{Changes, Failure};
use tpasm::{Assembly, Settings};

/// The text's settings, with those of the options in their place. A path begins at the root.
pub fn changed(assembly: &Assembly, options: &str) -> Result<Settings, String> {
    let mut changes = Changes::default();
    let mut words = options.split_whitespace();
    while let Some(option) = words.next() {
        let value = words.next().unwrap_or_default();
        let value = match option {
            "--words" => at_the_root(value).into(),
            _ => value.into(),
        };
        changes.note(option, value)?;
    }
    changes
        .applied(&assembly.settings, &assembly.registers)
        .map_err(|failure| match failure {
            Failure::Usage(what) | Failure::File(what) => what,
        })
}

#[cfg(test)]
mod tests {
    use super::*;

    const SOURCE: &str = "reg a = r3\nplaces 2\nset a = 4\nmain:\n  halt\n";

    fn settings(options: &str) -> Result<Settings, String> {
        changed(&tpasm::assemble(SOURCE.as_bytes()).unwrap(), options)
    }

    #[test]
    fn options_replace_settings() {
        let settings = settings(" --set a=-5 --interval 9\n--set r0=1").unwrap();
        assert_eq!((settings.places, settings.interval), (Some(2), Some(9)));
        assert_eq!(settings.registers[3], Some(-5));
        assert_eq!(settings.registers[0], Some(1));
    }

    #[test]
    fn other_options_are_errors() {
        for options in [
            "--places 3",
            "--places",
            "--set b=1",
            "--words none",
            "-o x",
        ] {
            assert!(settings(options).is_err(), "{}", options);
        }
    }
}
