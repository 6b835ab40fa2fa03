//! What is looked at: a job, the program in it, and what its text calls the parts.

use crate::effect::block_of;
use crate::player::Player;
use model::{Job, Program, MARK};
use tpasm::command::{at_fault, complain, Changes, Failure};
use tpasm::{Assembly, Names, Origins, Refusal, Registers, Settings, Span};

pub struct Subject {
    /// The file's name in messages.
    pub file: String,
    pub player: Player,
    pub program: Program,
    pub names: Names,
    /// The names that the text gives to registers.
    pub registers: Registers,
    /// None: an image or a job was handed in.
    text: Option<Text>,
}

struct Text {
    source: Vec<u8>,
    origins: Origins,
}

impl Subject {
    /// Of a text, an image or a job, with a job's options applied. Warnings about a text are printed.
    pub fn new(file: String, bytes: Vec<u8>, changes: &Changes) -> Result<Self, Failure> {
        if is_text(&bytes) {
            return Subject::of_text(file, bytes, changes);
        }
        let refused = |number| at_fault(format!("{}: {}", file, Refusal(number)));
        let (image, settings) = parts(&bytes).map_err(refused)?;
        let registers = Registers::default();
        let settings = changes.applied(&settings, &registers)?;
        let player = Player::new(&tpasm::job(image, &settings)).map_err(refused)?;
        let program = model::read(image).map_err(refused)?;
        Ok(Subject {
            names: Names::numbered(program.blocks.len()),
            file,
            player,
            program,
            registers,
            text: None,
        })
    }

    fn of_text(file: String, source: Vec<u8>, changes: &Changes) -> Result<Self, Failure> {
        let shown = |messages: &[_]| tpasm::show(&file, &source, messages);
        let assembly = tpasm::assemble(&source).map_err(|errors| Failure::File(shown(&errors)))?;
        let Assembly {
            image,
            registers,
            settings,
            origins,
            warnings,
        } = assembly;
        let settings = changes.applied(&settings, &registers)?;
        complain(&shown(&warnings));
        let refused = |number| at_fault(format!("{}: {}", file, Refusal(number)));
        Ok(Subject {
            player: Player::new(&tpasm::job(&image, &settings)).map_err(refused)?,
            program: model::read(&image).map_err(refused)?,
            names: Names::new(&origins, &registers),
            text: Some(Text { source, origins }),
            file,
            registers,
        })
    }

    pub fn has_text(&self) -> bool {
        self.text.is_some()
    }

    /// The name of the block that an instruction is in.
    pub fn block(&self, pc: usize) -> &str {
        self.names.block(block_of(&self.program, pc))
    }

    pub fn instruction(&self, pc: usize) -> String {
        tpasm::written(&self.program.instructions[pc], &self.names)
    }

    /// The line of an instruction in the text, or its number in the image.
    pub fn line(&self, pc: usize) -> usize {
        self.span(pc).map_or(pc, |span| span.position.line)
    }

    fn span(&self, pc: usize) -> Option<Span> {
        self.text.as_ref().map(|text| text.origins.instructions[pc])
    }

    /// File and place of an instruction, as messages have them.
    pub fn place(&self, pc: usize) -> String {
        match self.span(pc) {
            Some(span) => format!("{}:{}", self.file, span.position),
            None => format!("{}: instruction {}", self.file, pc),
        }
    }

    /// An instruction as it stands in the text, or as it would be listed.
    pub fn excerpt(&self, pc: usize) -> String {
        match (&self.text, self.span(pc)) {
            (Some(text), Some(span)) => tpasm::excerpt(&text.source, span),
            _ => format!("      | {}\n", self.instruction(pc)),
        }
    }
}

/// A text has no byte 0, and every image or job has some.
fn is_text(bytes: &[u8]) -> bool {
    let is_cut_image = bytes.starts_with(&MARK) && bytes.len() < 5;
    !bytes.contains(&0) && !is_cut_image
}

/// The image of an image or a job, and the settings. The error is the engine's refusal.
fn parts(bytes: &[u8]) -> Result<(&[u8], Settings), u8> {
    if !tpasm::is_job(bytes) {
        engine::image_check(bytes)?;
        return Ok((bytes, Settings::default()));
    }
    Player::new(bytes)?;
    let job = Job::parse(bytes)?;
    let settings = Settings {
        places: Some(job.places),
        interval: Some(job.interval),
        registers: job.registers.map(Some),
        words: job.words,
    };
    Ok((&bytes[2..2 + job.program.image_len()], settings))
}
