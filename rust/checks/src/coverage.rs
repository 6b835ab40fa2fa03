//! What a run of cases has covered, and what it ought to.

use crate::compare::Answers;
use crate::counts::Counts;
use crate::damage::{Field, BLOCK_FIELDS, HEADER_FIELDS, INSTRUCTION_FIELDS};
use crate::generate::{Case, Shape, SHAPES};
use crate::layout::{block_field, HEADER, INSTRUCTION};
use model::{block_bytes, opcode, question, Block, MARK, MAX_PAIRS, VERSIONS, VERSION_1};

pub struct Coverage {
    met: Counts,
    /// Named at the end, because every instruction of every accepted image is counted.
    operands: [[u64; 4]; 18],
}

fn shape_name(shape: Shape) -> String {
    format!("shape {:?}", shape)
}

fn damaged_name(field: Field) -> String {
    match field {
        Field::Header(field) => format!("damaged header {}", HEADER_FIELDS[field]),
        Field::Block { annotation, field } => {
            format!("damaged annotation {} {}", annotation, BLOCK_FIELDS[field])
        }
        Field::Instruction { opcode, field } => {
            format!("damaged opcode {:2} {}", opcode, INSTRUCTION_FIELDS[field])
        }
    }
}

fn operand_name(opcode: u8, kind: u8) -> String {
    format!("accepted opcode {:2} kind {}", opcode, kind)
}

fn annotation_name(block: &Block) -> String {
    match block.annotation {
        2 => join_target_name(block.policy, block.pair_count),
        annotation => format!("accepted annotation {}", annotation),
    }
}

fn join_target_name(policy: u8, pairs: u8) -> String {
    format!("accepted annotation 2 policy {} pairs {}", policy, pairs)
}

/// Versions that there are not.
const OTHER_VERSIONS: [u16; 3] = [0, 3, 65_535];
const VERSION_BEFORE_COUNTS: &str = "answers 3 though 4 is a no, too";
/// What version 2 has, in an image of version 1.
const SECOND_IN_FIRST: [&str; 3] = [
    "version 1 with opcode 16: 8",
    "version 1 with opcode 17: 8",
    "version 1 with five pairs: 7",
];

fn version_name(version: u16, number: u8) -> String {
    format!("version {} answers {:2}", version, number)
}

fn other_version_name(version: u16) -> String {
    format!("answers 3 for version {}", version)
}

/// The version that an image of eight bytes or more says.
fn version_of(image: &[u8]) -> Option<u16> {
    let is_marked = image.len() >= HEADER && image.starts_with(&MARK);
    is_marked.then(|| u16::from_le_bytes([image[3], image[4]]))
}

impl Default for Coverage {
    fn default() -> Self {
        let mut names: Vec<String> = SHAPES.map(shape_name).to_vec();
        names.extend((0..=9).map(|number| format!("check answers {:2}", number)));
        names.extend((0..=9).map(|number| format!("rewrite answers {:2}", number)));
        names.push(format!("rewrite answers {:2}", 15));
        names.extend(["accepted B = 1", "accepted B = 128"].map(String::from));
        names.extend(["accepted I = 1", "accepted I = 1024"].map(String::from));
        names.push("accepted B = 128, I = 1024".to_string());
        names.push("accepted after damage".to_string());
        names.extend(["out empty", "out shorter", "out longer", "image empty"].map(String::from));
        let header = (0..HEADER_FIELDS.len()).map(Field::Header);
        names.extend(header.map(damaged_name));
        for version in VERSIONS {
            // The numbers before are those of no version.
            let numbers = [0]
                .into_iter()
                .chain(question::COUNTS..=question::LAST_IN_BLOCK);
            names.extend(numbers.map(|number| version_name(version, number)));
        }
        names.extend(OTHER_VERSIONS.map(other_version_name));
        names.push(VERSION_BEFORE_COUNTS.to_string());
        names.extend(SECOND_IN_FIRST.map(String::from));
        for annotation in 0..=2 {
            let fields = 0..BLOCK_FIELDS.len();
            names.extend(fields.map(|field| damaged_name(Field::Block { annotation, field })));
        }
        for opcode in 1..=opcode::POP {
            let fields = 0..INSTRUCTION_FIELDS.len();
            names.extend(fields.map(|field| damaged_name(Field::Instruction { opcode, field })));
            let kinds = match opcode {
                opcode::HALT | opcode::POP => 0..=0,
                _ => 1..=3,
            };
            names.extend(kinds.map(|kind| operand_name(opcode, kind)));
        }
        names.extend(["accepted annotation 0", "accepted annotation 1"].map(String::from));
        for policy in 0..=1 {
            names.extend((0..=MAX_PAIRS).map(|pairs| join_target_name(policy, pairs as u8)));
        }
        Coverage {
            met: Counts::of("images", names),
            operands: [[0; 4]; 18],
        }
    }
}

impl Coverage {
    pub fn count(&mut self, case: &Case, answers: &Answers) {
        self.met.cases += 1;
        self.met.meet(&shape_name(case.shape));
        if let Some(field) = case.damaged {
            self.met.meet(&damaged_name(field));
        }
        let check = answers.read.as_ref().err().copied().unwrap_or(0);
        let rewrite = answers.rewrite.err().unwrap_or(0);
        self.met.meet(&format!("check answers {:2}", check));
        self.met.meet(&format!("rewrite answers {:2}", rewrite));
        if let Some(version) = version_of(&case.image) {
            self.count_version(&case.image, version, check);
        }
        if case.image.is_empty() {
            self.met.meet("image empty");
        }
        if case.out_len == 0 {
            self.met.meet("out empty");
        } else if case.out_len < case.image.len() {
            self.met.meet("out shorter");
        } else if case.out_len > case.image.len() {
            self.met.meet("out longer");
        }
        if let Ok(program) = &answers.read {
            if case.damaged.is_some() {
                self.met.meet("accepted after damage");
            }
            self.count_program(program);
        }
    }

    fn count_version(&mut self, image: &[u8], version: u16, number: u8) {
        if VERSIONS.contains(&version) {
            self.met.meet(&version_name(version, number));
        }
        if number == question::VERSION {
            if OTHER_VERSIONS.contains(&version) {
                self.met.meet(&other_version_name(version));
            }
            if image[5] == 0 || image[5] > 128 {
                self.met.meet(VERSION_BEFORE_COUNTS);
            }
        }
        if version == VERSION_1 {
            self.count_second_in_first(image, number);
        }
    }

    /// An image of version 1 that is refused for something of version 2, which is all that it may be
    /// refused for.
    fn count_second_in_first(&mut self, image: &[u8], number: u8) {
        let first = |at: usize, length: usize| image[at..].chunks_exact(length);
        let block_count = usize::from(image[5]);
        let instructions = HEADER + block_bytes(VERSION_1) * block_count;
        if number == question::FIELDS {
            // The first no is at the first opcode that there is not.
            let opcodes = first(instructions, INSTRUCTION).map(|record| record[0]);
            match opcodes
                .into_iter()
                .find(|opcode| !(1..=15).contains(opcode))
            {
                Some(opcode::PUSH) => self.met.meet(SECOND_IN_FIRST[0]),
                Some(opcode::POP) => self.met.meet(SECOND_IN_FIRST[1]),
                _ => {}
            }
        }
        let mut blocks = first(HEADER, block_bytes(VERSION_1)).take(block_count);
        if number == question::ANNOTATION && blocks.any(|block| block[block_field::PAIR_COUNT] == 5)
        {
            self.met.meet(SECOND_IN_FIRST[2]);
        }
    }

    fn count_program(&mut self, program: &model::Program) {
        let counts = (program.blocks.len(), program.instructions.len());
        if counts.0 == 1 || counts.0 == 128 {
            self.met.meet(&format!("accepted B = {}", counts.0));
        }
        if counts.1 == 1 || counts.1 == 1024 {
            self.met.meet(&format!("accepted I = {}", counts.1));
        }
        if counts == (128, 1024) {
            self.met.meet("accepted B = 128, I = 1024");
        }
        for instruction in &program.instructions {
            self.operands[usize::from(instruction.opcode)][usize::from(instruction.kind)] += 1;
        }
        for block in &program.blocks {
            self.met.meet_listed(&annotation_name(block));
        }
    }
}

impl From<Coverage> for Counts {
    fn from(coverage: Coverage) -> Self {
        let mut met = coverage.met;
        for (opcode, kinds) in (0..).zip(coverage.operands) {
            for (kind, times) in (0..).zip(kinds) {
                met.meet_times(&operand_name(opcode, kind), times);
            }
        }
        met
    }
}
