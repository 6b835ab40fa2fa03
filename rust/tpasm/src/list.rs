//! From an image or a job back to a source: blocks `b0`, `b1`, .., registers `r0` to `r15`.

mod line;
mod program;
mod settings;

use crate::refusal::Refusal;
use line::{text, Line};
use model::{Job, Program, MARK};
pub use program::written;

/// Bytes of a job before its image.
const IMAGE_AT: usize = 2;

/// The source of an image's program. Assembled again, it gives the same image.
pub fn list(image: &[u8]) -> Result<String, Refusal> {
    let program = model::read(image).map_err(Refusal)?;
    Ok(text(&program_lines(&program, image), false))
}

/// The source of an image or of a job, with a comment that says which of them it is. Assembled again,
/// it gives the same image, or the same job. `offsets`: comments have the number of each block and
/// instruction, where in the file it stands, and its bytes.
pub fn list_file(bytes: &[u8], offsets: bool) -> Result<String, Refusal> {
    let mut lines = if is_job(bytes) {
        job_lines(bytes)?
    } else {
        image_lines(bytes)?
    };
    if offsets {
        let columns = "// beside each line: block or instruction, offset in the file, bytes";
        lines.insert(1, Line::alone(columns.to_string()));
    }
    Ok(text(&lines, offsets))
}

/// The image's mark stands behind the image's length. An image has another letter there.
pub fn is_job(bytes: &[u8]) -> bool {
    let image = bytes.get(IMAGE_AT..).unwrap_or_default();
    image.starts_with(&MARK)
}

fn image_lines(image: &[u8]) -> Result<Vec<Line>, Refusal> {
    let program = model::read(image).map_err(Refusal)?;
    let first = format!(
        "// image of {} bytes, {}",
        image.len(),
        program::counts(&program)
    );
    let mut lines = vec![Line::alone(first)];
    lines.extend(program_lines(&program, image));
    Ok(lines)
}

/// Of an image that is a file of its own.
fn program_lines(program: &Program, image: &[u8]) -> Vec<Line> {
    let mut lines = vec![
        program::version_line(program, 0),
        Line::alone(String::new()),
    ];
    lines.extend(program::lines(program, image, 0));
    lines
}

fn job_lines(bytes: &[u8]) -> Result<Vec<Line>, Refusal> {
    let job = Job::parse(bytes).map_err(Refusal)?;
    settings::check(&job).map_err(Refusal)?;
    let image = &bytes[IMAGE_AT..IMAGE_AT + job.program.image_len()];
    let first = format!(
        "// job of {} bytes; its image has {}, {}",
        bytes.len(),
        image.len(),
        program::counts(&job.program)
    );
    let mut lines = vec![Line::alone(first)];
    lines.push(program::version_line(&job.program, IMAGE_AT));
    lines.extend(settings::lines(&job, IMAGE_AT + image.len()));
    lines.push(Line::alone(String::new()));
    lines.extend(program::lines(&job.program, image, IMAGE_AT));
    Ok(lines)
}
