//! The lines of a listing.

/// Text, and what stands beside it where offsets are asked for.
pub struct Line {
    text: String,
    beside: Option<String>,
}

impl Line {
    pub fn alone(text: String) -> Self {
        Line { text, beside: None }
    }

    /// With its number or name, its offset in the file, and its bytes.
    pub fn at(text: String, number: &str, offset: usize, bytes: &[u8]) -> Self {
        let bytes: Vec<String> = bytes.iter().map(|byte| format!("{:02x}", byte)).collect();
        let beside = format!("{:>9} {:>5}  {}", number, offset, bytes.join(" "));
        Line {
            text,
            beside: Some(beside),
        }
    }

    fn width(&self) -> usize {
        self.beside.as_ref().map_or(0, |_| self.text.len())
    }
}

/// The lines as a source; `offsets`: with comments.
pub fn text(lines: &[Line], offsets: bool) -> String {
    let width = lines.iter().map(Line::width).max().unwrap_or_default();
    let mut text = String::new();
    for line in lines {
        let whole = match &line.beside {
            Some(beside) if offsets => {
                format!("{:width$}  // {}", line.text, beside, width = width)
            }
            _ => line.text.clone(),
        };
        text += whole.trim_end();
        text += "\n";
    }
    text
}
