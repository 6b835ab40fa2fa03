//! Hints for what is written so elsewhere.

/// For a token that fits nowhere.
pub fn of_mark(mark: &str) -> Option<String> {
    let hint = match mark {
        "==" => "equality is written '=', and gives 0 when true",
        "!=" => "there is no '!=': compare with '=', then turn the result round, 't := t = 1'",
        ">" => "there is no '>': exchange the two sides and write '<'",
        ">=" => "there is no '>=': compare with '<', then turn the result round, 't := t = 1'",
        "<=" => {
            "there is no '<=': exchange the two sides, compare with '<', then turn the result \
             round, 't := t = 1'"
        }
        "+=" | "-=" | "*=" | "/=" | "%=" => {
            let operator = &mark[..1];
            return Some(format!("write it out, as in 'r0 := r0 {} 1'", operator));
        }
        "&" | "&&" | "|" | "||" | "^" | "!" | "~" | "<<" | ">>" => {
            "the operators are + - * / % < ="
        }
        "#" | "/*" | "*/" => "a comment begins with '//' and ends with its line",
        "(" | ")" => "an instruction has one operation, without brackets",
        "\u{2212}" | "\u{2013}" => "write '-'",
        "\u{d7}" | "\u{b7}" => "write '*'",
        "\u{2192}" => "write '->'",
        "\u{2254}" | "\u{2190}" => "write ':='",
        _ => return of_number(mark),
    };
    Some(hint.to_string())
}

/// For a word where an instruction is meant.
pub fn of_instruction(word: &str) -> Option<&'static str> {
    Some(match word.to_ascii_lowercase().as_str() {
        "mov" | "move" | "let" | "load" | "ld" | "li" => "a move is written 'r0 := 1'",
        "add" | "sub" | "mul" | "div" | "mod" | "rem" | "inc" | "dec" | "cmp" => {
            "an operation is written 'r0 := r1 + 2'"
        }
        "if" | "ifjump" | "if_jump" | "jz" | "je" | "beq" | "branch" => {
            "write 'if-jump r0, LABEL', which jumps when r0 is 0"
        }
        "goto" | "go" | "jmp" | "br" => "write 'jump LABEL'",
        "spawn" | "async" => "write 'fork r0, LABEL', where r0 holds a join record",
        "sync" | "wait" | "await" => "write 'join r0', where r0 holds a join record",
        "call" | "gosub" | "bl" | "jsr" => {
            "push the label to come back to and jump: 'push back; jump LABEL'"
        }
        "ret" | "return" | "rts" => {
            "write 'pop r0; jump r0' in a subroutine, 'join r0' in a side of a fork, 'halt' at the end"
        }
        "stop" | "end" | "exit" => {
            "write 'halt' to end the job, 'join r0' to end a side of a fork"
        }
        _ => return None,
    })
}

/// For what begins with a digit and is no decimal number, or is one behind a `#`.
fn of_number(text: &str) -> Option<String> {
    if let Some(digits) = text.strip_prefix('#') {
        return Some(format!("an integer is written without '#': {}", digits));
    }
    if !text.starts_with(|c: char| c.is_ascii_digit()) {
        return None;
    }
    let digits = text.replace('_', "");
    let radix = match digits.get(..2) {
        Some("0x" | "0X") => 16,
        Some("0o" | "0O") => 8,
        Some("0b" | "0B") => 2,
        _ if digits.bytes().all(|b| b.is_ascii_digit()) => {
            return Some(format!("an integer has digits alone: {}", digits));
        }
        _ => return Some("a name begins with a letter or '_'".to_string()),
    };
    Some(match u64::from_str_radix(&digits[2..], radix) {
        Ok(value) => format!("integers are decimal: {}", value as i64),
        Err(_) => "integers are decimal".to_string(),
    })
}

#[cfg(test)]
mod tests;
