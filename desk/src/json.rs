//! A run as JSON, for scripts: docs/FORMATS.md has the fields. All of it is numbers, but for what a refusal says.
use crate::proved::Ran;
use kunzeastylus::{BusWord, End, ProcessEnd, OUTSIDE};
use std::fmt::Write;

/// An accepted run, a record in each line.
pub fn ran(ran: &Ran) -> String {
    let mut text = String::with_capacity(96 * ran.answers.len() + 256);
    text += "{\"number\":0,\"records\":[";
    for (i, answer) in ran.answers.iter().enumerate() {
        let (code, a, word, reason) = (answer.code.number(), answer.a, answer.word, answer.reason.number());
        let comma = if i == 0 { "" } else { "," };
        write!(text, "{comma}\n{{\"code\":{code},\"a\":{a},\"word\":{word},\"reason\":{reason},").unwrap();
        match answer.bus {
            Some(BusWord { sender, place, .. }) => write!(text, "\"sender\":{},\"place\":{place}}}", number(sender)).unwrap(),
            None => text += "\"sender\":null,\"place\":null}",
        }
    }
    text += "],\n\"report\":[";
    for (p, end) in ran.ends.iter().enumerate() {
        let ProcessEnd { board, place, unread, hold_back, registers: [r0, r1, r2, r3] } = end;
        let comma = if p == 0 { "" } else { "," };
        write!(text, "{comma}\n{{\"board\":{board},\"place\":{place},\"unread\":{unread},\"holdback\":{hold_back},").unwrap();
        write!(text, "\"registers\":[{r0},{r1},{r2},{r3}]}}").unwrap();
    }
    writeln!(text, "],\n\"quiet\":{}}}", ran.quiet).unwrap();
    text
}

fn number(sender: End) -> u8 {
    match sender {
        End::Process(p) => p,
        End::Outside => OUTSIDE,
    }
}

/// A refused one, and why.
pub fn refused(number: &str, why: &[String]) -> String {
    let why: Vec<String> = why.iter().map(|line| string(line)).collect();
    format!("{{\"number\":{number},\"records\":[],\"report\":[],\"quiet\":false,\"why\":[{}]}}\n", why.join(","))
}

/// A string of JSON.
pub fn string(text: &str) -> String {
    let mut quoted = "\"".to_string();
    for c in text.chars() {
        match c {
            '"' | '\\' => quoted.extend(['\\', c]),
            c if c.is_control() => write!(quoted, "\\u{:04x}", c as u32).unwrap(),
            c => quoted.push(c),
        }
    }
    quoted + "\""
}

#[cfg(test)]
mod tests {
    use super::string;

    #[test]
    fn quoted() {
        assert_eq!(string("a \"b\" \\ \n\u{fc}"), "\"a \\\"b\\\" \\\\ \\u000a\u{fc}\"");
    }
}
