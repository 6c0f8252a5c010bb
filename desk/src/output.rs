//! Where a command writes: standard output and standard error, each with its width, and colour only on a terminal and not with NO_COLOR.
use std::fs::File;
use std::io::{self, IsTerminal, Write};
use std::process::{Command, Stdio};

/// No line is wider where nobody says how wide lines may be.
pub const WIDTH: usize = 100;

/// How something is to look.
#[derive(Clone, Copy, Debug, PartialEq, Eq)]
pub struct Style {
    pub colour: bool,
    pub width: usize,
}

/// As in a pipe.
pub const PLAIN: Style = Style { colour: false, width: WIDTH };

#[derive(Clone, Copy, Debug, PartialEq, Eq)]
pub enum Colour {
    Red = 31,
    Green = 32,
    Yellow = 33,
}

impl Style {
    /// The style of a stream, which may be a terminal. COLUMNS says outright how wide lines may be.
    fn of(terminal: bool) -> Style {
        let size = || terminal.then(size).flatten();
        let width = said("COLUMNS").or_else(|| size().map(|(_, columns)| columns)).unwrap_or(WIDTH);
        let plain = std::env::var_os("NO_COLOR").is_some_and(|value| !value.is_empty());
        let dumb = std::env::var_os("TERM").is_some_and(|term| term == "dumb");
        Style { colour: terminal && !plain && !dumb, width }
    }

    pub fn paint(self, colour: Colour, text: &str) -> String {
        match self.colour {
            true => format!("\x1b[{}m{text}\x1b[0m", colour as u8),
            false => text.to_string(),
        }
    }

    /// The text with no line wider than this style has it, as far as its words allow.
    pub fn fold(self, text: &str) -> String {
        text.split_inclusive('\n').map(|line| fold_line(line, self.width)).collect()
    }
}

/// A size that the environment says outright.
fn said(name: &str) -> Option<usize> {
    std::env::var(name).ok()?.parse().ok().filter(|&size| size > 0)
}

/// The rows and columns of the terminal, as `stty` tells them, but for what LINES and COLUMNS say.
pub fn size() -> Option<(usize, usize)> {
    let asked = Command::new("stty").arg("size").stdin(File::open("/dev/tty").ok()?).stderr(Stdio::null()).output().ok()?;
    let told = String::from_utf8(asked.stdout).ok()?;
    let mut told = told.split_whitespace().map(|size| size.parse().ok().filter(|&size| size > 0));
    let (rows, columns) = (told.next()?, told.next()?);
    Some((said("LINES").or(rows)?, said("COLUMNS").or(columns)?))
}

/// How wide a text is on a terminal: colours take no room.
pub fn wide(text: &str) -> usize {
    let mut pieces = text.split("\x1b[");
    let first = pieces.next().map_or(0, |piece| piece.chars().count());
    first + pieces.map(|piece| piece.split_once('m').map_or(0, |(_, rest)| rest.chars().count())).sum::<usize>()
}

/// A line in lines that are no wider, further in from the second on. A word that is wider stays whole; so do the spaces before a word.
fn fold_line(line: &str, width: usize) -> String {
    let (line, end) = line.strip_suffix('\n').map_or((line, ""), |line| (line, "\n"));
    if wide(line) <= width {
        return format!("{line}{end}");
    }
    let inner = line.len() - line.trim_start_matches(' ').len();
    let hanging = " ".repeat((inner + 4).min(width / 2));
    let mut folded = String::new();
    let mut row = String::new();
    for piece in line.split_inclusive(' ') {
        if wide(&row) + wide(piece.trim_end_matches(' ')) > width && !row.trim().is_empty() {
            folded += row.trim_end_matches(' ');
            folded.push('\n');
            row.clone_from(&hanging);
            if piece.trim().is_empty() {
                continue;
            }
        }
        row += piece;
    }
    folded + row.trim_end_matches(' ') + end
}

/// Both streams of a command.
pub struct Outputs<'o> {
    pub out: &'o mut dyn Write,
    pub err: &'o mut dyn Write,
    pub out_style: Style,
    pub err_style: Style,
}

impl Outputs<'_> {
    /// Writes to the real streams.
    pub fn with<T>(work: impl FnOnce(&mut Outputs) -> T) -> T {
        let (out_style, err_style) = (Style::of(io::stdout().is_terminal()), Style::of(io::stderr().is_terminal()));
        let mut out = io::BufWriter::with_capacity(1 << 16, io::stdout().lock());
        work(&mut Outputs { out: &mut out, err: &mut io::stderr().lock(), out_style, err_style })
    }

    /// Text for people: lines that are too wide are folded.
    pub fn text(&mut self, text: &str) -> io::Result<()> {
        self.out.write_all(self.out_style.fold(text).as_bytes())
    }

    /// Bytes, and text for programs, as they are.
    pub fn bytes(&mut self, bytes: &[u8]) -> io::Result<()> {
        self.out.write_all(bytes)
    }

    /// The same for who writes piece by piece.
    pub fn folding(&mut self) -> Folding<'_> {
        Folding { out: &mut *self.out, style: self.out_style, line: Vec::new() }
    }

    /// A message. Where it can't be said there is nobody to tell.
    pub fn say(&mut self, message: &str) {
        let message = self.err_style.fold(&format!("{}\n", message.trim_end()));
        let _ = self.err.write_all(message.as_bytes());
    }
}

/// Text for people, in pieces: a line is folded when it is whole, and what is no whole line is written when it is flushed.
pub struct Folding<'o> {
    out: &'o mut dyn Write,
    style: Style,
    line: Vec<u8>,
}

impl Write for Folding<'_> {
    fn write(&mut self, bytes: &[u8]) -> io::Result<usize> {
        for piece in bytes.split_inclusive(|byte| *byte == b'\n') {
            self.line.extend(piece);
            if piece.ends_with(b"\n") {
                let line = String::from_utf8_lossy(&self.line);
                self.out.write_all(self.style.fold(&line).as_bytes())?;
                self.line.clear();
            }
        }
        Ok(bytes.len())
    }

    fn flush(&mut self) -> io::Result<()> {
        self.out.write_all(&self.line)?;
        self.line.clear();
        self.out.flush()
    }
}

#[cfg(test)]
mod tests {
    use super::{wide, Colour, Style, PLAIN};

    #[test]
    fn folded() {
        let style = |width| Style { colour: false, width };
        assert_eq!(style(10).fold("short\n\n  and more\n"), "short\n\n  and more\n");
        assert_eq!(style(12).fold("one two three four five"), "one two\n    three\n    four\n    five");
        assert_eq!(style(12).fold("  one two three four\n"), "  one two\n      three\n      four\n");
        assert_eq!(style(10).fold("a_word_that_is_wider stays\nx"), "a_word_that_is_wider\n    stays\nx");
        assert_eq!(style(12).fold("one    two   three"), "one    two\n    three");
        let green = style(8).paint(Colour::Green, "ok");
        assert_eq!((green.as_str(), wide("\x1b[32mok\x1b[0m fine")), ("ok", 7));
        let line = "word ".repeat(40);
        assert!(PLAIN.fold(&line).lines().all(|line| line.len() <= 100));
    }
}
