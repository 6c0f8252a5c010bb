//! Lines in, and what there is to see out: on one screen of a terminal, or in lines. The terminal stays as it is, in its own mode of lines, and
//! each screen is written below the last: whatever ends the session, there is nothing to put back.
use super::command::{parse, Command, Line};
use super::draw::program;
use super::{bus_so_far, in_lines, on_screen, Sheet, Shown, Stays, Stepper, Went};
use crate::output::{self, Style};
use crate::words::{self, many};
use std::fs::OpenOptions;
use std::io::{BufRead, Read, Result, Write};

/// What the commands are, as `ks step --help` says it.
pub fn help() -> &'static str {
    let parts = include_str!("../../help/step.txt").split("\n\n");
    parts.into_iter().find(|part| part.starts_with("  next")).expect("a part with the commands")
}

/// What a terminal is given before each line; where the lines don't come from one, they are printed with it, so that what comes out can be read.
const PROMPT: &str = "> ";

/// How many bytes of a line are read at once, so that an endless one ends.
const LINE_MOST: u64 = 1 << 16;

/// Whom a session is with.
#[derive(Clone, Copy, Debug, PartialEq, Eq)]
pub struct Front {
    /// Lines are typed at a terminal.
    pub asks: bool,
    /// What is written goes to one that has a screen.
    pub screen: bool,
    pub style: Style,
}

/// A session as it goes.
struct Session<'s, W: Write> {
    stepper: &'s mut Stepper,
    out: &'s mut W,
    front: Front,
    shown: Shown,
    again: Command,
    /// The files that were saved: they may be written again.
    saved: Vec<String>,
}

/// Obeys line after line until there are no more, or until the end is asked for.
pub fn session(stepper: &mut Stepper, mut lines: impl BufRead, out: &mut impl Write, front: Front) -> Result<()> {
    let shown = stepper.shown();
    let mut session = Session { stepper, out, front, shown, again: Command::Next, saved: Vec::new() };
    let heading = words::heading(session.stepper.records(), session.stepper.table());
    session.draw(None, &[format!("{heading}; h for help")])?;
    loop {
        if front.asks {
            write!(session.out, "{PROMPT}")?;
        }
        session.out.flush()?;
        let Some(text) = line(&mut lines)? else {
            // The line of the prompt is not left open.
            return if front.asks { writeln!(session.out) } else { Ok(()) };
        };
        if !front.asks {
            writeln!(session.out, "{}", format!("{PROMPT}{text}").trim_end())?;
        }
        match parse(&text, session.stepper.names()) {
            Ok(Line::Quit) => return Ok(()),
            Ok(line) => session.line(line)?,
            Err(wrong) => session.text(&wrong)?,
        }
    }
}

/// The next line; none where there is no more. What a line has of control characters is not written back.
fn line(lines: &mut impl BufRead) -> Result<Option<String>> {
    let mut bytes = Vec::new();
    let read = lines.take(LINE_MOST).read_until(b'\n', &mut bytes)?;
    let shown = |c: char| match c {
        _ if c.is_whitespace() => ' ',
        _ if c.is_control() => char::REPLACEMENT_CHARACTER,
        _ => c,
    };
    Ok((read > 0).then(|| String::from_utf8_lossy(&bytes).chars().map(shown).collect()))
}

impl<W: Write> Session<'_, W> {
    fn line(&mut self, line: Line) -> Result<()> {
        match line {
            Line::Help => self.text(help()),
            Line::Show => {
                let all = in_lines(self.sheet(), &self.shown, None);
                self.text(&all)
            }
            Line::Bus => self.text(&bus_so_far(self.stepper.said(), &self.shown.bus)),
            Line::List(one) => {
                let programs = 0..self.stepper.table().processes.len();
                let asked = programs.filter(|p| one.is_none_or(|one| usize::from(one) == *p));
                let text: String = asked.map(|p| program(self.sheet(), &self.shown, p)).collect();
                self.text(&text)
            }
            Line::Save(file) => {
                let said = self.save(&file);
                self.text(&said)
            }
            Line::Again => self.obey(self.again.clone()),
            Line::Do(command) => self.obey(command),
            Line::Quit => Ok(()),
        }
    }

    /// Does what a command asks for and shows what there is to see then, or says why it was not done.
    fn obey(&mut self, command: Command) -> Result<()> {
        let went = self.stepper.obey(&command);
        self.again = command;
        let Went { records, anew, notes } = match went {
            Ok(went) => went,
            Err(Stays(why)) => return self.text(&why),
        };
        if records == 0 && !anew && !notes.is_empty() {
            return self.text(&notes.join("\n"));
        }
        let by = many(records, "record", "records");
        let how = match (anew, records) {
            (true, _) => Some(format!("from the start again, by {by}")),
            (false, 1) => None,
            (false, _) => Some(format!("on by {by}")),
        };
        let notes: Vec<String> = how.into_iter().chain(notes).collect();
        let before = std::mem::replace(&mut self.shown, self.stepper.shown());
        self.draw(Some(&before), &notes)
    }

    /// How wide a line may be now: a terminal's width may change.
    fn style(&self) -> Style {
        let size = output::size().filter(|_| self.front.screen);
        Style { width: size.map_or(self.front.style.width, |(_, columns)| columns), ..self.front.style }
    }

    fn sheet(&self) -> Sheet<'_> {
        self.stepper.sheet(self.style())
    }

    fn draw(&mut self, before: Option<&Shown>, notes: &[String]) -> Result<()> {
        let size = output::size().filter(|_| self.front.screen);
        if let Some((rows, _)) = size {
            let text = on_screen(self.sheet(), &self.shown, before, notes, rows);
            return self.out.write_all(text.as_bytes());
        }
        let notes: String = notes.iter().map(|note| format!("{note}\n")).collect();
        let text = format!("{notes}{}", in_lines(self.sheet(), &self.shown, before));
        self.text(&text)
    }

    /// Text for people.
    fn text(&mut self, text: &str) -> Result<()> {
        let text = self.style().fold(&format!("{}\n", text.trim_end()));
        self.out.write_all(text.as_bytes())
    }

    /// Writes what was done to a file, and says so. A file that was there before is nobody's to write over.
    fn save(&mut self, file: &str) -> String {
        let again = self.saved.iter().any(|saved| saved == file);
        let mut options = OpenOptions::new();
        options.write(true).truncate(again).create_new(!again);
        let written = options.open(file).and_then(|mut open| open.write_all(self.stepper.schedule().as_bytes()));
        match written {
            Ok(()) => {
                if !again {
                    self.saved.push(file.to_string());
                }
                format!("saved in {file}: a schedule of {}", many(self.stepper.given.len(), "record", "records"))
            }
            Err(error) if error.kind() == std::io::ErrorKind::AlreadyExists => {
                format!("{file} is there already, and stays as it is: name another file")
            }
            Err(error) => format!("{file} can't be written: {error}"),
        }
    }
}
