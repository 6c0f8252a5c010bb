//! A text in the form, read line by line. Each line that is wrong is said, and the rest is read all the same.
use super::cursor::Cursor;
use super::keywords::{or, HEADINGS, INSTRUCTIONS, MOVES};
use super::lexer::{lines, Line, Token, Wrong};
use super::schedule;
use super::syntax::{At, Channel, End, Instruction, Program, Text};

/// What the lines that are no heading belong to.
enum Below {
    Nothing,
    Program,
    Schedule,
    /// Something that is wrong already: what stands below it is not said too.
    Unknown,
}

struct Parser {
    text: Text,
    below: Below,
    wrong: Vec<Wrong>,
}

/// What the text says, and all that is wrong with it.
pub fn parse(text: &str) -> (Text, Vec<Wrong>) {
    let (lines, wrong) = lines(text);
    let mut parser = Parser { text: Text::default(), below: Below::Nothing, wrong };
    for line in &lines {
        // What a broken line says is looked at for its names alone.
        let read = parser.line(line);
        parser.wrong.extend(read.err().filter(|_| !line.broken));
    }
    (parser.text, parser.wrong)
}

impl Parser {
    fn line(&mut self, line: &Line) -> Result<(), Wrong> {
        let mut cursor = Cursor::new(line);
        match cursor.word() {
            Some(word) if HEADINGS.contains(&word) && cursor.behind() != Some(&Token::Colon) => {
                cursor.skip();
                self.heading(word, line.number, &mut cursor)
            }
            _ => match self.below {
                Below::Program => self.in_program(line.number, &mut cursor),
                Below::Schedule => {
                    let it = schedule::statement(&mut cursor)?;
                    let schedule = self.text.schedule.as_mut().expect("its heading was read");
                    schedule.it.push(At { line: line.number, it });
                    Ok(())
                }
                Below::Nothing => {
                    self.below = Below::Unknown;
                    let hint = if cursor.word() == Some("counts") { "; lists of numbers are for `ks table`" } else { "" };
                    Err(cursor.expected(&format!("a heading: {}{hint}", or(&HEADINGS))))
                }
                Below::Unknown => Ok(()),
            },
        }
    }

    fn heading(&mut self, word: &str, line: usize, cursor: &mut Cursor) -> Result<(), Wrong> {
        self.below = if word == "program" { Below::Unknown } else { Below::Nothing };
        match word {
            "cabinet" => once(&mut self.text.cabinet, line, "cabinet", cursor.new_name("a name")?)?,
            "boards" => once(&mut self.text.boards, line, "boards", cursor.number("how many boards there are")?)?,
            "channel" => {
                let name = cursor.reference("the channel's name")?;
                let it = Channel { name, sender: End::Outside, reader: End::Outside };
                self.text.channels.push(At { line, it });
                let channel = &mut self.text.channels.last_mut().expect("it was put there").it;
                ends(channel, cursor)?;
            }
            "program" => {
                let name = cursor.reference("the program's name")?;
                let it = Program { name, primary: 0, backup: 0, limit: None, labels: Vec::new(), instructions: Vec::new() };
                self.text.programs.push(At { line, it });
                self.below = Below::Program;
                let program = &mut self.text.programs.last_mut().expect("it was put there").it;
                placement(program, cursor)?;
            }
            _ => {
                self.below = Below::Schedule;
                once(&mut self.text.schedule, line, "schedule", Vec::new())?;
            }
        }
        cursor.end()
    }

    /// A label, an instruction, or both.
    fn in_program(&mut self, line: usize, cursor: &mut Cursor) -> Result<(), Wrong> {
        let program = &mut self.text.programs.last_mut().expect("its heading was read").it;
        if cursor.behind() == Some(&Token::Colon) {
            let name = cursor.new_name("a label")?;
            cursor.skip();
            program.labels.push(At { line, it: (name, program.instructions.len() as u32) });
            if cursor.ended() {
                return Ok(());
            }
        }
        let it = instruction(cursor)?;
        program.instructions.push(At { line, it });
        cursor.end()
    }
}

/// What stands in a text only once.
fn once<T>(place: &mut Option<At<T>>, line: usize, what: &str, it: T) -> Result<(), Wrong> {
    match place {
        Some(first) => {
            Err(Wrong::new(line, format!("found a second `{what}`, expected one: the first is in line {}", first.line)))
        }
        None => {
            *place = Some(At { line, it });
            Ok(())
        }
    }
}

/// A channel that is wrong has its name all the same: what names it is not wrong too.
fn ends(channel: &mut Channel, cursor: &mut Cursor) -> Result<(), Wrong> {
    channel.sender = end(cursor)?;
    cursor.arrow()?;
    channel.reader = end(cursor)?;
    Ok(())
}

fn end(cursor: &mut Cursor) -> Result<End, Wrong> {
    if cursor.accept("outside") {
        return Ok(End::Outside);
    }
    cursor.reference("a program or `outside`").map(End::Program)
}

fn placement(program: &mut Program, cursor: &mut Cursor) -> Result<(), Wrong> {
    cursor.keyword("on")?;
    program.primary = cursor.number("its board")?;
    cursor.keyword("backup")?;
    program.backup = cursor.number("its backup's board")?;
    program.limit = cursor.accept("limit").then(|| cursor.number("its limit, how many acts ask for a sync")).transpose()?;
    if program.limit.is_none() && !cursor.ended() {
        return Err(cursor.expected("`limit` or the end of the line"));
    }
    Ok(())
}

fn instruction(cursor: &mut Cursor) -> Result<Instruction, Wrong> {
    let Some(word) = cursor.word().filter(|word| INSTRUCTIONS.contains(word)) else {
        let hint = match cursor.word() {
            Some(word) if MOVES.contains(&word) => "; `schedule` begins the schedule",
            _ => "",
        };
        return Err(cursor.expected(&format!("{}, a label or a heading{hint}", INSTRUCTIONS.join(", "))));
    };
    cursor.skip();
    if word == "jump" {
        let place = cursor.reference("a label")?;
        cursor.keyword("if")?;
        return Ok(Instruction::Jump { place, register: cursor.register()? });
    }
    let register = cursor.register()?;
    Ok(match word {
        "set" => Instruction::Set { register, word: cursor.number("a word")? },
        "add" => Instruction::Add { register, other: cursor.register()? },
        "take" => Instruction::Take { register, channel: cursor.reference("a channel")? },
        "send" => Instruction::Send { register, channel: cursor.reference("a channel")? },
        _ => {
            let mut channels = vec![cursor.reference("a channel")?];
            while !cursor.ended() {
                channels.push(cursor.reference("a channel")?);
            }
            Instruction::First { register, channels }
        }
    })
}
