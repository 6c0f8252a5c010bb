//! What channels, programs and places are called: by the names of a text, or by names that are made up.
use super::lexer::Wrong;
use super::syntax::{At, Ref, Text};
use kunzeastylus::{End, Operation, Table};

/// The names of a table's parts, in the order of their numbers.
#[derive(Clone, Debug, Default, PartialEq, Eq)]
pub struct Names {
    pub cabinet: Option<String>,
    pub channels: Vec<String>,
    pub programs: Vec<String>,
    /// Of each program, its labels with the places that they name.
    pub labels: Vec<Vec<(String, u32)>>,
}

impl Names {
    /// Names for a table that has none: c0 and so on, p0 and so on, and a label wherever a jump leads.
    pub fn made_up(table: &Table) -> Names {
        let called = |letter: char, count: usize| (0..count).map(|i| format!("{letter}{i}")).collect();
        let labels = |program: &[Operation]| {
            let mut places: Vec<u32> = program.iter().filter_map(jump).collect();
            places.sort_unstable();
            places.dedup();
            places.into_iter().map(|place| (format!("at{place}"), place)).collect()
        };
        Names {
            cabinet: None,
            channels: called('c', table.channels.len()),
            programs: called('p', table.processes.len()),
            labels: table.processes.iter().map(|process| labels(&process.program)).collect(),
        }
    }

    /// The names that a text gives, and those that it gives twice. What is declared by its number has the name that would be made up.
    pub fn of(text: &Text) -> (Names, Vec<Wrong>) {
        let mut taken: Vec<(String, usize)> = Vec::new();
        let mut wrong = Vec::new();
        let channels = text.channels.iter().map(|at| (at.line, &at.it.name));
        let channels = declared(channels, 'c', &mut taken, &mut wrong);
        let programs = text.programs.iter().map(|at| (at.line, &at.it.name));
        let programs = declared(programs, 'p', &mut taken, &mut wrong);
        let labels = text.programs.iter().map(|program| labels(&program.it.labels, &mut wrong)).collect();
        let cabinet = text.cabinet.as_ref().map(|cabinet| cabinet.it.clone());
        (Names { cabinet, channels, programs, labels }, wrong)
    }

    /// The number of a channel.
    pub fn channel(&self, line: usize, channel: &Ref) -> Result<u32, Wrong> {
        number(line, channel, "channel", &self.channels, ("program", &self.programs))
    }

    /// The number of a program.
    pub fn program(&self, line: usize, program: &Ref) -> Result<u32, Wrong> {
        number(line, program, "program", &self.programs, ("channel", &self.channels))
    }

    /// A place of a program.
    pub fn place(&self, line: usize, program: usize, place: &Ref) -> Result<u32, Wrong> {
        match place {
            Ref::Number(place) => Ok(*place),
            Ref::Name(name) => {
                let labels = self.labels.get(program).map_or(&[][..], |labels| labels);
                let found = labels.iter().find(|(label, _)| label == name).map(|(_, place)| *place);
                let known: Vec<&str> = labels.iter().map(|(label, _)| label.as_str()).collect();
                found.ok_or_else(|| unknown(line, name, "a label of this program", &known))
            }
        }
    }

    /// What a place of a program is called: by its label, or by its number.
    pub fn place_name(&self, program: usize, place: impl Into<u32>) -> String {
        let place = place.into();
        self.label(program, place).map_or(place.to_string(), str::to_string)
    }

    /// The first label of a place of a program.
    pub fn label(&self, program: usize, place: u32) -> Option<&str> {
        let (label, _) = self.labels.get(program)?.iter().find(|(_, other)| *other == place)?;
        Some(label)
    }

    /// What a program is called; one that isn't there, by its number.
    pub fn program_name(&self, number: impl Into<u32>) -> String {
        let number = number.into();
        self.programs.get(number as usize).cloned().unwrap_or(number.to_string())
    }

    /// What a channel is called; one that isn't there, by its number.
    pub fn channel_name(&self, number: impl Into<u32>) -> String {
        let number = number.into();
        self.channels.get(number as usize).cloned().unwrap_or(number.to_string())
    }

    /// What an end of a channel is called.
    pub fn end_name(&self, end: End) -> String {
        match end {
            End::Outside => "outside".to_string(),
            End::Process(p) => self.program_name(p),
        }
    }
}

fn jump(operation: &Operation) -> Option<u32> {
    match operation {
        Operation::Jump { place, .. } => Some((*place).into()),
        _ => None,
    }
}

/// The names of what is declared in these lines, in this order.
fn declared<'t>(
    those: impl Iterator<Item = (usize, &'t Ref)>,
    letter: char,
    taken: &mut Vec<(String, usize)>,
    wrong: &mut Vec<Wrong>,
) -> Vec<String> {
    let mut names = Vec::new();
    for (line, name) in those {
        let name = match name {
            Ref::Name(name) => name.clone(),
            Ref::Number(number) => {
                if *number as usize != names.len() {
                    let it = names.len();
                    wrong.push(Wrong::new(line, format!("found `{number}`, expected {it}, which it is in order, or a name")));
                }
                format!("{letter}{}", names.len())
            }
        };
        match taken.iter().find(|(other, _)| *other == name) {
            Some((_, first)) => wrong.push(twice(line, &name, *first)),
            None => taken.push((name.clone(), line)),
        }
        names.push(name);
    }
    names
}

fn labels(labels: &[At<(String, u32)>], wrong: &mut Vec<Wrong>) -> Vec<(String, u32)> {
    for (i, label) in labels.iter().enumerate() {
        if let Some(first) = labels[..i].iter().find(|other| other.it.0 == label.it.0) {
            wrong.push(twice(label.line, &label.it.0, first.line));
        }
    }
    labels.iter().map(|label| label.it.clone()).collect()
}

fn twice(line: usize, name: &str, first: usize) -> Wrong {
    Wrong::new(line, format!("found a second `{name}`, expected a new name: the first is in line {first}"))
}

fn number(line: usize, wanted: &Ref, what: &str, names: &[String], others: (&str, &[String])) -> Result<u32, Wrong> {
    match wanted {
        Ref::Number(number) => Ok(*number),
        Ref::Name(name) => match names.iter().position(|other| other == name) {
            Some(number) => Ok(number as u32),
            None if others.1.contains(name) => {
                Err(Wrong::new(line, format!("found `{name}`, which is a {}, expected a {what}", others.0)))
            }
            None => {
                let known: Vec<&str> = names.iter().map(String::as_str).collect();
                Err(unknown(line, name, &format!("a {what}"), &known))
            }
        },
    }
}

/// A name that nothing has, and those that there are.
fn unknown(line: usize, name: &str, what: &str, known: &[&str]) -> Wrong {
    let there = match known.len() {
        0 => "there are none".to_string(),
        1..=8 => format!("there {} {}", if known.len() == 1 { "is" } else { "are" }, known.join(", ")),
        n => format!("there are {n}: {} ..", known[..8].join(", ")),
    };
    Wrong::new(line, format!("found `{name}`, expected {what}: {there}"))
}
