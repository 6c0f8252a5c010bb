//! The program `ks`: its commands, and how they begin and end.
use crate::command::COMMANDS;
use crate::failure::{Exit, Failure};
use crate::output::Outputs;
use std::io::Write;
use std::process::ExitCode;

/// A command: what it is called, what it does in a line, all that its help says, and its work.
pub struct Command {
    pub name: &'static str,
    pub line: &'static str,
    /// desk/help/NAME.txt, from which `./ks` answers without a program.
    pub help: &'static str,
    pub work: fn(&[String], &mut Outputs) -> Result<(), Failure>,
}

/// What `ks --help` prints, which lists the commands, and `ks --version`.
pub const HELP: &str = include_str!("../help/ks.txt");
pub const VERSION: &str = include_str!("../help/version.txt");

/// The whole program.
pub fn main() -> ExitCode {
    let arguments: Result<Vec<String>, _> = std::env::args_os().skip(1).map(|argument| argument.into_string()).collect();
    let code = guarded(|| {
        Outputs::with(|outputs| match arguments {
            Ok(arguments) => ks(&arguments, outputs),
            Err(argument) => {
                outputs.say(&format!("ks: the argument {} is no UTF-8", argument.to_string_lossy()));
                Exit::Unasked as u8
            }
        })
    });
    ExitCode::from(code)
}

/// A panic is a fault of ours: it is said so, and ends with 1.
fn guarded(work: impl FnOnce() -> u8) -> u8 {
    std::panic::set_hook(Box::new(|panic| {
        let _ = writeln!(std::io::stderr(), "ks: a fault of ours, which we would like to hear of: {panic}");
    }));
    std::panic::catch_unwind(std::panic::AssertUnwindSafe(work)).unwrap_or(Exit::Fault as u8)
}

/// The program with these arguments: the code that it ends with.
pub fn ks(arguments: &[String], outputs: &mut Outputs) -> u8 {
    let (name, ended) = match arguments.split_first().map(|(first, rest)| (first.as_str(), rest)) {
        None => ("", Err(Failure::usage("a command is wanted: `ks --help` lists them"))),
        Some(("--help" | "-h", _)) => ("", outputs.text(HELP).map_err(Failure::from)),
        Some(("--version", _)) => ("", outputs.text(VERSION).map_err(Failure::from)),
        Some(("help", [])) => ("", outputs.text(HELP).map_err(Failure::from)),
        Some(("help", [name, ..])) => ("", help(name, outputs)),
        Some((name, rest)) => match COMMANDS.iter().find(|command| command.name == name) {
            Some(command) if asks_for_help(rest) => (command.name, help(command.name, outputs)),
            Some(command) => (command.name, (command.work)(rest, outputs)),
            None => ("", Err(unknown(name))),
        },
    };
    let ended = ended.and_then(|()| outputs.out.flush().map_err(Failure::from));
    ended.map_or_else(|failure| complain(name, &failure, outputs), |()| 0)
}

/// Whether one of the arguments, up to `--`, asks for help.
fn asks_for_help(arguments: &[String]) -> bool {
    arguments.iter().take_while(|argument| *argument != "--").any(|argument| argument == "--help" || argument == "-h")
}

fn help(name: &str, outputs: &mut Outputs) -> Result<(), Failure> {
    let command = COMMANDS.iter().find(|command| command.name == name).ok_or_else(|| unknown(name))?;
    Ok(outputs.text(command.help)?)
}

fn unknown(name: &str) -> Failure {
    Failure::usage(format!("no command {name}: `ks --help` lists them"))
}

/// Shows and says what is left to be shown and said.
fn complain(name: &str, failure: &Failure, outputs: &mut Outputs) -> u8 {
    let shown = match failure.exit {
        Exit::Fault => Ok(()),
        _ => outputs.bytes(failure.shown.as_bytes()).and_then(|()| outputs.out.flush()),
    };
    let begin = if name.is_empty() { "ks".to_string() } else { format!("ks {name}") };
    for message in &failure.said {
        outputs.say(&format!("{begin}: {message}"));
    }
    match shown.map_err(Failure::from) {
        Ok(()) => failure.exit as u8,
        Err(unwritten) => {
            unwritten.said.iter().for_each(|message| outputs.say(&format!("{begin}: {message}")));
            unwritten.exit as u8
        }
    }
}

#[cfg(test)]
mod tests {
    use super::guarded;

    #[test]
    fn a_fault_of_ours() {
        assert_eq!((guarded(|| panic!("on purpose")), guarded(|| 4)), (1, 4));
    }
}
