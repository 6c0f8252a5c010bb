//! Arguments: options anywhere, `--option=value` or `--option value`, `--` before what only looks like one, `-` for standard input.
use crate::failure::Failure;

/// An option that a command has; where it has a value, what that is called.
#[derive(Clone, Copy, Debug, PartialEq, Eq)]
pub struct Known {
    name: &'static str,
    value: Option<&'static str>,
    often: bool,
}

/// An option with no value.
pub const fn flag(name: &'static str) -> Known {
    Known { name, value: None, often: false }
}

/// An option with a value.
pub const fn value(name: &'static str, what: &'static str) -> Known {
    Known { name, value: Some(what), often: false }
}

/// An option with a value that may be given as often as wanted.
pub const fn values(name: &'static str, what: &'static str) -> Known {
    Known { name, value: Some(what), often: true }
}

/// The arguments, told apart.
#[derive(Clone, Debug, PartialEq, Eq)]
pub struct Said<'a> {
    options: Vec<(&'static str, &'a str)>,
    pub files: Vec<&'a str>,
}

/// Tells them apart, or says what is wrong with them.
pub fn read<'a>(arguments: &'a [String], known: &[Known]) -> Result<Said<'a>, Failure> {
    let mut said = Said { options: Vec::new(), files: Vec::new() };
    let mut rest = arguments.iter().map(String::as_str);
    while let Some(argument) = rest.next() {
        match argument {
            "--" => said.files.extend(rest.by_ref()),
            "-" => said.files.push(argument),
            _ if argument.starts_with('-') => said.option(argument, &mut rest, known)?,
            _ => said.files.push(argument),
        }
    }
    Ok(said)
}

impl<'a> Said<'a> {
    /// One option, with its value behind `=` or in the next argument.
    fn option(&mut self, argument: &'a str, rest: &mut impl Iterator<Item = &'a str>, known: &[Known]) -> Result<(), Failure> {
        let (name, attached) = argument.split_once('=').map_or((argument, None), |(name, value)| (name, Some(value)));
        let Some(option) = known.iter().find(|option| option.name == name) else {
            let names: Vec<&str> = known.iter().map(|option| option.name).collect();
            let there = if names.is_empty() { "there are none".to_string() } else { format!("there are {}", names.join(", ")) };
            return Err(Failure::usage(format!("no option {name}: {there}")));
        };
        let given = match (option.value, attached) {
            (None, Some(_)) => return Err(Failure::usage(format!("{name} has no value"))),
            (None, None) => "",
            (Some(_), Some(value)) => value,
            (Some(what), None) => rest.next().ok_or_else(|| Failure::usage(format!("{name} wants a value: {name}={what}")))?,
        };
        if !option.often && self.options.iter().any(|(other, _)| *other == option.name) {
            return Err(Failure::usage(format!("{name} is given twice")));
        }
        self.options.push((option.name, given));
        Ok(())
    }

    pub fn flag(&self, name: &str) -> bool {
        self.value(name).is_some()
    }

    pub fn value(&self, name: &str) -> Option<&'a str> {
        self.values(name).next()
    }

    pub fn values(&self, name: &str) -> impl Iterator<Item = &'a str> + '_ {
        let name = name.to_string();
        self.options.iter().filter(move |(other, _)| *other == name).map(|(_, value)| *value)
    }

    /// A value that has to be a decimal number from `least` on.
    pub fn number(&self, name: &str, least: usize) -> Result<Option<usize>, Failure> {
        let Some(text) = self.value(name) else { return Ok(None) };
        let wrong = || Failure::usage(format!("{name} {text}: a number from {least} on is wanted"));
        decimal(text).filter(|&n| n >= least).map(Some).ok_or_else(wrong)
    }
}

/// Digits alone: no sign.
pub fn decimal(text: &str) -> Option<usize> {
    text.bytes().all(|byte| byte.is_ascii_digit()).then(|| text.parse().ok())?
}

#[cfg(test)]
mod tests {
    use super::{flag, read, value, values};

    #[test]
    fn told_apart() {
        let known = [flag("--map"), value("--width", "N"), values("--pull", "BOARD@N")];
        let line = |text: &str| -> Vec<String> { text.split(' ').map(str::to_string).collect() };
        let arguments = line("a --map - --width=7 --pull 1@2 --pull=0@3 -- --b -");
        let said = read(&arguments, &known).expect("arguments");
        assert_eq!(said.files, ["a", "-", "--b", "-"]);
        assert!(said.flag("--map") && !said.flag("--list"));
        assert_eq!((said.value("--width"), said.number("--width", 1)), (Some("7"), Ok(Some(7))));
        assert_eq!(said.values("--pull").collect::<Vec<_>>(), ["1@2", "0@3"]);
        for (text, about) in [
            ("--what", "no option --what: there are --map, --width, --pull"),
            ("-x", "no option -x"),
            ("--map=1", "--map has no value"),
            ("--width", "--width wants a value: --width=N"),
            ("--map --map", "--map is given twice"),
        ] {
            let arguments = line(text);
            let failure = read(&arguments, &known).expect_err(text);
            assert!(failure.said[0].starts_with(about), "{failure:?}");
        }
    }
}
