//! The expectations of many files, on all cores, and how each file came out: as a line, as TAP, as JUnit's XML.
use crate::case::{load, Source};
use crate::failure::{Exit, Failure};
use crate::input;
use crate::output::{Colour, Style};
use crate::proved;
use crate::told::unmet_of;
use crate::words::many;
use std::collections::BTreeMap;
use std::fmt::Write;
use std::io;
use std::num::NonZero;
use std::sync::atomic::{AtomicBool, AtomicUsize, Ordering};
use std::sync::mpsc;
use std::time::{Duration, Instant};

/// How a file came out.
#[derive(Clone, Debug, PartialEq, Eq)]
pub struct Checked {
    pub file: String,
    /// None where it passed.
    pub exit: Option<Exit>,
    /// What it has, or what is wrong with it, in a few words.
    pub short: String,
    /// All that is wrong with it.
    pub said: Vec<String>,
    pub took: Duration,
}

/// Checks all files, on all cores; each is told in the order given, as soon as those before it are known.
pub fn check(sources: &[Source], strict: bool, mut tell: impl FnMut(Checked) -> io::Result<()>) -> io::Result<()> {
    let (next, stop) = (AtomicUsize::new(0), AtomicBool::new(false));
    let workers = std::thread::available_parallelism().map_or(1, NonZero::get).min(sources.len());
    let (send, receive) = mpsc::channel();
    std::thread::scope(|scope| {
        for _ in 0..workers {
            let (send, next, stop) = (send.clone(), &next, &stop);
            scope.spawn(move || {
                while !stop.load(Ordering::Relaxed) {
                    let i = next.fetch_add(1, Ordering::Relaxed);
                    let Some(source) = sources.get(i) else { break };
                    let _ = send.send((i, checked(*source, strict)));
                }
            });
        }
        drop(send);
        let mut waiting = BTreeMap::new();
        let mut told = 0;
        for (i, checked) in receive {
            waiting.insert(i, checked);
            while let Some(checked) = waiting.remove(&told) {
                told += 1;
                if let Err(error) = tell(checked) {
                    stop.store(true, Ordering::Relaxed);
                    return Err(error);
                }
            }
        }
        Ok(())
    })
}

/// One file.
fn checked(source: Source, strict: bool) -> Checked {
    let begun = Instant::now();
    let file = input::name(source.file).to_string();
    let (exit, short, said) = match outcome(source, strict) {
        Ok(short) => (None, short, Vec::new()),
        Err((Failure { exit, said, shown }, short)) => {
            let short = if exit == Exit::Refused { shown.trim_end().to_string() } else { short };
            (Some(exit), short, said)
        }
    };
    Checked { file, exit, short, said, took: begun.elapsed() }
}

/// What a file has that passes, or why it doesn't, also in a few words.
fn outcome(source: Source, strict: bool) -> Result<String, (Failure, String)> {
    let case = load(source).map_err(|failure| {
        let short = format!("{}, can't be read", many(failure.said.len(), "error", "errors"));
        (failure, short)
    })?;
    let schedule = case.schedule.as_deref().unwrap_or(&[]);
    let ran = proved::run(&case.table, schedule).map_err(|number| (case.refused(number), String::new()))?;
    let mut unmet = unmet_of(&case, &ran);
    let checks = case.unfolded.checks.len();
    if strict && !ran.quiet {
        unmet.push(format!("{}: not quiet at the end", case.schedule_from.file));
    }
    let about = format!("{}, {}", many(checks, "expectation", "expectations"), many(ran.answers.len(), "record", "records"));
    match unmet.len() {
        0 => Ok(about),
        n => Err((Failure::unmet(unmet), format!("{n} failed; {about}"))),
    }
}

/// The code to end with: that of the file that is worst off, one that can't be read before one that is refused before one that fails.
pub fn worst(all: &[Checked]) -> Option<Exit> {
    all.iter().filter_map(|checked| checked.exit).min_by_key(|exit| *exit as u8)
}

/// A line for people.
pub fn line(checked: &Checked, style: Style) -> String {
    let Checked { file, exit, short, .. } = checked;
    let (word, colour) = match exit {
        None => ("ok  ", Colour::Green),
        Some(_) => ("FAIL", Colour::Red),
    };
    format!("{} {file}: {short}\n", style.paint(colour, word))
}

/// A line of TAP, with what is wrong below it.
pub fn tap(checked: &Checked, number: usize) -> String {
    let Checked { file, exit, short, said, .. } = checked;
    let mut text = format!("{} {number} - {}: {short}\n", if exit.is_none() { "ok" } else { "not ok" }, file.replace('#', "\\#"));
    said.iter().for_each(|line| writeln!(text, "# {line}").unwrap());
    text
}

/// All of them as JUnit's XML.
pub fn junit(all: &[Checked]) -> String {
    let failures = all.iter().filter(|checked| checked.exit == Some(Exit::Unmet)).count();
    let errors = all.iter().filter(|checked| checked.exit.is_some()).count() - failures;
    let took: Duration = all.iter().map(|checked| checked.took).sum();
    let mut text = "<?xml version=\"1.0\" encoding=\"UTF-8\"?>\n".to_string();
    let counts =
        format!("tests=\"{}\" failures=\"{failures}\" errors=\"{errors}\" time=\"{:.3}\"", all.len(), took.as_secs_f64());
    writeln!(text, "<testsuites {counts}>\n<testsuite name=\"ks check\" {counts}>").unwrap();
    for checked in all {
        let (file, short) = (xml(&checked.file), xml(&checked.short));
        write!(text, "<testcase classname=\"ks check\" name=\"{file}\" time=\"{:.3}\"", checked.took.as_secs_f64()).unwrap();
        let kind = match checked.exit {
            None => {
                text += "/>\n";
                continue;
            }
            Some(Exit::Unmet) => "failure",
            Some(_) => "error",
        };
        writeln!(text, "><{kind} message=\"{short}\">{}</{kind}></testcase>", xml(&checked.said.join("\n"))).unwrap();
    }
    text + "</testsuite>\n</testsuites>\n"
}

/// Text within XML: what can't stand there is `?`.
fn xml(text: &str) -> String {
    let mut safe = String::new();
    for c in text.chars() {
        match c {
            '&' => safe += "&amp;",
            '<' => safe += "&lt;",
            '>' => safe += "&gt;",
            '"' => safe += "&quot;",
            '\n' => safe.push(c),
            c if c.is_control() || matches!(c, '\u{fffe}' | '\u{ffff}') => safe.push('?'),
            c => safe.push(c),
        }
    }
    safe
}
