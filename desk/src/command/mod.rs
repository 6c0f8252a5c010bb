//! The commands of `ks`: one module and one line each. A command's help is desk/help/NAME.txt, and desk/help/ks.txt lists its line too.
use crate::ks::Command;

mod check;
mod compare;
mod explain;
mod hex;
mod label;
mod picture;
mod plain;
mod run;
mod step;
mod sweep;
mod table;
mod words;

/// A command whose module has its name.
macro_rules! command {
    ($name:ident, $line:literal) => {
        Command {
            name: stringify!($name),
            line: $line,
            help: include_str!(concat!("../../help/", stringify!($name), ".txt")),
            work: $name::work,
        }
    };
}

/// All of them, in the order in which `ks --help` lists them.
pub const COMMANDS: &[Command] = &[
    command!(run, "the page of a run, or its answers as JSON, or its bus order"),
    command!(check, "the expectations of files: how a release passes"),
    command!(compare, "two runs side by side, and the first difference"),
    command!(hex, "a cabinet and a schedule as hex text, or as bytes"),
    command!(words, "a cabinet and a schedule in words"),
    command!(explain, "a run in words: each record, its answer and why, and each end"),
    command!(step, "a run record by record, forward and back"),
    command!(picture, "a run to look at: a page, or an SVG file"),
    command!(plain, "the plain run that has the same words in the same order"),
    command!(sweep, "every place to pull a board, and how these runs end"),
    command!(table, "a table from lists of numbers, and back"),
    command!(label, "the labels of the label line"),
];
