//! The proved calls for programs in Rust. All numbers are the documents'; docs/NUMBERS.md has each in a line.
//!
//! - A run: [`Cabinet::new`] takes a table, [`Cabinet::run`] a schedule ([`Record::schedule`]), and a [`Run`] has answers, bus order and report.
//!   [`run`] does the same in lent buffers ([`Buffers`]) and allocates nothing; [`judge`] says by which number it would be refused.
//! - Every place to pull a board: [`Cabinet::sweep`], [`sweep`]. The whole cabinet after a run: [`Cabinet::view`], [`view`].
//! - Tables written and taken apart: by a builder ([`Table`]), or as lists of numbers ([`Lists`]).
//! - The backup record: [`Backup`]. The label line: [`Cabinet::label_line`], [`label_run`], [`labels`].
//!
//! What is refused is an error ([`Refusal`], [`BackupRefusal`]), which says its number and what that means. The calls keep nothing between them and
//! ask nothing of their caller: any bytes, any lengths. Each first compares the library that is linked with what is declared here ([`check_abi`]),
//! and panics where they differ.
//!
//! ```
//! use kunzeastylus::{Cabinet, End, Operation, Record, Refusal, Table};
//!
//! # fn main() -> Result<(), Refusal> {
//! let mut table = Table::new(2);
//! let scans = table.channel(End::Outside, End::Process(0));
//! let labels = table.channel(End::Process(0), End::Outside);
//! let take = Operation::Take { register: 0, channel: scans };
//! let process = table.process(0, 1, &[take, Operation::Send { register: 0, channel: labels }]);
//!
//! let step = Record::step(process);
//! let run = Cabinet::try_from(&table)?.run(&Record::schedule(&[Record::feed(scans, 77), step, step, Record::carry(0)]))?;
//! assert!(run.quiet);
//! assert_eq!(run.bus().map(|on_the_bus| on_the_bus.channel).collect::<Vec<_>>(), [scans, labels]);
//! # Ok(())
//! # }
//! ```
#![deny(unsafe_code)]

mod abi;
mod answer;
mod backup;
mod buffers;
mod cabinet;
pub mod calls;
mod fate;
mod label;
mod lists;
mod numbers;
mod record;
mod refusal;
mod run;
mod sweep;
pub mod sys;
mod table;
mod view;

pub use abi::{check_abi, OtherLibrary, ABI};
pub use answer::{Answer, BusWord, Code, Reason};
pub use backup::{Backup, BackupRefusal, Snapshot, Synced, HEAD, SAVED};
pub use buffers::{Buffers, Lengths};
pub use cabinet::Cabinet;
pub use fate::Fate;
pub use label::{label_run, label_table, labels, Label, LABEL_TABLE, OUTLET, SCANNER};
pub use lists::{take_apart, write_table, Apart, Counts, Lists, TABLE_MOST};
pub use numbers::UnknownNumber;
pub use record::{Instruction, Move, Record, OUTSIDE};
pub use refusal::Refusal;
pub use run::{judge, run, ProcessEnd, Run};
pub use sweep::{sweep, Sweep};
pub use table::{End, Operation, Process, Table, LIMIT};
pub use view::{
    view, BackupState, BackupView, BoardView, Entry, EntryView, ProcessView, SavedWord, UnreadWord, View, QUEUE_MOST, VIEW,
    WORDS_MOST,
};

/// The release of these bindings, `KS_VERSION` of the header. Every front prints it for `--version`.
pub const VERSION: &str = env!("CARGO_PKG_VERSION");
