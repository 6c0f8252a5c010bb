//! Documents 01 and 02 in Rust, written from their text and from nothing else: no line here was taken from the proved code or its
//! definitions. Names are the documents' own, so that each line can be held against its sentence.

pub mod answer;
pub mod backup;
pub mod busy;
pub mod damage;
pub mod generate;
pub mod going_back;
pub mod lent;
pub mod limits;
pub mod line;
pub mod loops;
pub mod origins;
pub mod page;
pub mod plain;
pub mod progress;
pub mod reader;
pub mod reasons;
pub mod repairs;
pub mod run;
pub mod sample;
pub mod session;
pub mod simulator;
pub mod sweep;
pub mod tables;
pub mod view;

#[cfg(test)]
mod marked;
#[cfg(test)]
mod returns;
#[cfg(test)]
mod runs;
#[cfg(test)]
mod taken_back;
