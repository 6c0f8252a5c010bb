//! What `ks` is made of: its commands, how they are called and how they end, how they read what they are given, cabinets and schedules in
//! words, where a refusal has its place, expectations, a run in words and record by record, its plain run and its picture, and every place
//! to pull a board.
#![forbid(unsafe_code)]

pub mod args;
pub mod bench;
pub mod case;
pub mod check;
pub mod command;
pub mod compare;
pub mod expect;
pub mod explain;
pub mod failure;
pub mod follow;
pub mod form;
pub mod hex;
pub mod hexed;
pub mod input;
pub mod json;
pub mod ks;
pub mod lists;
pub mod output;
pub mod picture;
pub mod place;
pub mod plain;
pub mod played;
pub mod progress;
pub mod proved;
pub mod records;
pub mod settle;
pub mod step;
pub mod sweep;
pub mod told;
pub mod words;
