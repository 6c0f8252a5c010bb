//! The witness: of an accepted run the plain run that demand 3 says exists, in words beside our records, as a list of moves, or with the
//! whole run for `docs/witness.py`. It is checked from nothing before it is shown.
mod cabinet;
mod check;
mod show;
mod witness;

use crate::played::Played;
pub use cabinet::{Did, Machine, Plain, PlainMove, Refused};
pub use check::{check, unread, Fault, Held, Inboxes};
pub use show::json;
pub use witness::{find, Beside};

/// How the plain run is wanted.
#[derive(Clone, Copy, Debug, PartialEq, Eq)]
pub enum Form {
    /// In words, beside our records.
    Words,
    /// `feed CHANNEL WORD` and `step PROCESS`, one a line.
    Moves,
    /// One line of JSON: table, schedule, answers with origins, report, unread words, quiet, and the plain run.
    Json,
}

/// The plain run of an accepted run. A fault is one of ours: what demand 3 says would not hold.
pub fn plain(played: &Played, form: Form) -> Result<String, Fault> {
    let found = find(played)?;
    let moves: Vec<PlainMove> = found.iter().map(|beside| beside.plain).collect();
    let inboxes = unread(played);
    let held = check(played, &inboxes, &moves)?;
    Ok(match form {
        Form::Words => show::words(played, &found, &held),
        Form::Moves => show::moves(&moves),
        Form::Json => json(played, &inboxes, &moves),
    })
}
