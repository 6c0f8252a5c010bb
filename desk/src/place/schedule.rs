//! What is wrong with a schedule that is refused, by the number that refuses it: 9, 10, and 52 of a sweep.
use super::{Fault, Spot};
use crate::records::RECORDS_MOST;
use kunzeastylus::Move;

/// Records that a swept schedule has at most.
const SWEPT_MOST: usize = 500;

/// All that is wrong with a schedule's bytes for which this number refuses it.
pub fn of_bytes(schedule: &[u8], number: u8) -> Vec<Fault> {
    let found = match number {
        9 => length(schedule),
        10 => {
            let version = schedule.get(2).copied().unwrap_or(0);
            vec![(Spot::ScheduleVersion, format!("the schedule's version is {version}, and there is 1"))]
        }
        52 => swept(schedule),
        _ => Vec::new(),
    };
    found.into_iter().map(|(spot, what)| Fault { number, spot, what }).collect()
}

/// 9: how long it is and how long it says that it is.
fn length(schedule: &[u8]) -> Vec<(Spot, String)> {
    let bytes = schedule.len();
    if bytes < 3 {
        let there = if bytes == 0 { "there is no schedule".to_string() } else { format!("the schedule has {bytes} bytes") };
        return vec![(Spot::ScheduleLength, format!("{there}, and at least 3 bytes are wanted"))];
    }
    let says = usize::from(u16::from_be_bytes([schedule[0], schedule[1]]));
    let (records, over) = ((bytes - 3) / 6, (bytes - 3) % 6);
    let mut found = Vec::new();
    if records > RECORDS_MOST {
        let what = format!("the schedule has {records} records, and {RECORDS_MOST} are the most");
        found.push((Spot::Record(RECORDS_MOST), what));
    } else if says != bytes - 2 {
        found.push((Spot::ScheduleLength, format!("the length field says {says}, {} bytes follow", bytes - 2)));
    }
    if over > 0 {
        found.push((Spot::Record(records), format!("record {} has {over} bytes, and a record has 6", records + 1)));
    }
    found
}

/// 52: why a sound schedule isn't swept.
fn swept(schedule: &[u8]) -> Vec<(Spot, String)> {
    let records = schedule.len() / 6;
    let first = |kind| schedule[3..].chunks_exact(6).position(|record| Move::try_from(record[0]) == Ok(kind));
    let crash = first(Move::Crash).map(|i| {
        let what = format!("record {} is a crash; a sweep puts its own at every place, so leave out all of them", i + 1);
        (Spot::Record(i), what)
    });
    let back = first(Move::Back).map(|i| {
        let what =
            format!("record {} is a back, which could take back the crash; leave out all of them and what they take back", i + 1);
        (Spot::Record(i), what)
    });
    let long = (records > SWEPT_MOST).then(|| {
        let what = format!("the schedule has {records} records and a sweep takes at most {SWEPT_MOST}, so sweep parts of it");
        (Spot::Record(SWEPT_MOST), what)
    });
    [crash, back, long].into_iter().flatten().collect()
}
