//! Standstills and the longest roll-forward, by hand.
use crate::led::Led;
use outside::rules::progress::{halted_reader, upward, Standing, Wanted, STEPS_MOST};
use outside::rules::reader::Instruction::{Jump, Send, Set, Take};
use outside::rules::reader::{Channel, Instruction, Process, Record, Table, OUTSIDE};
use outside::rules::sample::{carry, crash, step, sync};

fn table(ends: &[(u8, u8)], programs: &[&[Instruction]]) -> Table {
    let mut table = Table::new(2, ends.iter().map(|&(sender, reader)| Channel { sender, reader }).collect());
    let placed = programs.iter().zip(0..).map(|(program, p)| Process::new(p % 2, (p + 1) % 2, program.to_vec()));
    table.processes.extend(placed);
    table
}

fn led<'t>(table: &'t Table, parts: &[&[Record]]) -> Led<'t> {
    let mut led = Led::new(table);
    parts.concat().into_iter().for_each(|record| {
        led.lead(record);
    });
    led
}

/// A standstill in which the step of process 0 has this answer, whatever is tried; a sync is done, and then its step is answered 39.
fn stands(mut led: Led, code: u8) {
    assert_eq!(led.standing(), Standing::Standstill);
    led.give(&[(step(0), Wanted::Code(code))]);
    led.probe(Standing::Standstill);
    led.give(&[(sync(0), Wanted::Done), (step(0), Wanted::Code(39)), (carry(0), Wanted::Done), (step(0), Wanted::Code(39))]);
    led.check();
}

pub fn check() {
    let send = Send { a: 0, channel: 0 };
    let nine = [&[send; 9][..], &[Send { a: 0, channel: 1 }]].concat();
    let wants_the_other = [&[Take { a: 0, channel: 1 }][..], &[Take { a: 0, channel: 0 }; 9]].concat();
    // Nine words to a process that wants one on another channel first; eight go through.
    let other_first = table(&[(0, 1), (0, 1)], &[&nine, &wants_the_other]);
    stands(led(&other_first, &[&[step(0); 8], &[step(0), sync(0)], &[carry(0); 9]]), 39);
    // The same with a limit of 4: the process owes a sync as well, and 37 is answered first. So a standstill goes by the state.
    let limited = other_first.clone().limited(|_| 4);
    stands(led(&limited, &[&[step(0); 4], &[sync(0)], &[step(0); 4], &[carry(0); 9]]), 37);
    // Nine words to itself.
    let own = table(&[(0, 0)], &[&[send; 9]]);
    stands(led(&own, &[&[step(0); 8], &[sync(0)], &[carry(0); 9]]), 39);
    // Words go upward, and the reader has halted with 8 unread.
    let round = [Set { a: 3, word: 1 }, send, Jump { a: 3, place: 1 }];
    let halted = table(&[(0, 1)], &[&round, &[]]);
    let halts = led(&halted, &[&[step(0); 16], &[sync(0)], &[carry(0); 9], &[step(0)]]);
    assert!(upward(&halted) && !upward(&other_first) && !upward(&own) && halted_reader(&halted, &halts.cabinet));
    stands(halts, 39);
    // 63 instructions and a SEND whose word is carried before the crash: all 64 steps are needed.
    let long = table(&[(0, OUTSIDE)], &[&[&[Set { a: 0, word: 5 }; 63][..], &[send]].concat()]);
    let mut longest = led(&long, &[&[step(0); 64], &[carry(0), crash(0)]]);
    assert_eq!(longest.level(), [STEPS_MOST]);
    longest.check();
}
