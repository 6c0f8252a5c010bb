//! Generated runs for `docs/witness.py`, one a line, as `ks plain --json` prints a run: `witnesses RUNS SEED`. With `damaged` behind
//! them, one thing of each run is changed, so that no plain run explains it, or of the plain run, so that it doesn't.
use desk::explain::Input;
use desk::plain::{check, find, json, unread, Inboxes, PlainMove};
use desk::played::Played;
use kunzeastylus::{Answer, End};
use outside::random::Random;
use outside::rules::generate::{encode_schedule, encode_table, schedule, table};
use outside::rules::going_back::going_back;
use outside::rules::loops::loops;
use outside::rules::repairs::{crash_after_crash, row};

/// Any table and schedule; every third a row of programs with crash after crash, which ends quiet; every second with records taken back.
fn some_run(random: &mut Random, i: usize) -> Input {
    let table = match i % 6 {
        0 | 3 => row(random),
        1 => loops(random),
        _ => table(random),
    };
    let most = random.pick(&[0, 1, 20, 60, 150, 400]);
    let records = match i % 3 {
        0 => crash_after_crash(random, &table, i % 5, most),
        _ => schedule(random, &table, most),
    };
    let records = if i.is_multiple_of(2) { going_back(random, &table, records, 10_000) } else { records };
    Input { table: encode_table(&table), schedule: encode_schedule(&records) }
}

/// Changes one thing that a plain run decides; false where the run has no such thing.
fn damage(random: &mut Random, played: &mut Played, inboxes: &mut Inboxes, moves: &mut Vec<PlainMove>) -> bool {
    let on_the_bus: Vec<usize> = played.standing().filter(|&i| played.ran.answers[i].bus.is_some()).collect();
    let steps: Vec<usize> = (0..moves.len()).filter(|&i| matches!(moves[i], PlainMove::Step { .. })).collect();
    match random.below(5) {
        0 if played.ran.quiet => {
            let p = random.below(played.ran.ends.len() as u32) as usize;
            played.ran.ends[p].registers[3] ^= 1;
        }
        4 if played.ran.quiet && inboxes.iter().any(|inbox| !inbox.is_empty()) => {
            let waiting: Vec<usize> = (0..inboxes.len()).filter(|&p| !inboxes[p].is_empty()).collect();
            inboxes[random.pick(&waiting)][0].1 ^= 1;
        }
        1 if !steps.is_empty() => {
            moves.remove(random.pick(&steps));
        }
        _ if on_the_bus.is_empty() => return false,
        2 => {
            let Answer { word, bus: Some(bus), .. } = &mut played.ran.answers[random.pick(&on_the_bus)] else { return false };
            (*word, bus.word) = (*word ^ 1, bus.word ^ 1);
        }
        _ => {
            let Answer { bus: Some(bus), .. } = &mut played.ran.answers[random.pick(&on_the_bus)] else { return false };
            match bus.sender {
                End::Process(_) => bus.place ^= 1,
                End::Outside => bus.sender = End::Process(0),
            }
        }
    }
    true
}

fn main() {
    let arguments: Vec<String> = std::env::args().skip(1).collect();
    let number = |i: usize| arguments.get(i).and_then(|n| n.parse::<u64>().ok()).expect("usage: witnesses RUNS SEED [damaged]");
    let damaged = arguments.get(2).is_some_and(|word| word == "damaged");
    let mut random = Random::new(number(1));
    for i in 0..number(0) as usize {
        let input = some_run(&mut random, i);
        let mut played = Played::of(input).expect("a sound run");
        let mut moves: Vec<PlainMove> = find(&played).expect("a plain run").iter().map(|beside| beside.plain).collect();
        let mut inboxes = unread(&played);
        check(&played, &inboxes, &moves).unwrap_or_else(|fault| panic!("run {i}: {fault}"));
        if !damaged {
            print!("{}", json(&played, &inboxes, &moves));
        } else if damage(&mut random, &mut played, &mut inboxes, &mut moves) {
            assert!(check(&played, &inboxes, &moves).is_err(), "run {i}: what was changed is not seen");
            print!("{}", json(&played, &inboxes, &moves));
        }
    }
}
