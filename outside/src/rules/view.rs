//! The whole cabinet as numbers, in the layout of docs/FORMATS.md ("View"), from the simulator's growing lists.
use super::backup::Message;
use super::lent::Lent;
use super::reader::{judge_run, record};
use super::session::Session;
use super::simulator::{Cabinet, Entry, Process, Waiting};

/// How many numbers a view has.
pub const VIEW: usize = 11_187;

const PROCESSES: usize = 16;
const BOARDS: usize = 16;
const CHANNELS: usize = 32;
const WORDS: usize = 64;
const QUEUE: usize = 32;
const BACKUP: usize = 9 + 2 * WORDS;
const PROCESS: usize = 14 + 2 * WORDS + BACKUP;
const ENTRY: usize = 13;
const BOARD: usize = 2 + ENTRY * QUEUE;

/// A list of so many numbers, zeros behind those that there are.
fn padded(mut numbers: Vec<u32>, length: usize) -> Vec<u32> {
    assert!(numbers.len() <= length, "{} numbers for a place of {length}", numbers.len());
    numbers.resize(length, 0);
    numbers
}

/// Two numbers for each word of a list.
fn pairs<'a>(list: impl Iterator<Item = &'a Message>, pair: impl Fn(&Message) -> [u32; 2]) -> Vec<u32> {
    padded(list.flat_map(pair).collect(), 2 * WORDS)
}

/// A backup, or the one that a waiting resync makes: its snapshot and copies, and what has arrived since.
fn backup(process: &Process, queue: impl Iterator<Item = Entry>, p: usize) -> Vec<u32> {
    let of_words = |words: &[Message]| pairs(words.iter(), |message| [message.slot.into(), message.word]);
    if let Some(backup) = &process.backup {
        let mut numbers = vec![1, backup.board.into(), backup.place.into()];
        numbers.extend(backup.registers);
        numbers.extend([backup.count.into(), backup.saved.len() as u32]);
        numbers.extend(of_words(&backup.saved));
        return numbers;
    }
    let Waiting::Resync { arrived } = &process.waiting else { return vec![0; BACKUP] };
    let of_p = |entry| match entry {
        Entry::Resync { process, snapshot, copies } if process as usize == p => Some((snapshot, copies)),
        _ => None,
    };
    let (snapshot, copies) = queue.filter_map(of_p).next().expect("the resync waits in its board's queue");
    let saved = [copies, arrived.clone()].concat();
    let mut numbers = vec![2, process.other_board().into(), snapshot.place.into()];
    numbers.extend(snapshot.registers);
    numbers.extend([0, saved.len() as u32]);
    numbers.extend(of_words(&saved));
    numbers
}

fn entry(entry: &Entry) -> Vec<u32> {
    let numbers = match entry {
        Entry::Word { channel, word, origin } => vec![1, (*channel).into(), *word, 0, origin.place.into()],
        Entry::Sync { process, snapshot } => {
            [&[2, 0, 0, (*process).into(), snapshot.place.into()][..], &snapshot.registers, &snapshot.taken].concat()
        }
        Entry::Resync { process, .. } => vec![3, 0, 0, (*process).into()],
    };
    padded(numbers, ENTRY)
}

impl Cabinet<'_> {
    fn process_numbers(&self, p: usize) -> Vec<u32> {
        let process = &self.processes[p];
        let mut numbers = vec![process.board.into(), process.place.into()];
        numbers.extend(process.registers);
        numbers.extend([process.hold_back.into(), process.acts, process.instructions]);
        numbers.extend(process.taken);
        numbers.push(process.inbox.len() as u32);
        numbers.extend(pairs(process.inbox.iter(), |message| [message.channel.into(), message.word]));
        numbers.extend(backup(process, self.queues[process.board as usize].iter().cloned(), p));
        padded(numbers, PROCESS)
    }

    fn board_numbers(&self, board: usize) -> Vec<u32> {
        let queue = &self.queues[board];
        let mut numbers = vec![self.dead[board].into(), queue.len() as u32];
        numbers.extend(queue.iter().flat_map(entry));
        padded(numbers, BOARD)
    }

    /// The whole cabinet.
    pub fn view(&self) -> Vec<u32> {
        let counts = [self.dead.len(), self.processes.len(), self.totals.len()].map(|count| count as u32);
        let processes = (0..self.processes.len()).flat_map(|p| self.process_numbers(p)).collect();
        let boards = (0..self.dead.len()).flat_map(|board| self.board_numbers(board)).collect();
        let view = [
            counts.to_vec(),
            padded(processes, PROCESSES * PROCESS),
            padded(boards, BOARDS * BOARD),
            padded(self.totals.clone(), CHANNELS),
        ]
        .concat();
        assert_eq!(view.len(), VIEW);
        view
    }
}

/// The number by which a view of any bytes is refused, or 0, with the lent list afterwards.
pub fn view_into(table: &[u8], schedule: &[u8], out: &mut [u32]) -> u32 {
    // "1 to 10 as for a run": of one whose buffers are long enough.
    let (table, records) = match judge_run(table, schedule, Lent::all(usize::MAX)) {
        Ok(judged) => judged,
        Err(number) => return number.into(),
    };
    if out.len() < VIEW {
        return 54;
    }
    let mut session = Session::new(&table);
    records.chunks_exact(6).for_each(|bytes| {
        session.answer(record(bytes));
    });
    out[..VIEW].copy_from_slice(&session.cabinet.view());
    0
}
