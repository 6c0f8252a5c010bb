//! The proved writer of tables against one written from the documents: `writer_tests [--runs N] [--seed N] [--all-met]`.
//!
//! Random sound lists and damaged ones, with buffers around what is enough; random tables, sound and damaged, taken apart into lists with
//! room around what is enough; and whatever comes apart is written again.
mod call;
mod lists;

use call::{ks_table_apart, ks_table_write};
use lists::Lists;
use outside::met::all_met;
use outside::options::number;
use outside::random::Random;
use outside::rules::damage::{damage_table, Damage};
use outside::rules::generate::{encode_table, largest, table};
use outside::rules::reader::judge_table;

const SEED: u64 = 0x9E37_79B9_7F4A_7C15;
const RUNS: u32 = 250_000;

/// How often each number was seen, of writing and of taking apart.
struct Seen([[u32; 48]; 2]);

fn fail(what: &str, lists: &Lists) -> ! {
    println!("{what}: {lists:?}\nwriter: FAILED");
    std::process::exit(1);
}

impl Seen {
    /// Lists and a buffer of so many bytes, by both writers; the table, where there is one.
    fn write(&mut self, lists: &Lists, table: Option<&[u8]>, room: usize) {
        let before: Vec<u8> = (0..room).map(|i| (i * 7 + 3) as u8).collect();
        let mut out = before.clone();
        let result = ks_table_write(lists, &mut out);
        let number = lists.number();
        let length = table.map_or(0, |table| table.len());
        let number = if number == 0 && length > room { 45 } else { number };
        self.0[0][number as usize] += 1;
        let mut wanted = before;
        let mut returned = number as u64;
        if number == 0 {
            let table = table.unwrap_or_else(|| fail("no table to compare with", lists));
            wanted[..length].copy_from_slice(table);
            returned |= (length as u64) << 32;
        }
        if result != returned {
            fail(&format!("returned {result:#x}, {returned:#x} wanted, with room for {room}"), lists);
        }
        if out != wanted {
            fail(&format!("another buffer, with room for {room}"), lists);
        }
    }

    /// A table taken apart into lists with so much room, and those written again.
    fn apart(&mut self, table: &[u8], lists: &Lists, spare: [i32; 4]) {
        let before: [Vec<u32>; 4] =
            std::array::from_fn(|i| vec![0xABCD_0000 + i as u32; (lists.lists[i].len() as i32 + spare[i]).max(0) as usize]);
        let mut lent = before.clone();
        let result = ks_table_apart(table, &mut lent);
        let number = match judge_table(table) {
            Err(number) => number,
            _ if (0..4).any(|i| lent[i].len() < lists.lists[i].len()) => 45,
            _ => 0,
        };
        self.0[1][number as usize] += 1;
        let [boards, processes, channels] = lists.counts.map(u64::from);
        let mut wanted = before;
        let mut returned = number as u64;
        if number == 0 {
            (0..4).for_each(|i| wanted[i][..lists.lists[i].len()].copy_from_slice(&lists.lists[i]));
            returned |= boards << 8 | processes << 16 | channels << 24 | (lists.lists[3].len() as u64 / 3) << 32;
            returned |= (lists.version as u64) << 48;
        }
        if result != returned || lent != wanted {
            fail(&format!("taken apart with {spare:?} to spare: {result:#x}, {returned:#x} wanted"), lists);
        }
        if number == 0 {
            self.write(lists, Some(table), table.len());
        }
    }

    fn report(&self) -> bool {
        let wanted: [&[usize]; 2] = [&[0, 2, 3, 4, 5, 6, 7, 8, 47, 45], &[0, 1, 2, 3, 4, 5, 6, 7, 8, 47, 45]];
        let mut whole = true;
        for (row, name) in ["written", "taken apart"].iter().enumerate() {
            print!("{name:>12}");
            for &number in wanted[row] {
                print!("  {number}: {}", self.0[row][number]);
                whole &= self.0[row][number] != 0;
            }
            println!("  all: {}", self.0[row].iter().sum::<u32>());
        }
        whole
    }
}

fn main() {
    let runs = number("--runs").map_or(RUNS, |runs| u32::try_from(runs).expect("--runs takes a smaller number"));
    let seed = number("--seed").unwrap_or(SEED);
    println!("writer: seed {seed:#x}, {runs} runs");
    let mut random = Random::new(seed);
    let mut seen = Seen([[0; 48]; 2]);
    for run in 0..runs {
        let said = if run == 0 { largest(&mut random) } else { table(&mut random) };
        let (lists, bytes) = (Lists::of(&said), encode_table(&said));
        match random.below(4) {
            0 => {
                let room = bytes.len().saturating_sub(random.below(2) as usize) + random.pick(&[0, 0, 1, 9]);
                seen.write(&lists, Some(&bytes), room);
            }
            1 => {
                let mut damaged = lists.damaged(&mut random);
                if random.once_in(3) {
                    damaged = damaged.damaged(&mut random);
                }
                let again = written(&damaged);
                seen.write(&damaged, again.as_deref(), random.pick(&[0, 6_278, 6_278, 7_000]));
            }
            2 => seen.apart(&bytes, &lists, std::array::from_fn(|_| random.below(4) as i32 - 1)),
            _ => {
                let mut bytes = bytes;
                let at = random.below(bytes.len() as u32) as usize;
                bytes[at] = random.word() as u8;
                if random.once_in(4) {
                    bytes = damage_table(&mut random, encode_table(&said), Damage::Heads);
                }
                let lists = Lists::of(&judge_table(&bytes).unwrap_or(said));
                seen.apart(&bytes, &lists, [0; 4]);
            }
        }
    }
    all_met("writer", seen.report());
    println!("writer: ok, every number and every table as by the encoder");
}

/// The bytes of lists, written from documents 01 and 02, if they are accepted.
fn written(lists: &Lists) -> Option<Vec<u8>> {
    (lists.number() == 0).then(|| {
        let [ends, placements, limits, instructions] = &lists.lists;
        let mut body = vec![lists.version as u8];
        body.extend(lists.counts.iter().map(|&count| count as u8));
        body.extend(ends.iter().map(|&end| end as u8));
        let mut own = instructions.chunks(3);
        let mut limits = limits.iter();
        for placement in placements.chunks(3) {
            body.extend(placement[..2].iter().map(|&number| number as u8));
            body.extend(limits.next().map(|&limit| limit as u8));
            body.push(placement[2] as u8);
            for i in own.by_ref().take(placement[2] as usize) {
                body.extend([i[0] as u8, i[1] as u8]);
                body.extend(i[2].to_be_bytes());
            }
        }
        let mut bytes = (body.len() as u16).to_be_bytes().to_vec();
        bytes.extend(body);
        bytes
    })
}
