//! Prints what `crates/bench_cases` is to print: the same inputs, made here from tables and records instead of bytes, and the pages that
//! the independent simulator gives. Its output is that crate's file `stdout`.
use outside::rules::generate::{encode_schedule, encode_table};
use outside::rules::page::page;
use outside::rules::reader::{Channel, Instruction, Process, Record, Table, OUTSIDE, TABLE_LENGTH};
use outside::rules::sample::SAMPLE;
use std::io::Write;

/// 16 boards, 16 processes of 64 instructions, 32 channels: one from the outside to each process, and one from each to the next. In version
/// 2 process p has the limit p + 1.
fn large_table(version: u8) -> Vec<u8> {
    let fed = (0..16).map(|p| Channel { sender: OUTSIDE, reader: p });
    let next = (0..16).map(|p| Channel { sender: p, reader: (p + 1) % 16 });
    let processes = (0..16u8)
        .map(|p| {
            let mask = 1 << p | 1 << (16 + (p + 15) % 16);
            let program = (0..64u32)
                .map(|j| match j % 4 {
                    0 => Instruction::First { a: 0, mask },
                    1 => Instruction::Add { a: 2, b: 0 },
                    2 => Instruction::Send { a: 2, channel: 16 + p },
                    _ if j == 63 => Instruction::Jump { a: 2, place: 0 },
                    _ => Instruction::Set { a: 3, word: j },
                })
                .collect();
            Process::new(p, (p + 1) % 16, program)
        })
        .collect();
    let mut table = Table::new(16, fed.chain(next).collect());
    table.processes = processes;
    encode_table(&if version == 1 { table } else { table.limited(|p| p as u8 + 1) })
}

/// Records without end, as the cases have them.
fn records() -> impl Iterator<Item = Record> {
    (0..).map(|r: u32| {
        let h = (r % 65536 * 7919 + 31) % 65521;
        let some = h / 16;
        let (kind, a) = match h % 16 {
            _ if r % 1000 == 999 => (5, some % 17),
            0..=8 => (1, some % 17),
            9 | 10 => (3, some % 17),
            11 => (2, some % 17),
            _ => (4, some % 33),
        };
        let word = [2, 3, 4, 5].map(|byte| (h + 64 * byte) as u8);
        Record { kind, a: a as u8, word: if kind == 4 { u32::from_be_bytes(word) } else { 0 } }
    })
}

/// A table, and a schedule with this length field and as long as anyone likes.
fn input(table: &[u8], field: u16) -> Vec<u8> {
    let mut schedule = encode_schedule(&records().take(12_000).collect::<Vec<_>>());
    schedule[..2].copy_from_slice(&field.to_be_bytes());
    [table, &schedule].concat()
}

/// How many bytes the program is to read: the length bytes; after them the table and 60,004 bytes, unless the table is too long.
fn wants(input: &[u8]) -> usize {
    match input {
        [high, low, ..] => match u16::from_be_bytes([*high, *low]) as usize {
            length @ 0..=TABLE_LENGTH => 2 + length + 60_004,
            _ => 2,
        },
        _ => 2,
    }
}

/// A number that all bytes make.
fn checksum(bytes: &[u8]) -> u64 {
    bytes.iter().fold(0, |sum, &byte| (sum * 31 + byte as u64) % 4_294_967_291)
}

fn case(name: &str, input: &[u8]) {
    println!("{name}: wants {}", wants(input));
    let page = page(input);
    if page.len() < 2000 {
        print!("{page}");
    } else {
        println!("length {} sum {}", page.len(), checksum(page.as_bytes()));
    }
    // with a folder as argument each input and its page are put there, for a run of the program itself
    if let Some(folder) = std::env::args().nth(1) {
        let write = |kind: &str, bytes: &[u8]| {
            let path = format!("{folder}/{}.{kind}", name.replace([' ', ','], "_"));
            std::fs::File::create(path).and_then(|mut file| file.write_all(bytes)).expect("the folder can be written");
        };
        write("stdin", input);
        write("stdout", page.as_bytes());
    }
}

/// The first bytes of an input, one of them changed.
fn changed(mut input: Vec<u8>, at: usize, byte: u8, length: usize) -> Vec<u8> {
    input[at] = byte;
    input.truncate(length);
    input
}

fn main() {
    let (large, limited) = (large_table(1), large_table(2));
    let short = input(&SAMPLE, 61);

    let empty = input(&SAMPLE, 1);
    case("no input", &[]);
    case("one byte", &empty[..1]);
    case("two bytes", &empty[..2]);
    case("a table less a byte", &empty[..36]);
    case("a table", &empty[..37]);
    case("two bytes of schedule", &empty[..39]);
    case("no records", &empty[..40]);
    case("a schedule less a byte", &short[..99]);
    case("ten records", &short[..100]);
    case("a byte behind them", &short[..101]);

    case("length 00 22", &changed(short.clone(), 1, 34, 100));
    case("length 00 24", &changed(short.clone(), 1, 36, 100));
    case("length 3", &changed(short.clone(), 1, 3, 100));
    case("length 4", &changed(short.clone(), 1, 4, 100));
    case("length 6261", &changed(input(&large, 61), 1, 117, 6325));
    case("length 6276 of version 1", &changed(input(&large, 61), 1, 132, 6341));
    case("length 6277", &changed(input(&limited, 61), 1, 133, 6341));
    case("length 6277 and no more", &changed(input(&limited, 61), 1, 133, 2));
    case("length 6276 and no more", &limited[..2]);
    case("length 65280", &changed(short.clone(), 0, 255, 100));
    case("version 9", &changed(short.clone(), 2, 9, 100));
    case("version 2 with a head of 3", &changed(short.clone(), 2, 2, 100));
    case("version 1 with a head of 4", &changed(input(&limited, 61), 2, 1, 6341));

    case("version 2 of the schedule", &changed(short, 39, 2, 100));
    case("60003 bytes of schedule", &input(&SAMPLE, 60_001)[..60_040]);
    case("60004, length as it was", &input(&SAMPLE, 60_001)[..60_041]);
    case("60004, length true", &input(&SAMPLE, 60_002)[..60_041]);
    case("60004 and code 7", &changed(input(&SAMPLE, 60_002), 13, 7, 60_041));
    case("60009, length true", &input(&SAMPLE, 60_007)[..60_046]);
    case("69963 bytes", &input(&SAMPLE, 60_001)[..70_000]);

    case("16 processes", &input(&large, 1)[..6265]);
    case("16 processes and 9999 records", &input(&large, 59_995)[..66_259]);
    case("16 processes and 10000 records", &input(&large, 60_001)[..66_265]);
    case("and a byte more", &input(&large, 60_001)[..66_266]);
    case("and a word more", &input(&large, 60_007)[..66_271]);

    case("limits 1 to 16", &input(&limited, 1)[..6281]);
    case("limits 1 to 16 and 10000 records", &input(&limited, 60_001)[..66_281]);
    case("limits 1 to 16 and a byte more", &input(&limited, 60_001)[..66_282]);
    case("limit 0", &changed(input(&limited, 61), 72, 0, 6341));
    case("limit 17", &changed(input(&limited, 61), 5892, 17, 6341));
    case("limit 17 and 60004 bytes", &changed(input(&limited, 60_002), 5892, 17, 66_282));
}
