//! Cabinets and schedules in words: the samples give the same bytes as their hex text, what is printed is read back, and a damaged text never
//! panics and always names a line.
mod common;

use common::{ks, printed, read, ROOT};
use desk::case::{load_any, Source};
use desk::form::parser::parse;
use desk::input::Kind;
use outside::random::Random;
use outside::rules::generate::{encode_schedule, encode_table, schedule, table};
use outside::rules::going_back::going_back;
use std::path::PathBuf;

const SEED: u64 = 0x2545_F491_4F6C_DD1D;

/// The samples that are there in words and as hex text.
fn samples() -> Vec<String> {
    let both = |folder: &str| -> Vec<String> {
        let entries = std::fs::read_dir(format!("{ROOT}/{folder}")).expect("samples/");
        let paths = entries.map(|entry| entry.expect("samples/").path());
        let words = paths.filter(|path| path.extension().is_some_and(|extension| extension == "cabinet"));
        let names = words.map(|path| format!("{folder}/{}", path.file_stem().expect("a name").to_string_lossy()));
        names.filter(|name| PathBuf::from(format!("{ROOT}/{name}.hex")).exists()).collect()
    };
    let mut names = [both("samples"), both("samples/label")].concat();
    names.sort();
    names
}

#[test]
fn samples_in_words() {
    let samples = samples();
    assert_eq!(samples.len(), 12, "{samples:?}");
    for name in samples {
        let label = name.starts_with("samples/label/");
        let bytes = |extension: &str| {
            let table: &[&str] = if label { &["--table", "samples/year.hex"] } else { &[] };
            let words = read(&format!("{name}.{extension}"));
            let names = [("numbering", "p0"), ("printer", "p1"), ("scanner", "c0")];
            let words = names.iter().fold(words, |words, (name, made_up)| words.replace(name, made_up));
            let file = if label && extension == "cabinet" { "-".to_string() } else { format!("{name}.{extension}") };
            ks(&[&["hex", "--bytes"], table, &[&file]].concat(), words.as_bytes()).stdout
        };
        let wanted = bytes("hex");
        assert!(wanted.len() > 100 && bytes("cabinet") == wanted, "{name}");
    }
}

/// The bytes that a text stands for, through the program.
fn bytes_of(text: &[u8]) -> Vec<u8> {
    let ended = ks(&["hex", "--bytes", "-"], text);
    assert_eq!(ended.status.code(), Some(0), "{}\n{}", String::from_utf8_lossy(&ended.stderr), String::from_utf8_lossy(text));
    ended.stdout
}

/// Words, hex, words, hex: the same hex, and the same bytes.
#[test]
fn there_and_back() {
    let mut random = Random::new(SEED);
    for i in 0..60 {
        let table = table(&mut random);
        let records = random.pick(&[0, 1, 30, 200]);
        let mut schedule = schedule(&mut random, &table, records);
        if i % 2 == 0 {
            schedule = going_back(&mut random, &table, schedule, 300);
        }
        let bytes = [encode_table(&table), encode_schedule(&schedule)].concat();
        let words = printed(&["words", "-"], &bytes);
        let hex = printed(&["hex", "-"], words.as_bytes());
        assert_eq!(bytes_of(words.as_bytes()), bytes, "{words}");
        assert_eq!(bytes_of(hex.as_bytes()), bytes, "{hex}");
        assert_eq!(printed(&["words", "-"], hex.as_bytes()), words);
        let expecting = printed(&["words", "--expect", "-"], &bytes);
        assert_eq!(bytes_of(expecting.as_bytes()), bytes, "{expecting}");
        let checked = printed(&["check", "-"], expecting.as_bytes());
        assert!(checked.starts_with("ok "), "{checked}\n{expecting}");
    }
}

/// A byte-order mark and line ends of another system change nothing; nor does white space.
#[test]
fn other_editors() {
    for name in ["release.cabinet", "limits.cabinet", "sample.hex"] {
        let text = common::sample(name);
        let wanted = bytes_of(text.as_bytes());
        let marked = [b"\xef\xbb\xbf", text.as_bytes()].concat();
        assert_eq!(bytes_of(&marked), wanted);
        assert_eq!(bytes_of(text.replace('\n', "\r\n").as_bytes()), wanted);
        let spread: String = text.lines().map(|line| format!("\t{line}  \n\n")).collect();
        assert_eq!(bytes_of(spread.as_bytes()), wanted);
    }
}

/// One way to damage a text at a place.
fn damaged(random: &mut Random, text: &str) -> String {
    let mut chars: Vec<char> = text.chars().collect();
    let at = random.below(chars.len() as u32) as usize;
    let other = random.below(chars.len() as u32) as usize;
    match random.below(8) {
        0 => drop(chars.remove(at)),
        1 => chars.insert(at, chars[at]),
        2 => chars.swap(at, other),
        3 => chars.truncate(at),
        4 => chars[at] = random.pick(&['#', '\n', ' ', '9', 'x', 'r', ':', '-', '>', '\u{0}', '\u{fc}', '$', '\r', '\u{feff}']),
        _ => {
            // A word is cut, doubled or swapped with another.
            let mut words: Vec<&str> = text.split(' ').collect();
            let (at, other) = (random.below(words.len() as u32) as usize, random.below(words.len() as u32) as usize);
            let numbers: Vec<usize> = (0..words.len()).filter(|i| words[*i].parse::<u32>().is_ok()).collect();
            match random.below(4) {
                0 => drop(words.remove(at)),
                1 => words.insert(at, words[at]),
                2 if !numbers.is_empty() => {
                    words[random.pick(&numbers)] = random.pick(&["0", "1", "3", "17", "33", "255", "256"])
                }
                _ => words.swap(at, other),
            }
            return words.join(" ");
        }
    }
    chars.into_iter().collect()
}

/// A character of this class cut, doubled or swapped with its neighbour, at some places of a text.
fn each_class(random: &mut Random, text: &str) -> Vec<String> {
    let classes: [fn(char) -> bool; 6] =
        [|c| c.is_alphabetic(), |c| c.is_ascii_digit(), |c| c == ' ', |c| c == '\n', |c| ":->".contains(c), |c| c == '#'];
    let chars: Vec<char> = text.chars().collect();
    let mut damaged = Vec::new();
    for class in classes {
        let places: Vec<usize> = (0..chars.len() - 1).filter(|i| class(chars[*i])).collect();
        for how in 0..3 {
            for _ in 0..30.min(places.len()) {
                let at = random.pick(&places);
                let mut chars = chars.clone();
                match how {
                    0 => drop(chars.remove(at)),
                    1 => chars.insert(at, chars[at]),
                    _ => chars.swap(at, at + 1),
                }
                damaged.push(chars.into_iter().collect());
            }
        }
    }
    damaged
}

/// Each message names the file and a line of it, or the file's byte where it is no text any more.
fn names_a_line(said: &str, lines: usize) -> bool {
    let Some(rest) = said.strip_prefix("standard input:") else { return false };
    let line = rest.split(':').next().unwrap_or("");
    line.parse::<usize>().is_ok_and(|line| (1..=lines.max(1)).contains(&line)) || rest.starts_with(" byte ")
}

#[test]
fn damaged_texts() {
    let mut random = Random::new(SEED);
    let (mut wrong, mut refused, mut sound) = (0, 0, 0);
    let folder = std::env::temp_dir().join(format!("ks-form-{}", std::process::id()));
    std::fs::create_dir_all(&folder).expect("a temporary folder");
    let file = folder.join("damaged").to_str().expect("a name").to_string();
    let mut texts = Vec::new();
    for name in ["release.cabinet", "limits.cabinet", "back.cabinet", "first.cabinet"] {
        let sound = common::sample(name);
        texts.extend(each_class(&mut random, &sound));
        for i in 0..500 {
            let mut text = damaged(&mut random, &sound);
            for _ in 0..i % 3 {
                text = damaged(&mut random, &text);
            }
            texts.push(text);
        }
    }
    for text in texts {
        std::fs::write(&file, &text).expect("a temporary file");
        let lines = text.lines().count();
        match load_any(Source { table: None, file: &file, kind: Kind::Words }) {
            Ok(case) => sound += usize::from(case.schedule.is_some_and(|schedule| schedule.len() >= 3)),
            Err(failure) => {
                assert!(!failure.said.is_empty(), "{text}");
                for said in &failure.said {
                    let said = said.replace(&file, "standard input");
                    assert!(names_a_line(&said, lines), "{said}\n{text}");
                }
                match failure.shown.is_empty() {
                    true => wrong += 1,
                    false => refused += 1,
                }
            }
        }
    }
    std::fs::remove_dir_all(&folder).expect("a temporary folder");
    assert!(wrong > 1_000 && refused > 20 && sound > 300, "{wrong} wrong, {refused} refused, {sound} sound");
}

/// All errors at once, in the order of their lines.
#[test]
fn all_at_once() {
    let (_, wrong) = parse(&read("desk/tests/golden/files/wrong.cabinet"));
    let lines: Vec<usize> = wrong.iter().map(|wrong| wrong.line).collect();
    assert!(lines.len() >= 12, "{wrong:?}");
    assert!(wrong.iter().all(|wrong| wrong.what.starts_with("found ") && wrong.what.contains(", expected ")), "{wrong:?}");
}

/// Counts that are too high are told, and take no time.
#[test]
fn no_flood() {
    let flood = "boards 2\nchannel c outside -> p\nprogram p on 0 backup 1\nschedule\n".to_string()
        + &"step p x4294967295\n".repeat(1_000);
    let ended = ks(&["run", "-"], flood.as_bytes());
    assert_eq!((ended.status.code(), String::from_utf8_lossy(&ended.stdout).as_ref()), (Some(3), "refused 9\n"));
    let said = String::from_utf8_lossy(&ended.stderr).to_string();
    assert!(said.contains("standard input:5: the schedule has 10001 records"), "{said}");
}
