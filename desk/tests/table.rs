//! `ks table`: the samples' tables, from their text and back; what is refused, and where it is; and text that is none.
mod common;

use common::{complains, printed, sample};
use desk::{hex, lists};
use kunzeastylus::Lists;

const SAMPLES: [&str; 10] =
    ["sample", "back", "lost_queue", "roll_forward", "first", "held", "limits", "repaired", "swept", "year"];

/// The table that begins a sample's bytes.
fn table(name: &str) -> Vec<u8> {
    let bytes = hex::bytes(sample(&format!("{name}.hex")).as_bytes()).expect("hex text");
    let length = 2 + u16::from_be_bytes([bytes[0], bytes[1]]) as usize;
    bytes[..length].to_vec()
}

#[test]
fn samples_both_ways() {
    for name in SAMPLES {
        let text = sample(&format!("{name}.lists"));
        let (read, wrong) = lists::parse(&text);
        assert_eq!(wrong, [], "{name}");
        let table = table(name);
        assert_eq!(read.lists.table().as_deref(), Ok(&table[..]), "{name}: written");
        assert_eq!(Lists::of(&table).as_ref(), Ok(&read.lists), "{name}: taken apart");
        assert_eq!(lists::print(&read.lists), text, "{name}: printed");
        let file = format!("samples/{name}.lists");
        assert_eq!(hex::bytes(printed(&["table", &file], &[]).as_bytes()), Ok(table), "{name}: as hex text");
        for extension in ["hex", "cabinet"] {
            assert_eq!(printed(&["table", "--apart", &format!("samples/{name}.{extension}")], &[]), text, "{name}: {extension}");
        }
    }
}

/// A sample's text with one line changed: the number that refuses it, and what is said.
fn refused(name: &str, old: &str, new: &str, number: u8, about: &str) {
    let text = sample(name);
    assert_eq!(text.matches(old).count(), 1, "{old}");
    let shown = format!("refused {number}\n");
    complains(&["table", "-"], text.replace(old, new).as_bytes(), 3, &shown, &format!("ks table: standard input:{about}"));
}

#[test]
fn what_and_where() {
    let sample = |old: &str, new: &str, number: u8, about: &str| refused("sample.lists", old, new, number, about);
    sample("\n2 1 2\n", "\n1 1 2\n", 3, "2: 1 boards, and there are 2 to 16");
    sample("\n0 255 ", "\n0 255 0", 4, "6: ends: 5 numbers, and 4 are wanted, two for each of 2 channels");
    sample("\n0 1 4 ", "\n0 1 65", 4, "15: process 0 has 65 instructions, and 64 are the most");
    sample("\n0 1 4 ", "\n0 1 3", 4, "15: instructions: 12 numbers, and 9 are wanted, three for each of 3 instructions");
    sample("\n255 0 ", "\n255 256", 5, "5: channel 0: its reader is 256");
    sample("\n0 1 4 ", "\n0 256 4", 7, "9: process 0: its backup's board is 256, and the boards are 0 to 1");
    sample("\nADD 1 0 ", "\nADD 1 4", 8, "13: process 0, place 1: ADD 1: there is no register 4");
    sample("\nSEND 1 1 ", "\n261 1 1", 8, "14: process 0, place 2: code 261: the codes are 1 to 6");
}

#[test]
fn limits() {
    // The heading makes it version 2, and the limits come back.
    let (text, _) = lists::parse(&sample("limits.lists"));
    assert_eq!((text.lists.version, &text.lists.limits[..]), (2, &[2, 16][..]));
    assert!(printed(&["table", "samples/limits.lists"], &[]).contains("process 0, p0: board 0, backup board 1, limit 2, "));
    let sample = |old: &str, new: &str, number: u8, about: &str| refused("limits.lists", old, new, number, about);
    sample("\n16 ", "\n17 ", 47, "15: process 1: its limit is 17, and 1 to 16 are wanted");
    sample("\n2                 #", "\n0                 #", 47, "14: process 0: its limit is 0");
    sample("\n16 ", "\n16 8 ", 4, "15: limits: 3 numbers, and 2 are wanted, one for each of 2 processes");
    refused("sample.lists", "\ninstructions ", "\nlimits instructions ", 4, "2: limits: 0 numbers, and 1 are wanted");
    // An instruction goes before a limit.
    let both = common::sample("limits.lists").replace("\n16 ", "\n17 ").replace("\nSET ", "\n7 ");
    complains(&["table", "-"], both.as_bytes(), 3, "refused 8\n", "code 7: the codes are 1 to 6");
}

#[test]
fn text_that_is_none() {
    let number = "a decimal number up to 4294967295 or a heading: counts, ends, placements, limits or instructions";
    for (text, said) in [
        ("1 2 3", "1: found `1`, expected a heading: counts, ends, placements, limits or instructions"),
        ("counts 1 2 3\ncounts", "2: found a second `counts`, expected one"),
        ("counts 1 2", "1: found 2 numbers under counts, expected 3: boards, processes and channels"),
        ("counts 1 2 3 ends placements", "1: found the end, expected a heading `instructions`"),
        ("counts 1 2 4294967296", &format!("1: found `4294967296`, expected {number}")),
        ("counts 1 2 -3", &format!("1: found `-3`, expected {number}")),
        ("counts 1 2 SET", &format!("1: found `SET`, expected {number}")),
    ] {
        complains(&["table", "-"], text.as_bytes(), 2, "", &format!("ks table: standard input:{said}"));
    }
    let (text, wrong) = lists::parse("# all at once\ninstructions SET 1 2 counts 2 1 1 ends 255 0 placements 0 1 1");
    assert_eq!((text.lists.instructions, text.lists.counts.boards, text.lists.version), (vec![1, 1, 2], 2, 1));
    assert_eq!(wrong, []);
}
