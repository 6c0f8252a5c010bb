//! `ks label` as it is called: what it prints, what it says where it can't, and with which code it ends.
mod common;

use common::ROOT;
use std::process::Output;

fn label(arguments: &[&str], input: &[u8]) -> Output {
    common::ks(&[&["label"], arguments].concat(), input)
}

fn prints(arguments: &[&str], input: &[u8], wanted: &str) {
    let ended = label(arguments, input);
    assert_eq!((ended.status.code(), String::from_utf8_lossy(&ended.stdout).as_ref()), (Some(0), wanted), "{arguments:?}");
}

fn complains(arguments: &[&str], input: &[u8], code: i32, shown: &str, about: &str) {
    common::complains(&[&["label"], arguments].concat(), input, code, shown, about);
}

/// A schedule of these records: move, a, and a feed's word.
fn schedule(records: &[[u8; 3]]) -> Vec<u8> {
    let mut bytes = ((1 + 6 * records.len()) as u16).to_be_bytes().to_vec();
    bytes.push(1);
    records.iter().for_each(|&[kind, a, word]| bytes.extend([kind, a, 0, 0, 0, word]));
    bytes
}

#[test]
fn labels() {
    let pulled = |first: u32| (0..3).map(|i| format!("{} {}\n", 501 + i, first + i)).collect::<String>() + "to come 0\n";
    for first in [0, 1000, 4_294_957_295] {
        prints(&[&first.to_string(), "samples/label/pulled.hex"], &[], &pulled(first));
        let demonstration = String::from_utf8(label(&[&first.to_string()], &[]).stdout).expect("text");
        let (about, labels) = demonstration.split_once('\n').expect("lines");
        assert!(about.starts_with('#') && labels == pulled(first), "{demonstration}");
    }
    prints(&["7", "-"], &schedule(&[]), "to come 0\n");
    prints(&["7", "-"], &schedule(&[[4, 0, 9], [4, 0, 8], [4, 1, 7]]), "to come 2\n");
    // The code is at the outlet and its serial is not.
    let half = [[4, 0, 9], [1, 0, 0], [1, 0, 0], [1, 0, 0], [1, 0, 0], [3, 0, 0], [1, 1, 0], [1, 1, 0], [1, 1, 0], [3, 1, 0]];
    prints(&["7", "-"], &schedule(&half), "9 -\nto come 1\n");
    prints(&["7", "-"], b"00 01 01 # no records", "to come 0\n");
}

/// Cartons and labels that are taken back count no longer.
#[test]
fn taken_back() {
    let (step, carry, back) = (|p| [1, p, 0], |board| [3, board, 0], [8, 0, 0]);
    prints(&["7", "-"], &schedule(&[[4, 0, 9], back, [4, 0, 8]]), "to come 1\n");
    prints(&["7", "-"], &schedule(&[[4, 0, 9], back, back, [8, 1, 0]]), "to come 0\n");
    let printed = [&[step(0); 5][..], &[carry(0), carry(0)], &[step(1); 3], &[carry(1)], &[step(1); 3], &[carry(1)]].concat();
    let fed = [[4, 0, 9], back, [4, 0, 8]];
    prints(&["7", "-"], &schedule(&[&fed, &printed[..]].concat()), "8 7\nto come 0\n");
    prints(&["7", "-"], &schedule(&[&fed, &printed[..], &[back]].concat()), "8 -\nto come 1\n");
    prints(&["7", "-"], &schedule(&[&fed, &printed[..], &[back; 16]].concat()), "to come 0\n");
}

/// A year of a warehouse: four crashes, and the labels in order.
#[test]
fn year() {
    for first in [0u32, 1000, 4_294_957_295] {
        let labels: String = (0..8).map(|i| format!("{} {}\n", 501 + i, first + i)).collect();
        prints(&[&first.to_string(), "samples/label/year.hex"], &[], &(labels + "to come 0\n"));
    }
    // The schedule is that of samples/year.hex, behind a table of serial 1000.
    let bytes =
        |name: &str| desk::hex::bytes(&std::fs::read(format!("{ROOT}/samples/{name}")).expect("a sample")).expect("hex text");
    assert_eq!(bytes("year.hex")[84..], bytes("label/year.hex"));
    assert_eq!(bytes("year.hex")[..84], kunzeastylus::label_table(1000).expect("a table"));
}

#[test]
fn complaints() {
    let serial = "and 4294957295 is the last one";
    complains(&["4294957296"], &[], 3, "refused 46\n", serial);
    complains(&["99999999999999999999"], &[], 3, "refused 46\n", serial);
    complains(&["4294957296", "-"], &[], 3, "refused 46\n", serial);
    complains(&["1", "-"], &[], 3, "refused 9\n", "standard input:1: there is no schedule");
    complains(&["1", "-"], &[0, 1, 2], 3, "refused 10\n", "standard input: byte 2: the schedule's version is 2, and there is 1");
    complains(&["1", "-"], b"00 0", 2, "", "standard input:1: found `00 0`");
    complains(&["1", "missing"], &[], 2, "", "missing: no such file");
    complains(&["x"], &[], 2, "", "ks label: x: FIRST is a decimal number");
    complains(&["-1"], &[], 2, "", "ks label: no option -1");
    for arguments in [&[][..], &["1", "-", "-"]] {
        complains(arguments, &[], 2, "", "ks label: FIRST, the first serial, is wanted");
    }
}
