//! What the documents say of `ks` is so: the five minutes of docs/USING.md, and the names and keywords of docs/FORMATS.md. What commands print
//! that README.md and docs/USING.md show is compared by `tools/readme`.
mod common;

use common::{printed, read};
use desk::form::answers::{CODES, REASONS};
use desk::form::keywords::{HEADINGS, INSTRUCTIONS, MOVES};

/// From an empty file to a passed release check: each text of that path passes, with the table that it begins with.
#[test]
fn five_minutes() {
    let using = read("docs/USING.md");
    let texts: Vec<&str> = using.split("```cabinet\n").skip(1).map(|text| text.split("```").next().expect("its end")).collect();
    let [whole, pulled] = texts[..] else { panic!("{texts:?}") };
    let table = whole.split_once("schedule\n").expect("a schedule").0;
    for text in [whole.to_string(), format!("{table}{pulled}")] {
        let checked = printed(&["check", "--strict", "-"], text.as_bytes());
        assert!(checked.starts_with("ok   standard input: ") && !checked.contains("no expectations"), "{checked}");
    }
    // Pulled or not, the words are the same.
    assert!(whole.ends_with("    expect out 501 502\n") && pulled.ends_with("    expect out 501 502\n"));
}

#[test]
fn names_of_answers() {
    let formats = read("docs/FORMATS.md");
    for (code, name) in CODES {
        let reasons: Vec<String> = REASONS
            .iter()
            .filter(|(reason, _)| reason.code() == code)
            .map(|(reason, name)| format!("`{name}` {}", reason.number()))
            .collect();
        let row = format!("\n| {} | `{name}` | {} |\n", code.number(), reasons.join(", "));
        assert!(formats.contains(&row), "{row}");
    }
}

/// Every keyword that begins a line stands in the grammar.
#[test]
fn grammar() {
    let formats = read("docs/FORMATS.md");
    let grammar = formats.split_once("## A cabinet and a schedule in words").expect("the form").1;
    let grammar = grammar.split_once("| in capitals |").expect("its words").0;
    for word in HEADINGS.iter().chain(&INSTRUCTIONS).chain(&MOVES) {
        assert!(grammar.split(|c: char| !c.is_alphanumeric()).any(|other| other == *word), "{word}");
    }
}

/// 10,000 records as JSON in under 0.2 s, from words, hex text and bytes: in this build, which isn't the one for use, and on any machine, in
/// under a second.
#[test]
fn quick() {
    let table = common::sample("release.cabinet").split_once("schedule\n").expect("a schedule").0.to_string();
    let round = "    feed scans 7\n    step numbering x5\n    sync numbering\n    carry 0 x3\n    step printer x6\n    carry 1 x2\n    sync printer\n    carry 1\n";
    let words = format!("{table}schedule\n{}", round.repeat(500));
    let hex = printed(&["hex", "-"], words.as_bytes());
    let bytes = common::ks(&["hex", "--bytes", "-"], words.as_bytes()).stdout;
    assert_eq!(bytes.len(), usize::from(u16::from_be_bytes([bytes[0], bytes[1]])) + 2 + 3 + 6 * 10_000);
    for input in [words.as_bytes(), hex.as_bytes(), &bytes] {
        let timed = || {
            let begun = std::time::Instant::now();
            let records = printed(&["run", "--json", "-"], input).matches("\"code\"").count();
            assert_eq!(records, 10_000);
            begun.elapsed()
        };
        let best = (0..5).map(|_| timed()).min().expect("five times");
        assert!(best.as_millis() < 1_000, "{best:?}");
    }
}
