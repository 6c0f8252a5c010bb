//! `ks picture`: two samples as stored beside them; that pictures are well-formed and name nothing outside of themselves, of every sample
//! and of generated runs; that a page of 10,000 records stays small; and what is said where it can't.
use desk::explain::Input;
use desk::hex;
use desk::picture::{opening, page, picture, Story};
use desk::played::Played;
use outside::random::Random;
use outside::rules::busy::busy;
use outside::rules::generate::{encode_schedule, encode_table, schedule, table};
use outside::rules::going_back::going_back;
use outside::rules::repairs::crash_after_crash;

mod common;
#[path = "common/xml.rs"]
mod xml;
use common::{complains, printed, read, sample};
use xml::well_formed;

const SEED: u64 = 0x9E6C_63D0_876A_9A69;
const SAMPLES: [&str; 10] =
    ["back", "first", "held", "limits", "lost_queue", "repaired", "roll_forward", "sample", "swept", "year"];

fn story(name: &str) -> Story {
    Story::of(
        Played::of(Input::of(hex::bytes(sample(&format!("{name}.hex")).as_bytes()).expect("hex text"))).expect("an accepted run"),
    )
}

/// Nothing but a name space is named that isn't in the file itself.
fn alone(text: &str) {
    let named = text.replace("xmlns=\"http://www.w3.org/2000/svg\"", "").replace("url(#hatch)", "");
    for outside in ["http:", "https:", "src=", "href=", "url(", "@import", "fetch(", "import(", "XMLHttpRequest", "<link"] {
        assert!(!named.contains(outside), "{outside}");
    }
}

/// Each picture within a page.
fn pictures(page: &str) -> impl Iterator<Item = &str> {
    page.split("<svg").skip(1).map(|after| {
        let start = after.as_ptr() as usize - page.as_ptr() as usize - "<svg".len();
        let end = start + "<svg".len() + after.find("</svg>").expect("its end") + "</svg>".len();
        &page[start..end]
    })
}

fn sound(story: &Story) {
    let (svg, page) = (picture(story, opening(story)), page(story));
    for text in [&svg, &page] {
        alone(text);
    }
    for picture in [&svg[..]].into_iter().chain(pictures(&page)) {
        well_formed(picture).unwrap_or_else(|wrong| panic!("{wrong}"));
    }
}

#[test]
fn samples() {
    for name in ["lost_queue", "repaired"] {
        let file = format!("samples/{name}.hex");
        assert_eq!(printed(&["picture", "--svg", &file], &[]), sample(&format!("{name}.svg")), "{name}");
    }
    // README.md's picture.
    let some = ["picture", "--svg", "--from=18", "--to=53", "samples/year.cabinet"];
    assert_eq!(printed(&some, &[]), read("docs/picture.svg"));
    for name in SAMPLES {
        let story = story(name);
        sound(&story);
        assert_eq!(printed(&["picture", &format!("samples/{name}.hex")], &[]), page(&story), "{name}");
    }
    // Every record has a row, or one with refusals that are equal to it.
    let story = story("swept");
    let page = page(&story);
    assert!(page.contains(">25–28<") && page.contains("4 times") && !page.contains("data-r=\"26\""));
}

#[test]
fn generated_runs() {
    let mut random = Random::new(SEED);
    for i in 0..40 {
        let table = if i % 2 == 0 { busy(&mut random, 3, 5) } else { table(&mut random) };
        let most = random.pick(&[0, 1, 20, 60, 150]);
        let records = schedule(&mut random, &table, most);
        let records = going_back(&mut random, &table, records, 400);
        let input = Input { table: encode_table(&table), schedule: encode_schedule(&records) };
        sound(&Story::of(Played::of(input).expect("a sound run")));
    }
}

#[test]
fn opens_at_the_crash() {
    assert_eq!(opening(&story("year")), 4..44);
    assert_eq!(opening(&story("swept")), 0..36);
    assert_eq!(opening(&story("limits")), 35..75);
    assert!(page(&story("year")).contains("{\"open\":25,"));
}

/// 10,000 records on 16 boards.
#[test]
fn a_long_run() {
    let mut random = Random::new(SEED);
    let table = busy(&mut random, 16, 16);
    let mut records = crash_after_crash(&mut random, &table, 100, 10_000);
    records.truncate(10_000);
    let more = schedule(&mut random, &table, 10_000 - records.len());
    records.extend(more);
    let input = Input { table: encode_table(&table), schedule: encode_schedule(&records) };
    let story = Story::of(Played::of(input).expect("a sound run"));
    let page = page(&story);
    assert!(page.len() < 16 << 20, "{} bytes", page.len());
    assert_eq!(pictures(&page).count(), page.matches("class=\"part\"").count() + 3);
}

#[test]
fn complaints() {
    let file = "samples/sample.hex";
    complains(&["picture"], &[], 2, "", "a file is wanted");
    complains(&["picture", "--from", "2", file], &[], 2, "", "--from and --to are of --svg");
    complains(&["picture", "--svg", "--from", "21", file], &[], 2, "", "the run has 20 records");
    complains(&["picture", "--svg", "--from", "9", "--to", "8", file], &[], 2, "", "--from 9 and --to 8");
    complains(&["picture", "-"], b"00 09 01 02 01 01 FF 00 00 01 00", 3, "refused 9\n", "there is no schedule");
    complains(&["plain", "-"], b"00 09 01 02 01 01 FF 00 00 01 00", 3, "refused 9\n", "there is no schedule");
    complains(&["plain", "--moves", "--json", file], &[], 2, "", "one of them is wanted");
    let some = printed(&["picture", "--svg", "--from", "11", "--to", "14", file], &[]);
    assert!(some.contains("records 11 to 14") && some.matches("data-r=").count() == 4);
    assert!(printed(&["picture", "-"], b"00 09 01 02 01 01 FF 00 00 01 00 00 01 01").contains("no records"));
}
