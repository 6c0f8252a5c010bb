//! The story that a picture tells: after every record of generated runs its cabinet is that of documents 01 and 02, as `outside` has
//! them, word for word, with its queues and backups; and every word's life fits the answers.
use desk::explain::Input;
use desk::picture::scene::{Scene, WordId};
use desk::picture::story::Stage;
use desk::picture::Story;
use desk::played::Played;
use kunzeastylus::{Code, Fate, Move};
use outside::random::Random;
use outside::rules::busy::busy;
use outside::rules::generate::{encode_schedule, encode_table, schedule, table};
use outside::rules::going_back::going_back;
use outside::rules::reader::{Record, Table};
use outside::rules::repairs::{crash_after_crash, row};
use outside::rules::session::Session;
use outside::rules::simulator::Cabinet;

const SEED: u64 = 0x2545_F491_4F6C_DD1D;

/// Words by channel and word.
fn words(story: &Story, ids: &[WordId]) -> Vec<(u8, u32)> {
    ids.iter().map(|&id| (story.lives[id].channel, story.lives[id].word)).collect()
}

fn same(story: &Story, scene: &Scene, cabinet: &Cabinet, at: &str) {
    for (p, (seat, process)) in scene.seats.iter().zip(&cabinet.processes).enumerate() {
        let end = seat.end;
        let is = (end.board, end.place, end.hold_back, end.registers);
        assert_eq!(is, (process.board, process.place, process.hold_back, process.registers), "process {p} {at}");
        let inbox: Vec<(u8, u32)> = process.inbox.iter().map(|message| (message.channel, message.word)).collect();
        assert_eq!(words(story, &seat.unread), inbox, "process {p} {at}");
        let ours = seat.backup.as_ref().map(|b| (b.board, words(story, &b.saved), b.counted.len()));
        let theirs = process
            .backup
            .as_ref()
            .map(|b| (b.board, b.saved.iter().map(|message| (message.channel, message.word)).collect(), usize::from(b.count)));
        assert_eq!(ours, theirs, "the backup of process {p} {at}");
        assert_eq!(seat.making.is_some(), process.resyncs(), "process {p} {at}");
    }
    for (b, board) in scene.boards.iter().enumerate() {
        assert_eq!((board.dead, board.queue.len()), (cabinet.dead(b as u8), cabinet.queued(b as u8)), "board {b} {at}");
    }
}

/// As many words were fed, queued, carried, taken and held back as answers say.
fn lives_fit(story: &Story) {
    let played = &story.played;
    let staged = |wanted: &[Stage]| story.lives.iter().flat_map(|life| &life.stages).filter(|(_, s)| wanted.contains(s)).count();
    let answered = |code: Code, feed: bool| {
        (0..played.records.len())
            .filter(|&i| played.ran.answers[i].code == code && (played.kind(i) == Some(Move::Feed)) == feed)
            .count()
    };
    assert_eq!(staged(&[Stage::Fed]), answered(Code::OnTheBus, true));
    assert_eq!(staged(&[Stage::Carried, Stage::Printed]), answered(Code::OnTheBus, false));
    assert_eq!(staged(&[Stage::Taken, Stage::TakenAgain]), answered(Code::Took, false));
    assert_eq!(staged(&[Stage::Queued, Stage::QueuedAgain]), answered(Code::Queued, false));
    assert_eq!(staged(&[Stage::HeldBack]), answered(Code::HeldBack, false));
    for life in &story.lives {
        // What counts of a word is on the bus once at most.
        let stands = |record: usize| played.ran.fates[record] == Fate::Stands;
        let on_the_bus =
            life.stages.iter().filter(|(r, s)| stands(*r) && matches!(s, Stage::Fed | Stage::Carried | Stage::Printed));
        assert!(on_the_bus.count() <= 1, "{life:?}");
    }
}

fn tells(table: &Table, records: &[Record]) {
    let input = Input { table: encode_table(table), schedule: encode_schedule(records) };
    let story = Story::of(Played::of(input).expect("a sound run"));
    let mut session = Session::new(table);
    same(&story, &story.start, &session.cabinet, "at the start");
    for (i, &record) in records.iter().enumerate() {
        let answer = session.answer(record);
        assert_eq!(answer.code, story.played.ran.answers[i].code.number(), "record {}", i + 1);
        same(&story, &story.moments[i].scene, &session.cabinet, &format!("after record {}", i + 1));
    }
    lives_fit(&story);
}

#[test]
fn generated_runs() {
    let mut random = Random::new(SEED);
    for i in 0..120 {
        let table = match i % 3 {
            0 => row(&mut random),
            1 => busy(&mut random, 3, 5),
            _ => table(&mut random),
        };
        let most = random.pick(&[0, 1, 20, 60, 150, 300]);
        let records = match i % 3 {
            0 => crash_after_crash(&mut random, &table, i % 5, most),
            _ => schedule(&mut random, &table, most),
        };
        tells(&table, &records);
        tells(&table, &going_back(&mut random, &table, records, 400));
    }
}
