//! The plain run of a run: of two samples in words, as stored beside them; what is said of a run that no plain run explains, and of a
//! list of moves that is none. `tools/witness` holds generated runs against it.
use desk::explain::Input;
use desk::hex;
use desk::plain::{check, find, plain, unread, Fault, Form, PlainMove, Refused};
use desk::played::Played;
use kunzeastylus::{BusWord, End};

mod common;
use common::sample;

fn input(name: &str) -> Input {
    Input::of(hex::bytes(sample(&format!("{name}.hex")).as_bytes()).expect("hex text"))
}

fn run(name: &str) -> Played {
    Played::of(input(name)).expect("an accepted run")
}

/// The sample's run, and its plain run.
fn played() -> (Played, Vec<PlainMove>) {
    let played = Played::of(input("sample")).expect("an accepted run");
    let moves = find(&played).expect("a plain run").iter().map(|beside| beside.plain).collect();
    (played, moves)
}

#[test]
fn samples() {
    for name in ["sample", "repaired"] {
        assert_eq!(plain(&run(name), Form::Words), Ok(sample(&format!("{name}.plain"))), "{name}");
    }
    let moves = plain(&run("sample"), Form::Moves).expect("a plain run");
    let begun: Vec<&str> = moves.lines().take(3).collect();
    assert_eq!((begun, moves.lines().count()), (vec!["feed 0 5", "feed 0 7", "step 0"], 10));
}

#[test]
fn no_line_is_wide() {
    for name in ["first", "held", "limits", "lost_queue", "roll_forward", "swept", "year"] {
        let text = plain(&run(name), Form::Words).expect("a plain run");
        assert!(text.lines().all(|line| line.chars().count() <= 100), "{name}");
    }
}

#[test]
fn another_list_of_moves() {
    let (played, moves) = played();
    let check = |moves: &[PlainMove]| check(&played, &unread(&played), moves);
    let without = |at: usize| [&moves[..at], &moves[at + 1..]].concat();
    let refused = |at, process, why| Err(Fault::Refused { at, plain: PlainMove::Step { process }, why });
    assert_eq!(check(&without(9)), Err(Fault::End(0)));
    assert_eq!(check(&without(0)), refused(5, 0, Refused::NoWord));
    assert_eq!(check(&moves[..8]), Err(Fault::Bus(3)));
    assert_eq!(check(&[&moves[..], &[PlainMove::Step { process: 0 }]].concat()), refused(10, 0, Refused::NoWord));
    assert_eq!(check(&[PlainMove::Step { process: 1 }]), refused(0, 1, Refused::NoSuchProcess));
    assert_eq!(check(&[&[PlainMove::Feed { channel: 0, word: 9 }], &moves[1..]].concat()), Err(Fault::Feeds(0)));
    let feed = PlainMove::Feed { channel: 1, word: 9 };
    assert_eq!(check(&[feed]), Err(Fault::Refused { at: 0, plain: feed, why: Refused::NotFromOutside }));
}

#[test]
fn another_run() {
    let (played, moves) = played();
    let inboxes = unread(&played);
    let changed = |change: &dyn Fn(&mut Played)| {
        let mut played = played.clone();
        change(&mut played);
        (find(&played).err(), check(&played, &inboxes, &moves))
    };
    let bus = |played: &mut Played, record: usize, with: BusWord| played.ran.answers[record].bus = Some(with);
    let carried = BusWord { channel: 1, word: 12, sender: End::Process(0), place: 2 };
    assert_eq!(changed(&|played| bus(played, 18, BusWord { word: 13, ..carried })), (None, Err(Fault::Bus(3))));
    assert_eq!(changed(&|played| bus(played, 18, BusWord { place: 3, ..carried })), (None, Err(Fault::Bus(3))));
    let fed = BusWord { sender: End::Outside, ..carried };
    assert_eq!(changed(&|played| bus(played, 18, fed)), (Some(Fault::NoSender(18)), Err(Fault::Bus(3))));
    assert_eq!(changed(&|played| played.ran.ends[0].place = 1), (None, Err(Fault::End(0))));
    assert_eq!(changed(&|played| played.ran.ends[0].unread = 1), (None, Err(Fault::End(0))));
    assert_eq!(check(&played, &vec![vec![(0, 7)]], &moves), Err(Fault::End(0)));
    assert_eq!(changed(&|played| played.ran.answers[5].bus = None), (None, Err(Fault::Bus(2))));
    let twice = changed(&|played| bus(played, 19, carried));
    let refused = Fault::Refused { at: 10, plain: PlainMove::Step { process: 0 }, why: Refused::NoWord };
    assert_eq!(twice, (Some(refused), Err(Fault::Bus(4))));
}
