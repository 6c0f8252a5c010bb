//! The enums have document 01's numbers, all of them and no others, here and in include/kunzeastylus.h; docs/NUMBERS.md explains each; and
//! the calls hand them on.
use kunzeastylus::{
    check_abi, judge, take_apart, write_table, Backup, BackupRefusal, Code, End, Instruction, Lengths, Lists, Move, Operation,
    Reason, Record, Refusal, Snapshot, Synced, Table, ABI, SAVED, VERSION,
};

const HEADER: &str = include_str!("../../include/kunzeastylus.h");
const NUMBERS: &str = include_str!("../../docs/NUMBERS.md");
/// An enum of the header, what it puts before its names, and the proved code's enum.
const CODE: [(&str, &str, &str); 3] = [
    ("ks_reason", "KS_REASON_", include_str!("../../crates/numbers/src/answers.rt")),
    ("ks_refusal", "KS_", include_str!("../../crates/numbers/src/runs.rt")),
    ("ks_backup_reply", "KS_BACKUP_", include_str!("../../crates/numbers/src/backup.rt")),
];

/// A process with no instructions, which reads a channel from the outside.
const TABLE: [u8; 11] = [0, 9, 1, 2, 1, 1, 255, 0, 0, 1, 0];

/// The bytes that a list of reasons can have: of each code its causes, which are 0 but where W-206 says otherwise.
const REASONS: [u8; 40] = [
    0, 1, 2, 3, 4, 8, 12, 16, 17, 20, 23, 24, 28, 128, 129, 132, 133, 134, 136, 137, 140, 144, 145, 148, 149, 152, 153, 155, 156,
    157, 160, 164, 167, 168, 172, 176, 192, 196, 200, 212,
];

/// The constants of an enum of the header.
fn constants(name: &str) -> impl Iterator<Item = (&'static str, u8)> {
    let start = HEADER.find(&format!("enum {name} {{")).expect("an enum of the header");
    let body = HEADER[start..].split('{').nth(1).unwrap().split('}').next().unwrap();
    let constant = |piece: &'static str| piece.rsplit([' ', '\n']).next().unwrap();
    let number = |piece: &str| piece.chars().take_while(char::is_ascii_digit).collect::<String>().parse().unwrap();
    body.match_indices(" = ").map(move |(at, _)| (constant(&body[..at]), number(&body[at + 3..])))
}

/// The numbers of an enum of the header, ascending.
fn header(name: &str) -> Vec<u8> {
    let mut numbers: Vec<u8> = constants(name).map(|(_, number)| number).collect();
    numbers.sort();
    numbers
}

/// An enum's cases are these numbers, both ways, and the header's are the same.
macro_rules! numbered {
    ($name:ident, $header:literal, $wanted:expr) => {
        let wanted: Vec<u8> = $wanted.collect();
        assert_eq!($name::ALL.iter().map(|case| case.number()).collect::<Vec<_>>(), wanted);
        for number in 0..=255 {
            assert_eq!($name::try_from(number).ok().map($name::number), wanted.contains(&number).then_some(number));
        }
        assert_eq!(header($header).into_iter().filter(|&number| number != 0 || wanted.contains(&0)).collect::<Vec<_>>(), wanted);
    };
}

#[test]
fn numbers() {
    numbered!(Refusal, "ks_refusal", (1..=12).chain([45, 46, 47, 51, 52, 54]));
    numbered!(Code, "ks_answer", (0..=7).chain(32..=44).chain(48..=50).chain([53]));
    numbered!(Reason, "ks_reason", REASONS.into_iter());
    numbered!(BackupRefusal, "ks_backup_reply", 20..=24);
    numbered!(Move, "ks_move", 1..=8);
    numbered!(Instruction, "ks_instruction", 1..=6);
    assert!(Code::ALL.iter().all(|code| code.refused() == (code.number() >= 32)));
    assert!(Reason::ALL.iter().all(|cause| cause.code().number() == cause.number() / 4));
}

/// The cases of the enum of a file of the proved code, as the header spells names: `TableLength` as `TABLE_LENGTH`.
fn coded(source: &str, before: &str) -> Vec<(String, u8)> {
    let spelled = |name: &str| -> String {
        let parts =
            name.char_indices()
                .map(|(i, c)| if i > 0 && c.is_uppercase() { format!("_{c}") } else { c.to_uppercase().to_string() });
        parts.collect()
    };
    let case = |line: &str| {
        let (name, number) = line.trim().strip_suffix(',')?.split_once(" = ")?;
        let named = name.starts_with(char::is_uppercase) && name.chars().all(char::is_alphanumeric);
        Some((format!("{before}{}", spelled(name)), number.parse().ok()?)).filter(|_| named)
    };
    source.lines().filter_map(case).collect()
}

/// The proved code names its numbers as the header does, in the same order. It has no case for what is not refused, 0.
#[test]
fn in_code() {
    for (name, before, source) in CODE {
        let refuses = name != "ks_reason";
        let header = constants(name).filter(|(_, number)| !refuses || *number != 0);
        assert_eq!(coded(source, before), header.map(|(constant, number)| (constant.to_string(), number)).collect::<Vec<_>>());
    }
    // An answer's code is a reason's, and every code has one.
    let codes: Vec<u8> = header("ks_answer");
    let mut reasons: Vec<u8> = coded(CODE[0].2, CODE[0].1).into_iter().map(|(_, number)| number / 4).collect();
    reasons.dedup();
    assert_eq!(reasons, codes);
}

/// The lines of a section of docs/NUMBERS.md: a number, and the other columns, without backticks.
fn lines(title: &str) -> Vec<(u8, Vec<String>)> {
    let section = NUMBERS.split("\n## ").find(|section| section.starts_with(title)).expect("a section");
    let cells = |line: &str| -> Vec<String> { line.split('|').map(|cell| cell.trim().replace('`', "")).collect() };
    let line = |cells: Vec<String>| Some((cells.get(1)?.parse().ok()?, cells[2..].to_vec()));
    section.lines().map(cells).filter_map(line).collect()
}

/// What a text of the header says for each number, as C reads it.
fn texts(function: &str, name: &str) -> Vec<(u8, String)> {
    let start = HEADER.find(&format!("{function}(enum {name} number)")).expect("a text of the header");
    let body = HEADER[start..].split("\n}").next().unwrap();
    let constants: Vec<(&str, u8)> = constants(name).collect();
    let case = |case: &str| {
        let (constant, rest) = case.split_once(':').expect("a case");
        let number = constants.iter().find(|(other, _)| *other == constant).expect("a constant of the enum").1;
        let literals = rest.split("\";").next().unwrap().split('"').skip(1).step_by(2);
        (number, literals.collect::<String>())
    };
    body.split("case ").skip(1).map(case).collect()
}

/// The words of the bindings and of the header are those of docs/NUMBERS.md, in a column of a section; no line there is without them.
macro_rules! in_words {
    ($name:ident, $title:literal, $column:literal, $function:literal, $header:literal) => {
        let said: Vec<(u8, String)> = lines($title).into_iter().map(|(number, cells)| (number, cells[$column].clone())).collect();
        let ours: Vec<(u8, String)> = $name::ALL.iter().map(|case| (case.number(), case.words().to_string())).collect();
        let refusals = ours[0].0 != 0;
        assert_eq!(said.iter().filter(|(number, _)| !refusals || *number != 0).cloned().collect::<Vec<_>>(), ours);
        assert_eq!(texts($function, $header), said);
    };
}

#[test]
fn words() {
    in_words!(Refusal, "Of a run", 0, "ks_refusal_text", "ks_refusal");
    in_words!(Code, "Of a record: its answer", 0, "ks_answer_text", "ks_answer");
    in_words!(Reason, "Of a record: why", 2, "ks_reason_text", "ks_reason");
    in_words!(BackupRefusal, "Of the backup record", 1, "ks_backup_text", "ks_backup_reply");
    for (byte, cells) in lines("Of a record: why") {
        let reason = Reason::try_from(byte).expect("a reason");
        assert_eq!((cells[0].parse(), cells[1].parse()), (Ok(reason.code().number()), Ok(reason.cause())), "{byte}");
    }
}

#[test]
fn records_as_bytes() {
    assert_eq!(Record::feed(3, 0x0102_0304).bytes(), [4, 3, 1, 2, 3, 4]);
    assert_eq!(Record::schedule(&[]), [0, 1, 1]);
    assert_eq!(Record::schedule(&[Record::crash(2)]), [0, 7, 1, 5, 2, 0, 0, 0, 0]);
    assert_eq!((Record::return_board(2).bytes(), Record::resync(9).bytes()), ([6, 2, 0, 0, 0, 0], [7, 9, 0, 0, 0, 0]));
    assert_eq!(Record::back().bytes(), [8, 0, 0, 0, 0, 0]);
    assert_eq!(Record::schedule(&[Record::step(0); 10_000]).len(), 60_003);
    // However many there are, too many are too many.
    for records in [10_001, 10_922, 10_923, 20_000] {
        let schedule = Record::schedule(&vec![Record::step(0); records]);
        assert_eq!(judge(&TABLE, &schedule, Lengths::ENOUGH), Err(Refusal::ScheduleLength));
    }
}

/// The library, the header and the bindings are of one number, and of one release.
#[test]
fn one_abi() {
    let defined = |name: &str| HEADER.lines().find_map(|line| line.strip_prefix("#define ")?.strip_prefix(name)).expect(name);
    assert_eq!((defined("KS_ABI ").parse(), check_abi()), (Ok(ABI), Ok(())));
    assert_eq!(defined("KS_VERSION "), format!("{VERSION:?}"));
}

#[test]
fn the_record() {
    let mut backup = Backup::new();
    assert_eq!(backup, Backup::from_numbers([9; SAVED], [0; 7]));
    (0..64).for_each(|i| assert_eq!(backup.arrive(i % 4, i), Ok(())));
    assert_eq!(backup.arrive(0, 0), Err(BackupRefusal::Full));
    assert_eq!(backup.arrive(4, 0), Err(BackupRefusal::Bad));
    (0..32).for_each(|_| assert_eq!(backup.count_one(), Ok(())));
    assert_eq!(backup.count_one(), Err(BackupRefusal::Count));
    let snapshot = |place, taken| Snapshot { place, registers: [1, 2, 3, 4], taken };
    let before = backup;
    assert_eq!(backup.sync(&snapshot(65, [0; 4])), Err(BackupRefusal::Bad));
    assert_eq!(backup.sync(&snapshot(64, [17, 0, 0, 0])), Err(BackupRefusal::Taken));
    assert_eq!(backup, before);
    assert_eq!(backup.take_over().map(|taken| (taken.count(), taken.words().count())), Ok((32, 64)));
    assert_eq!(backup.sync(&snapshot(64, [16, 16, 16, 15])), Ok(Synced { dropped: [16, 16, 16, 15], remain: [0, 0, 0, 1] }));
    assert_eq!((backup.words().collect::<Vec<_>>(), backup.count(), backup.place()), (vec![(3, 63)], 0, 64));
    let mut head = *backup.head();
    head[0] = u32::MAX;
    let mut unfit = Backup::from_numbers(*backup.saved(), head);
    assert_eq!((unfit.arrive(0, 0), unfit.take_over()), (Err(BackupRefusal::Unfit), Err(BackupRefusal::Unfit)));
    assert_eq!(unfit.words().count(), 64);
}

/// What a builder says comes back from its bytes, and its refusals are the library's.
#[test]
fn tables() {
    let mut table = Table::new(2);
    let scans = table.channel(End::Outside, End::Process(0));
    let outlet = table.channel(End::Process(0), End::Outside);
    let program = [
        Operation::Take { register: 0, channel: scans },
        Operation::Send { register: 0, channel: outlet },
        Operation::Jump { register: 0, place: 0 },
    ];
    table.process(0, 1, &program);
    let bytes = table.bytes().expect("a table");
    assert_eq!((bytes.len(), Table::of(&bytes).as_ref()), (31, Ok(&table)));
    assert_eq!(judge(&bytes, &[0, 1, 1], Lengths::needed(0, 1)), Ok(()));
    let lists = table.lists();
    let mut short = [0xEE; 30];
    assert_eq!(write_table(&lists, &mut short), Err(Refusal::NoRoom));
    let mut few = [7; 8];
    assert_eq!(take_apart(&bytes, &mut [0; 4], &mut [0; 3], &mut [], &mut few), Err(Refusal::NoRoom));
    assert!(short.iter().all(|&byte| byte == 0xEE) && few.iter().all(|&n| n == 7));
    table.processes[0].backup = 2;
    assert_eq!(table.bytes(), Err(Refusal::Boards));
    table.processes[0].program[0] = Operation::Take { register: 4, channel: 0 };
    table.processes[0].backup = 1;
    assert_eq!(table.bytes(), Err(Refusal::Instruction));
    // Lists may have numbers that fit no byte.
    let changed = |change: fn(&mut Lists)| {
        let mut lists = lists.clone();
        change(&mut lists);
        lists.table()
    };
    assert_eq!(changed(|lists| lists.placements[1] = 257), Err(Refusal::Boards));
    assert_eq!(changed(|lists| lists.instructions[1] = 256), Err(Refusal::Instruction));
    // So many channels that a number fits no byte are too many anyway.
    (0..300).for_each(|_| assert!(table.channel(End::Outside, End::Process(0)) > 1));
    assert_eq!(table.bytes(), Err(Refusal::TableCounts));
    assert_eq!(Table::of(&bytes[1..]), Err(Refusal::TableLength));
}
