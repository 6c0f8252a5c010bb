//! Tables with sync limits: built, written and taken apart, and what is refused of them.
use kunzeastylus::{take_apart, Apart, Counts, End, Operation, Refusal, Table};

/// A scanner's process on board 0 and a printer's on board 1, each the other's backup board.
fn table() -> Table {
    let mut table = Table::new(2);
    let scans = table.channel(End::Outside, End::Process(0));
    let labels = table.channel(End::Process(0), End::Process(1));
    let pass_on = [Operation::Take { register: 0, channel: scans }, Operation::Send { register: 0, channel: labels }];
    table.process(0, 1, &pass_on);
    table.process(1, 0, &[Operation::Take { register: 0, channel: labels }]);
    table
}

#[test]
fn version_by_limits() {
    let mut table = table();
    let plain = table.bytes().expect("a table");
    assert_eq!((plain.len(), plain[2], &plain[10..13], Table::of(&plain).as_ref()), (34, 1, &[0, 1, 2][..], Ok(&table)));
    // One limit makes it version 2, in which the other process has document 01's.
    table.limit(0, 2);
    let bytes = table.bytes().expect("a table");
    assert_eq!((bytes.len(), bytes[2], &bytes[10..14], &bytes[26..30]), (36, 2, &[0, 1, 2, 2][..], &[1, 0, 8, 1][..]));
    table.limit(1, 16);
    let bytes = table.bytes().expect("a table");
    assert_eq!((&bytes[26..30], Table::of(&bytes)), (&[1, 0, 16, 1][..], Ok(table)));
}

#[test]
fn refused() {
    let mut limited = table();
    for limit in [0, 17, 255] {
        limited.limit(1, limit);
        assert_eq!(limited.bytes(), Err(Refusal::Limit), "limit {limit}");
    }
    let mut lists = limited.lists();
    lists.limits[1] = 258;
    assert_eq!(lists.table(), Err(Refusal::Limit));
    // Version 1 takes no limits, not even eights; there is no version 3.
    let mut lists = table().lists();
    lists.limits = vec![8, 8];
    assert_eq!(lists.table(), Err(Refusal::TableExtent));
    lists.version = 2;
    assert_eq!(lists.table().map(|table| table.len()), Ok(36));
    lists.limits.pop();
    assert_eq!(lists.table(), Err(Refusal::TableExtent));
    lists.version = 3;
    assert_eq!(lists.table(), Err(Refusal::TableVersion));
}

#[test]
fn apart() {
    let mut limited = table();
    limited.limit(0, 2);
    let mut bytes = limited.bytes().expect("a table");
    let mut limits = [7; 3];
    let mut apart = |bytes: &[u8], room: usize| take_apart(bytes, &mut [0; 4], &mut [0; 6], &mut limits[..room], &mut [0; 9]);
    let counts = Counts { boards: 2, processes: 2, channels: 2 };
    assert_eq!(apart(&bytes, 1), Err(Refusal::NoRoom));
    assert_eq!(apart(&bytes, 3), Ok(Apart { version: 2, counts, instructions: 3 }));
    assert_eq!(limits, [2, 8, 7]);
    // Version 1 has none, and needs no room for them.
    let plain = table().bytes().expect("a table");
    let apart = |bytes: &[u8]| take_apart(bytes, &mut [0; 4], &mut [0; 6], &mut [], &mut [0; 9]);
    assert_eq!(apart(&plain), Ok(Apart { version: 1, counts, instructions: 3 }));
    bytes[12] = 0;
    assert_eq!(Table::of(&bytes), Err(Refusal::Limit));
}
