//! Names that the table does not have and audits that are not of its season are
//! written, and warned of with their lines.

use scribe::read;

const TABLE: &str = "# four peers\npeers 4 threshold 3 honest 1 2 3 periods 2\naudit 7\naudit 8\n";

/// The warnings of the step that stands fifth, after a table of two items.
fn fifth(step: &str) -> Vec<String> {
    let written = read(&format!("{TABLE}{step}\n")).unwrap();
    assert_eq!(written.bytes.len(), 6 + 8 + 10 + 13, "{step}: all is written");
    written.warnings
}

#[test]
fn names_in_range() {
    for step in [
        "post 1",
        "hand 4 0",
        "take 1 4 1 1",
        "fetch 1 4 0",
        "false-hash 4 1 board 0 1",
        "receipt 1 1",
        "clear 1",
        "hear 1 entry 255",
        "publish entry 255",
        "raw 02 09 00 00 09 00 00 00 00 00 00 00 00",
    ] {
        assert_eq!(fifth(step), [""; 0], "{step}");
    }
}

#[test]
fn names_out_of_range() {
    let (peers, periods, items) = (
        "the table has peers 1 to 4",
        "the table has periods 0 to 1",
        "the table has items 0 to 1",
    );
    for (step, expected) in [
        ("hand 0 0", format!("peer 0: {peers}")),
        ("close 5", format!("peer 5: {peers}")),
        ("take 1 0 0 0", format!("the other peer 0: {peers}")),
        ("fetch 1 5 0", format!("the other peer 5: {peers}")),
        ("hash 1 2", format!("period 2: {periods}")),
        ("clear 2", format!("period 2: {periods}")),
        ("post 2", format!("item 2: {items}")),
        ("sign 1 255", format!("item 255: {items}")),
        ("false-backing 4 0 board 0 2", format!("item 2 of the board: {items}")),
        ("false-hash 4 0 board 1 2 63", format!("items 2 63 of the board: {items}")),
    ] {
        assert_eq!(fifth(step), [format!("line 5: {expected}")], "{step}");
    }
}

#[test]
fn one_for_each_name() {
    let expected = [
        "line 5: peer 0: the table has peers 1 to 4",
        "line 5: the other peer 9: the table has peers 1 to 4",
        "line 5: period 3: the table has periods 0 to 1",
        "line 5: item 4: the table has items 0 to 1",
    ];
    assert_eq!(fifth("take 0 9 3 4"), expected);
}

#[test]
fn small_tables() {
    let text = "peers 1 threshold 1 honest 1 periods 1\n\nhand 2 0 # nobody\nhash 1 1\n";
    let expected = [
        "line 3: peer 2: the table has peer 1 alone",
        "line 3: item 0: the table has no items",
        "line 4: period 1: the table has period 0 alone",
    ];
    assert_eq!(read(text).unwrap().warnings, expected);
}

#[test]
fn honest_peers_above_n() {
    let text = "peers 3 threshold 3 honest 1 4 16 periods 1\n";
    let expected = ["line 1: honest 4, 16: the table has peers 1 to 3"];
    assert_eq!(read(text).unwrap().warnings, expected);
}

/// An audit that the engine will refuse, in any season; `item` is not looked at,
/// nor is any other item.
#[test]
fn audits_of_another_season() {
    let lines = "peers 4 threshold 3 honest 1 2 3 periods 1\naudit 7\naudit 7 place 5\n\
        item 00 00 00 07 02 05 05\nvote 7\npost 9\n";
    let first = read(lines).unwrap();
    assert_eq!(first.bytes.len(), 6 + 16 + 5 + 6 + 7 + 5 + 13);
    let step = "item 9: the table has items 0 to 3";
    let expected = [
        "line 3: item 1 is an audit with 1 byte after its kind, but in the first season it has none"
            .to_string(),
        format!("line 6: {step}"),
    ];
    assert_eq!(first.warnings, expected);
    let second = read(&format!("season 2\n{lines}")).unwrap();
    assert_eq!(second.bytes.len(), first.bytes.len() + 2);
    let expected = [
        "line 3: item 0 is an audit with 0 bytes after its kind, but in season 2 it has 1, its place"
            .to_string(),
        format!("line 7: {step}"),
    ];
    assert_eq!(second.warnings, expected);
    let weighed = lines.replacen('\n', "\nweights 1 1 1 1\n", 1);
    let third = read(&format!("season 3\n{weighed}")).unwrap();
    assert_eq!(third.bytes.len(), second.bytes.len() + 4);
    let expected = [
        "line 4: item 0 is an audit with 0 bytes after its kind, \
            but in season 3 it has 1, its place"
            .to_string(),
        format!("line 8: {step}"),
    ];
    assert_eq!(third.warnings, expected);
}

/// The header is read behind the season. Weights out of range are no names.
#[test]
fn names_in_later_seasons() {
    let lines = "peers 3 threshold 3 honest 1 4 periods 2\naudit 7 place 5\nhand 4 1\nhash 3 2\n";
    let third = format!("season 3\n{}", lines.replacen('\n', "\nweights 0 5 255\n", 1));
    for (text, first) in [(format!("season 2\n{lines}"), 4), (third, 5)] {
        let expected = [
            "line 2: honest 4: the table has peers 1 to 3".to_string(),
            format!("line {first}: peer 4: the table has peers 1 to 3"),
            format!("line {first}: item 1: the table has item 0 alone"),
            format!("line {}: period 2: the table has periods 0 to 1", first + 1),
        ];
        assert_eq!(read(&text).unwrap().warnings, expected);
    }
}
