//! Explanations of tables and inputs that are refused, written by hand from
//! document 01 and from document 02's P5; `weights` has those of season 3.

use reference::table::write_table;
use scribe::explain::{explain_bytes, explain_text, Which};

/// A table written as text: its lines are named.
#[test]
fn tables_in_text() {
    let header = "peers 3 threshold 3 honest 1 periods 1";
    let refused = |lines: &str| explain_text(&format!("# refused\n{lines}\n"), Which::All).unwrap();
    for (lines, head, fact) in [
        (
            "peers 3 threshold 2 honest 1 periods 1".to_string(),
            "line 2: peers 3 threshold 2 honest 1 periods 1",
            "1 header: threshold 2, but with 3 peers it must be 3",
        ),
        (
            "peers 4 threshold 2 honest 5 16 periods 9".to_string(),
            "line 2: peers 4 threshold 2 honest 5 16 periods 9",
            "1 header: threshold 2, but with 4 peers it must be 3 to 4; \
                honest 5, 16, but there are 4 peers; 9 periods, but a table has 1 to 8",
        ),
        (
            format!("{header}\naudit 7\nvote 7"),
            "line 4: vote 7",
            "3 item: item 1 is a vote with 0 bytes of preferences, not 1 to 32",
        ),
        (
            format!("{header}\naudit 7\naudit 8\n\naudit 7"),
            "line 6: audit 7",
            "4 twin: items 0 and 2 are the same",
        ),
        (
            format!("{header}\naudit 7\naudit 7 place 5"),
            "line 4: audit 7 place 5",
            "3 item: item 1 is an audit with 1 byte after its kind, but in the first season it has none",
        ),
        (
            format!("season 2\n{header}\naudit 7 place 5\naudit 7"),
            "line 5: audit 7",
            "3 item: item 1 is an audit with 0 bytes after its kind, but in season 2 it has 1, its place",
        ),
        (
            format!("season 2\n{header}\naudit 7 place 5\naudit 7 place 6\naudit 7 place 5"),
            "line 6: audit 7 place 5",
            "4 twin: items 0 and 2 are the same",
        ),
        (
            "season 2\npeers 3 threshold 2 honest 1 periods 1".to_string(),
            "line 3: peers 3 threshold 2 honest 1 periods 1",
            "1 header: threshold 2, but with 3 peers it must be 3",
        ),
        (
            "peers 0 threshold 4 honest 1 periods 1".to_string(),
            "line 2: peers 0 threshold 4 honest 1 periods 1",
            "1 header: 0 peers, but a table has 1 to 16, and one of season 2 or 3 \
                starts with 0 and 2 or with 0 and 3, not with 0 and 4",
        ),
    ] {
        assert_eq!(refused(&lines), format!("{head}\n    refused {fact}\n"));
    }
}

/// A table in bytes.
#[test]
fn tables_in_bytes() {
    let one = |item: &[u8]| write_table(1, 1, 1, 1, &[item.to_vec()]);
    let mut many = write_table(1, 1, 1, 1, &[]);
    many[5] = 65;
    let mut moved = one(&[0, 0, 0, 7, 2]);
    moved[7] = 11;
    let mut second = write_table(1, 1, 1, 1, &[vec![0, 0, 0, 7, 2], vec![0, 0, 0, 8, 2]]);
    second[11] += 1;
    for (input, fact) in [
        (vec![], "1 header: 0 bytes, but a table has at least 6"),
        (vec![1], "1 header: 1 byte, but a table has at least 6"),
        (write_table(17, 1, 1, 1, &[]), "1 header: 17 peers, but a table has 1 to 16"),
        (many, "1 header: 65 items, but a table has at most 64"),
        (
            one(&[0, 0, 0, 7, 2])[..9].to_vec(),
            "2 pairs: the pairs of 1 item end at byte 10, but the input at byte 9",
        ),
        (moved, "2 pairs: item 0 has offset 11, but the pairs end at byte 10"),
        (second, "2 pairs: item 1 has offset 20, but item 0 ends at byte 19"),
        (
            one(&[0, 0, 0, 7, 2])[..14].to_vec(),
            "2 pairs: item 0 ends at byte 15, but the input at byte 14",
        ),
        (
            one(&[0, 0, 7]),
            "3 item: item 0 has 3 bytes, but an item has at least 5: ballot number and kind",
        ),
        (
            one(&[0, 0, 0, 7, 9]),
            "3 item: item 0 has kind 9, not 1 (vote), 2 (audit) or 3 (cancellation)",
        ),
        (
            one(&[0, 0, 0, 7, 2, 1]),
            "3 item: item 0 is an audit with 1 byte after its kind, but in the first season it has none",
        ),
        (
            one(&[0, 0, 0, 7, 3, 1, 2]),
            "3 item: item 0 is a cancellation with 2 bytes after its kind, not none",
        ),
    ] {
        let told = explain_bytes(&input, Which::All);
        assert_eq!(told, format!("table\n    refused {fact}\n"), "{input:?}");
    }
    let long = explain_bytes(&vec![1; 65_537], Which::Last);
    let fact = "15 input: 65537 bytes, but a rehearsal has at most 65536";
    assert_eq!(long, format!("input\n    refused {fact}\n"));
}

/// A table in bytes that starts with 0: with 0 and 2 it is of season 2.
#[test]
fn tables_of_season_2_in_bytes() {
    let table = [
        0, 2, 1, 1, 0, 1, 1, 1, // season and header: one peer, one period, one item
        0, 12, 0, 6, // pair
        0, 0, 0, 7, 2, 5, // audit of ballot 7 from place 5
    ];
    let altered = |at: usize, byte: u8| {
        let mut bytes = table.to_vec();
        bytes[at] = byte;
        bytes
    };
    // In the first season its fifth byte would be the number of periods.
    let periods = "0 periods, but a table has 1 to 8";
    let least = "but a table of season 2 has at least 8";
    let start = "0 peers, but a table has 1 to 16, and one of season 2 or 3 \
        starts with 0 and 2 or with 0 and 3, not with 0";
    for (input, fact) in [
        (table[..1].to_vec(), "1 header: 1 byte, but a table has at least 6".to_string()),
        (table[..2].to_vec(), format!("1 header: 2 bytes, {least}")),
        (table[..7].to_vec(), format!("1 header: 7 bytes, {least}")),
        (altered(1, 4), format!("1 header: {start} and 4; {periods}")),
        (altered(1, 1), format!("1 header: {start} and 1; {periods}")),
        // In season 3 the pair's first byte is the weight.
        (altered(1, 3), "1 header: weight 0 of peer 1, but weights are 1 to 4".to_string()),
        (altered(2, 0), "1 header: 0 peers, but a table has 1 to 16".to_string()),
        (altered(3, 2), "1 header: threshold 2, but with 1 peer it must be 1".to_string()),
        (altered(9, 10), "2 pairs: item 0 has offset 10, but the pairs end at byte 12".to_string()),
        (
            table[..17].to_vec(),
            "2 pairs: item 0 ends at byte 18, but the input at byte 17".to_string(),
        ),
        (
            altered(11, 5),
            "3 item: item 0 is an audit with 0 bytes after its kind, \
                but in season 2 it has 1, its place"
                .to_string(),
        ),
    ] {
        let told = explain_bytes(&input, Which::All);
        assert_eq!(told, format!("table\n    refused {fact}\n"), "{input:?}");
    }
    let told = "table of season 2: 1 peer, honest 1; threshold 1; 1 period, 1 item\n\
        0 steps: 0 done, 0 refused\n";
    assert_eq!(explain_bytes(&table, Which::All), told);
}
