//! Explanations of tables of season 3, whose peers have weights, written by hand
//! from document 02's P8.

use scribe::explain::{explain_bytes, explain_text, Which};

/// Three peers that weigh 3, 1 and 2, of which the last is dishonest. Peers 1 and 3
/// reach the threshold, and no others do but all.
const TABLE: &str =
    "season 3\npeers 3 threshold 5 honest 1 2 periods 1\nweights 3 1 2\nvote 7 01\n";

/// What is told of a step: its answer, and what is new or wrong.
#[test]
fn peers_of_unequal_weight() {
    let signers = "signers on item 0 in period 0 that weigh";
    let open = "signers on item 0 in its open period 0";
    let shares = "receipt shares in period 0";
    let hashes = "hashes of its board of period 0";
    let signed = |j, weight| {
        let start = format!("0 done: signature of peer {j} on item 0 in period 0");
        format!("{start}; peer {j} has {signers} {weight} of 5: {j} (new {j})")
    };
    let shared = |j, weight| {
        let start = format!("0 done: receipt share of peer {j} on item 0 in period 0");
        format!("{start}, weight {weight} of 5")
    };
    let steps = [
        ("post 0", "0 done: item 0 is posted".to_string()),
        ("share 1 0", format!("12 short: peer 1 has no {open}, and t is 5")),
        ("hand 1 0", "0 done: peer 1 holds item 0 in period 0".to_string()),
        ("sign 1 0", signed(1, 3)),
        ("hand 2 0", "0 done: peer 2 holds item 0 in period 0".to_string()),
        ("sign 2 0", signed(2, 1)),
        ("take 1 2 0 0", format!("0 done: peer 1 has {signers} 4 of 5: 1, 2 (new 2)")),
        ("share 1 0", format!("12 short: peer 1 has {open} that weigh 4 of 5: 1, 2")),
        ("false-signature 3 0 0", "0 done: signature of peer 3 on item 0 in period 0".to_string()),
        ("take 1 3 0 0", format!("0 done: peer 1 has {signers} 6 (5 needed): 1, 2, 3 (new 3)")),
        ("receipt 0 0", format!("12 short: item 0 has no {shares}, and t is 5")),
        ("share 1 0", shared(1, 3)),
        ("receipt 0 0", format!("12 short: item 0 has {shares} that weigh 3 of 5: from 1")),
        ("false-share 3 0 0", shared(3, 5)),
        ("receipt 0 0", "0 done: receipt for item 0 in period 0".to_string()),
        ("close 1", "0 done: peer 1 has closed period 0, the last".to_string()),
        (
            "back 1",
            format!("12 short: peer 1 has heard no {hashes}, and t is 5; its board has item 0"),
        ),
        ("false-hash 3 0 board", "0 done: hash of peer 3, period 0, no items: entry 0".to_string()),
        (
            "hear 1 entry 0",
            "0 done: peer 1 has heard entry 0, the hash of peer 3, period 0, no items".to_string(),
        ),
        (
            "back 1",
            format!(
                "12 short: peer 1 has heard no {hashes}, and t is 5; \
                    of other boards from 3; its board has item 0"
            ),
        ),
        (
            "false-backing 3 0 board",
            "0 done: backing of peer 3, period 0, no items: entry 1".to_string(),
        ),
        (
            "publish entry 1",
            "12 short: the board of period 0, no items, has backings that weigh 2 of 5: from 3"
                .to_string(),
        ),
    ];
    let lines: String = steps.iter().map(|(step, _)| format!("{step}\n")).collect();
    let told = "table of season 3: 3 peers, honest 1, 2; weights 3, 1, 2, 6 in all; threshold 5; \
        1 period, 1 item\n";
    let told = steps.iter().enumerate().fold(told.to_string(), |told, (k, (step, reason))| {
        told + &format!("line {}, step {}: {step}\n    {reason}\n", k + 5, k + 1)
    });
    let explanation = explain_text(&format!("{TABLE}{lines}"), Which::All).unwrap();
    assert_eq!(explanation, told + "22 steps: 15 done, 7 refused\n");
}

/// A table of season 3 written as text. The weights have a line of their own, which
/// is named if nothing else is wrong.
#[test]
fn weights_in_text() {
    for (peers, weights, line, fact) in [
        (
            "peers 4 threshold 5 honest 1 periods 1",
            "weights 4 0 1 5",
            3,
            "weight 0 of peer 2, 5 of peer 4, but weights are 1 to 4",
        ),
        (
            "peers 4 threshold 4 honest 1 periods 1",
            "weights 4 1 1 1",
            2,
            "threshold 4, but with a weight of 7 in all it must be 5 to 7",
        ),
        (
            "peers 4 threshold 8 honest 1 periods 1",
            "weights 4 1 1 1",
            2,
            "threshold 8, but with a weight of 7 in all it must be 5 to 7",
        ),
        (
            "peers 1 threshold 2 honest 1 periods 1",
            "weights 3",
            2,
            "threshold 2, but with a weight of 3 in all it must be 3",
        ),
        (
            "peers 2 threshold 2 honest 1 3 periods 9",
            "weights 1 5",
            2,
            "honest 3, but there are 2 peers; 9 periods, but a table has 1 to 8; \
                weight 5 of peer 2, but weights are 1 to 4",
        ),
        ("peers 0 threshold 2 honest periods 1", "weights", 2, "0 peers, but a table has 1 to 16"),
    ] {
        let lines = ["season 3", peers, weights, "vote 7 01", ""];
        let told = explain_text(&lines.join("\n"), Which::All).unwrap();
        let head = lines[line - 1];
        assert_eq!(told, format!("line {line}: {head}\n    refused 1 header: {fact}\n"));
    }
    let bare = "season 3\npeers 1 threshold 1 honest 1 periods 1\nweights 1\naudit 7\n";
    let fact =
        "item 0 is an audit with 0 bytes after its kind, but in season 3 it has 1, its place";
    let told = explain_text(bare, Which::All).unwrap();
    assert_eq!(told, format!("line 4: audit 7\n    refused 3 item: {fact}\n"));
}

/// A table in bytes that starts with 0 and 3.
#[test]
fn tables_of_season_3_in_bytes() {
    let table = [
        0, 3, 2, 4, 0, 1, 1, 1, // season and header: two peers, one period, one item
        4, 1, // weights
        0, 14, 0, 6, // pair
        0, 0, 0, 7, 2, 5, // audit of ballot 7 from place 5
    ];
    let altered = |at: usize, byte: u8| {
        let mut bytes = table.to_vec();
        bytes[at] = byte;
        bytes
    };
    let least = "but a table of season 3";
    for (input, fact) in [
        (table[..2].to_vec(), format!("1 header: 2 bytes, {least} has at least 9")),
        (table[..7].to_vec(), format!("1 header: 7 bytes, {least} has at least 9")),
        (table[..8].to_vec(), format!("1 header: 8 bytes, {least} with 2 peers has at least 10")),
        (table[..9].to_vec(), format!("1 header: 9 bytes, {least} with 2 peers has at least 10")),
        (
            table[..10].to_vec(),
            "2 pairs: the pairs of 1 item end at byte 14, but the input at byte 10".to_string(),
        ),
        (altered(2, 17), "1 header: 17 peers, but a table has 1 to 16".to_string()),
        (
            altered(3, 3),
            "1 header: threshold 3, but with a weight of 5 in all it must be 4 to 5".to_string(),
        ),
        (altered(8, 5), "1 header: weight 5 of peer 1, but weights are 1 to 4".to_string()),
        (
            altered(11, 12),
            "2 pairs: item 0 has offset 12, but the pairs end at byte 14".to_string(),
        ),
    ] {
        let told = explain_bytes(&input, Which::All);
        assert_eq!(told, format!("table\n    refused {fact}\n"), "{input:?}");
    }
    let told = "table of season 3: 2 peers, honest 1; weights 4, 1, 5 in all; threshold 4; \
        1 period, 1 item\n0 steps: 0 done, 0 refused\n";
    assert_eq!(explain_bytes(&table, Which::All), told);
}
