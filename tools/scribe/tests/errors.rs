//! What cannot be read is an error that has the line and what was expected
//! there.

use scribe::{bytes, text};

const HEADER: &str = "peers 1 threshold 1 honest 1 periods 1";

/// The error of a line that stands third, after a comment and the header.
fn third(line: &str) -> String {
    bytes(&format!("# a comment\n{HEADER}\n{line}\n")).unwrap_err()
}

#[test]
fn headers() {
    let form = "'peers N threshold T honest K .. periods P'";
    assert_eq!(bytes("").unwrap_err(), format!("line 1: expected {form}, found no line"));
    assert_eq!(bytes("\n\npost 0").unwrap_err(), format!("line 3: expected {form}, found 'post'"));
    let cases = [
        ("peers", "a number of peers (0 to 255), found the end of the line"),
        ("peers 256", "a number of peers (0 to 255), found '256'"),
        ("peers 4 3", "'threshold', found '3'"),
        ("peers 4 threshold x", "a threshold (0 to 255), found 'x'"),
        ("peers 4 threshold 3 honest 0", "an honest peer (1 to 16), found '0'"),
        ("peers 4 threshold 3 honest 1 17", "an honest peer (1 to 16), found '17'"),
        ("peers 4 threshold 3 honest 2 2", "2 once, found it twice"),
        ("peers 4 threshold 3 honest 1", "'periods', found the end of the line"),
        ("peers 4 threshold 3 honest periods -1", "a number of periods (0 to 255), found '-1'"),
        ("peers 4 threshold 3 honest periods 1 2", "the end of the line, found '2'"),
    ];
    for (line, expected) in cases {
        assert_eq!(bytes(line).unwrap_err(), format!("line 1: expected {expected}"));
    }
}

#[test]
fn seasons() {
    let form = "'peers N threshold T honest K .. periods P'";
    let later = "'2' or '3' (a table of the first season has no such line)";
    for (lines, expected) in [
        ("season", format!("line 1: expected {later}, found the end of the line")),
        ("season 1", format!("line 1: expected {later}, found '1'")),
        ("season 4", format!("line 1: expected {later}, found '4'")),
        ("season 2 3", "line 1: expected the end of the line, found '3'".to_string()),
        ("season 2", format!("line 2: expected {form}, found no line")),
        ("\n# a comment\nseason 2\n", format!("line 4: expected {form}, found no line")),
        ("season 2\nseason 2", format!("line 2: expected {form}, found 'season'")),
        ("season 2\naudit 7 place 5", format!("line 2: expected {form}, found 'audit'")),
    ] {
        assert_eq!(bytes(lines).unwrap_err(), expected, "{lines}");
    }
    let late = "an item, a step or 'raw' (the season stands first), found 'season'";
    assert_eq!(third("season 2"), format!("line 3: expected {late}"));
    assert_eq!(third("audit 7\npost 0\nseason 2"), format!("line 5: expected {late}"));
}

/// Its bytes would be those of another table.
#[test]
fn a_header_of_another_season() {
    for t in [2, 3] {
        let line = format!("peers 0 threshold {t} honest 1 periods 1\n");
        let told = format!("a table that starts with 0 and {t} is of season {t}");
        let expected = format!("line 1: expected no threshold {t} of 0 peers: {told}");
        assert_eq!(bytes(&line).unwrap_err(), expected);
        assert_eq!(bytes(&format!("season 2\n{line}")).unwrap(), [0, 2, 0, t, 0, 1, 1, 0]);
        assert_eq!(bytes(&format!("season 3\n{line}weights\n")).unwrap(), [0, 3, 0, t, 0, 1, 1, 0]);
    }
}

/// In season 3 they stand behind the header, one for each peer; in no other season.
#[test]
fn weights() {
    let header = "peers 3 threshold 3 honest 1 periods 1";
    let (form, third) = ("'weights A ..'", format!("season 3\n{header}\n"));
    let third = |line: &str| bytes(&format!("{third}{line}\n")).unwrap_err();
    for (line, expected) in [
        ("", format!("{form}, found no line")),
        ("vote 7 01", format!("{form}, found 'vote'")),
        ("post 0", format!("{form}, found 'post'")),
        ("weights", "the weight of peer 1 (0 to 255), found the end of the line".to_string()),
        ("weights 1 1", "the weight of peer 3 (0 to 255), found the end of the line".to_string()),
        ("weights 1 1 1 1", "the end of the line after 3 weights, found '1'".to_string()),
        ("weights 1 256 1", "the weight of peer 2 (0 to 255), found '256'".to_string()),
        ("weights 1 1 x", "the weight of peer 3 (0 to 255), found 'x'".to_string()),
        ("weights 1 1 -1", "the weight of peer 3 (0 to 255), found '-1'".to_string()),
    ] {
        assert_eq!(third(line), format!("line 3: expected {expected}"), "{line}");
    }
    let place = "weights stand behind 'peers', in season 3 alone";
    let late = format!("expected an item, a step or 'raw' ({place}), found 'weights'");
    let line = "weights 1 1 1";
    assert_eq!(third(&format!("{line}\n{line}")), format!("line 4: {late}"));
    assert_eq!(third(&format!("{line}\npost 0\n{line}")), format!("line 5: {late}"));
    assert_eq!(bytes(&format!("{header}\n{line}")).unwrap_err(), format!("line 2: {late}"));
    let second = format!("season 2\n{header}\nvote 7 01\n{line}\n");
    assert_eq!(bytes(&second).unwrap_err(), format!("line 4: {late}"));
    let first = format!("season 3\n{line}\n{header}\n");
    let form = "'peers N threshold T honest K .. periods P'";
    assert_eq!(bytes(&first).unwrap_err(), format!("line 2: expected {form}, found 'weights'"));
}

#[test]
fn items_and_steps() {
    let cases = [
        ("vote", "a ballot number (0 to 4294967295), found the end of the line"),
        ("vote 4294967296 00", "a ballot number (0 to 4294967295), found '4294967296'"),
        ("vote 7 1", "a preference byte of two hexadecimal digits, found '1'"),
        ("vote 7 +1", "a preference byte of two hexadecimal digits, found '+1'"),
        ("audit 7 00", "'place' or the end of the line, found '00'"),
        ("audit 7 place", "a place (0 to 255), found the end of the line"),
        ("audit 7 place 256", "a place (0 to 255), found '256'"),
        ("audit 7 place 5 6", "the end of the line, found '6'"),
        ("cancel 7 place 5", "the end of the line, found 'place'"),
        ("cancel", "a ballot number (0 to 4294967295), found the end of the line"),
        ("item 0G", "an item byte of two hexadecimal digits, found '0G'"),
        ("vot 7", "an item (before the first step), a step or 'raw', found 'vot'"),
        ("hand 1", "an item number (0 to 255), found the end of the line"),
        ("hand 1 0 0", "the end of the line, found '0'"),
        ("take 1 256 0 0", "the other peer's number (0 to 255), found '256'"),
        ("hear 1 0", "'entry', found '0'"),
        ("publish 1", "'entry', found '1'"),
        ("false-hash 4 0 0", "'board', found '0'"),
        ("false-hash 4 0 board 64", "an item number (0 to 63), found '64'"),
        ("false-hash 4 0 board 1 1", "1 once, found it twice"),
        ("raw", "1 to 13 bytes after 'raw', found 0"),
        ("raw 00 01 02 03 04 05 06 07 08 09 0A 0B 0C 0D", "1 to 13 bytes after 'raw', found 14"),
        ("raw 0", "a byte of two hexadecimal digits, found '0'"),
    ];
    for (line, expected) in cases {
        assert_eq!(third(line), format!("line 3: expected {expected}"));
    }
}

#[test]
fn order_of_lines() {
    let late = "a step or 'raw' (items stand before the first step)";
    assert_eq!(third("post 0\naudit 7"), format!("line 4: expected {late}, found 'audit'"));
    let short = "nothing after the short raw of line 3";
    assert_eq!(third("raw 01\n\npost 0"), format!("line 5: expected {short}, found 'post'"));
    assert_eq!(third("audit 7\n".repeat(256).trim()), "line 258: expected at most 255 items");
    let long = format!("item{}", " 00".repeat(65_536));
    assert_eq!(third(&long), "line 3: expected items of at most 65535 bytes");
}

#[test]
fn tables_without_text() {
    let error = |input: &[u8]| text(input).unwrap_err();
    let start = "no text for this table";
    let [first, second] = ["table has at least 6", "table of season 2 has at least 8"];
    assert_eq!(error(&[1, 1]), format!("{start}: 2 bytes, but a {first}"));
    assert_eq!(error(&[0]), format!("{start}: 1 byte, but a {first}"));
    assert_eq!(error(&[0, 2]), format!("{start}: 2 bytes, but a {second}"));
    assert_eq!(error(&[0, 2, 1, 1, 0, 1, 1]), format!("{start}: 7 bytes, but a {second}"));
    let second = [0, 2, 1, 1, 0, 1, 1, 1, 0, 10, 0, 0];
    assert_eq!(
        error(&second),
        format!("{start}: item 0 has offset 10, but the pairs end at byte 12")
    );
    let third = [0, 3, 2, 2, 0, 1, 1, 0, 1, 1];
    for length in 2..10 {
        let least = if length < 8 { "3 has at least 9" } else { "3 with 2 peers has at least 10" };
        let told = format!("{start}: {length} bytes, but a table of season {least}");
        assert_eq!(error(&third[..length]), told);
    }
    assert_eq!(text(&third).unwrap().lines().last(), Some("weights 1 1"));
    let short = "the pairs of 2 items end at byte 14, but the input at byte 8";
    assert_eq!(error(&[1, 1, 0, 1, 1, 2, 0, 14]), format!("{start}: {short}"));
    let offset = [1, 1, 0, 1, 1, 1, 0, 11, 0, 0];
    assert_eq!(
        error(&offset),
        format!("{start}: item 0 has offset 11, but the pairs end at byte 10")
    );
    let end = [1, 1, 0, 1, 1, 1, 0, 10, 0, 5, 0];
    assert_eq!(error(&end), format!("{start}: item 0 ends at byte 15, but the input at byte 11"));
}
