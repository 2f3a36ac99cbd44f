//! Text to bytes and back: nothing is lost either way.

use inputs::random::Random;
use scribe::{bytes, text};

const EVERY_NAME: &str = "\
peers 4 threshold 3 honest 1 2 3 periods 2
vote 7 01 02
vote 4294967295 FF
audit 7
cancel 7
post 0
hand 1 0
sign 1 0
take 1 2 0 3
share 1 0
receipt 0 3
close 1
fetch 1 2 0
hash 1 1
hear 1 entry 255
back 1
publish entry 1
false-signature 4 0 3
false-share 4 1 3
false-hash 4 0 board
false-hash 4 0 board 0 2 5 63
false-backing 4 0 board 1
down 1
up 1
clear 1
raw 0C 01 00 00 00 00 00 00 00 00 00 00 00
raw 01 00
";

#[test]
fn every_name_comes_back_as_written() {
    let second = format!("season 2\n{}", EVERY_NAME.replace("audit 7", "audit 7 place 255"));
    let third = second
        .replace("season 2\n", "season 3\n")
        .replace("periods 2\n", "periods 2\nweights 4 1 2 3\n");
    for lines in [EVERY_NAME, &second, &third] {
        assert_eq!(text(&bytes(lines).unwrap()).unwrap(), lines);
    }
}

/// 0 and 2, then the header; the first offset is 8 + 4 · 3 = 20, the next 26 and 32.
#[test]
fn season_2() {
    let table = "season 2\npeers 4 threshold 3 honest 1 2 3 periods 1\n\
        audit 7 place 5\naudit 7 place 0\ncancel 7\npost 1\n";
    let mut expected = vec![
        0, 2, // season
        4, 3, 0, 7, 1, 3, // header
        0, 20, 0, 6, 0, 26, 0, 6, 0, 32, 0, 5, // pairs
        0, 0, 0, 7, 2, 5, // audits and their places
        0, 0, 0, 7, 2, 0, //
        0, 0, 0, 7, 3, // cancellation
    ];
    expected.extend([1, 0, 0, 0, 1, 0, 0, 0, 0, 0, 0, 0, 0]);
    assert_eq!(bytes(table).unwrap(), expected);
    assert_eq!(text(&expected).unwrap(), table);
}

/// 0 and 3, the header, a weight for each peer; the first offset is 8 + 3 + 4 · 2 = 19,
/// the next 25.
#[test]
fn season_3() {
    let table = "season 3\npeers 3 threshold 5 honest 1 2 periods 1\nweights 4 1 2\n\
        vote 7 01\naudit 7 place 5\npost 1\n";
    let mut expected = vec![
        0, 3, // season
        3, 5, 0, 3, 1, 2, // header
        4, 1, 2, // weights
        0, 19, 0, 6, 0, 25, 0, 6, // pairs
        0, 0, 0, 7, 1, 1, // vote
        0, 0, 0, 7, 2, 5, // audit and its place
    ];
    expected.extend([1, 0, 0, 0, 1, 0, 0, 0, 0, 0, 0, 0, 0]);
    assert_eq!(bytes(table).unwrap(), expected);
    assert_eq!(text(&expected).unwrap(), table);
}

#[test]
fn case_r() {
    let case =
        "# The smallest board.\n\n peers 1 threshold 1 honest 1 periods 1\naudit 7 # item 0\n\
        post 0\nhand 1 0\nsign 1 0\n";
    let table = [1, 1, 0, 1, 1, 1, 0, 10, 0, 5, 0, 0, 0, 7, 2];
    let mut expected = table.to_vec();
    for start in [[1, 0, 0, 0, 0], [2, 1, 0, 0, 0], [3, 1, 0, 0, 0]] {
        expected.extend(start);
        expected.extend([0; 8]);
    }
    assert_eq!(bytes(case).unwrap(), expected);
}

#[test]
fn fields_stand_in_their_places() {
    let table = "peers 1 threshold 1 honest periods 1\n";
    let step = |line: &str| bytes(&format!("{table}{line}\n")).unwrap()[6..].to_vec();
    assert_eq!(step("take 1 2 3 4"), [4, 1, 2, 3, 4, 0, 0, 0, 0, 0, 0, 0, 0]);
    assert_eq!(step("fetch 1 2 3"), [8, 1, 2, 3, 0, 0, 0, 0, 0, 0, 0, 0, 0]);
    assert_eq!(step("receipt 3 4"), [6, 0, 0, 3, 4, 0, 0, 0, 0, 0, 0, 0, 0]);
    assert_eq!(step("clear 3"), [19, 0, 0, 3, 0, 0, 0, 0, 0, 0, 0, 0, 0]);
    assert_eq!(step("hear 1 entry 4"), [10, 1, 0, 0, 4, 0, 0, 0, 0, 0, 0, 0, 0]);
    let hash = [15, 1, 0, 3, 0, 128, 0, 0, 0, 0, 0, 1, 3];
    assert_eq!(step("false-hash 1 3 board 63 8 0 1"), hash);
}

/// Bad values can be written: the engine judges them.
#[test]
fn bad_values_come_back() {
    for lines in [
        "peers 3 threshold 2 honest 1 2 3 periods 1\n",
        "peers 0 threshold 255 honest 16 periods 0\n",
        "peers 1 threshold 1 honest periods 9\nvote 7\nitem\nitem 00 01\naudit 7\naudit 7\n",
        "peers 1 threshold 1 honest 1 periods 1\nitem 00 00 00 07 09\nitem 00 00 00 07 02 00 00\n",
        "peers 1 threshold 1 honest 1 periods 1\naudit 7 place 5\nitem 00 00 00 07 03 00\n",
        "season 2\npeers 4 threshold 3 honest 1 periods 1\naudit 7\naudit 7 place 5\n",
        "season 2\npeers 0 threshold 2 honest 16 periods 0\nvote 7\nitem 00 00 00 07 02 00 00\n",
        "season 3\npeers 2 threshold 3 honest 1 periods 1\nweights 0 255\naudit 7\n",
        "season 3\npeers 0 threshold 3 honest 16 periods 0\nweights\nvote 7\n",
        "peers 0 threshold 4 honest 1 periods 1\n",
        "peers 1 threshold 1 honest 1 periods 1\npost 255\nhand 0 9\nraw FF\n",
    ] {
        assert_eq!(text(&bytes(lines).unwrap()).unwrap(), lines);
    }
    let long = format!("peers 1 threshold 1 honest 1 periods 1\nvote 7{}\n", " 00".repeat(33));
    assert_eq!(text(&bytes(&long).unwrap()).unwrap(), long);
}

/// A table of any season with random weights and items, then random steps and a
/// random tail.
fn random_input(random: &mut Random) -> Vec<u8> {
    let season = random.below(3);
    let mut input: Vec<u8> = [vec![], vec![0, 2], vec![0, 3]][season].clone();
    let header = random.bytes(5);
    input.extend(&header);
    let m = random.below(6);
    input.push(m as u8);
    if season == 2 {
        input.extend(random.bytes(header[0] as usize));
    }
    let mut offset = input.len() + 4 * m;
    let mut items = Vec::new();
    for _ in 0..m {
        let length = [random.below(40), 5, 6][random.below(3)];
        input.extend([(offset >> 8) as u8, offset as u8, 0, length as u8]);
        items.extend((0..length).map(|at| match at {
            4 => random.below(5) as u8,
            _ => random.bits() as u8,
        }));
        offset += length;
    }
    input.extend(items);
    for _ in 0..random.below(30) {
        input.push(random.below(22) as u8);
        input.extend((0..12).map(|_| match random.below(3) {
            0 => random.bits() as u8,
            _ => 0,
        }));
    }
    input.extend((0..random.below(13)).map(|_| random.bits() as u8));
    input
}

#[test]
fn random_inputs_come_back() {
    let mut random = Random::new(1, 0);
    let (mut named, mut placed) = (0, [0, 0, 0]);
    for _ in 0..5000 {
        let input = random_input(&mut random);
        let lines = text(&input).unwrap();
        let season = ["season 2\n", "season 3\n"].iter().position(|line| lines.starts_with(line));
        placed[season.map_or(0, |k| k + 1)] += lines.matches(" place ").count();
        named += lines.lines().filter(|line| !line.starts_with("raw")).count();
        assert_eq!(bytes(&lines).unwrap(), input);
        assert_eq!(text(&bytes(&lines).unwrap()).unwrap(), lines);
    }
    assert!(named > 20_000, "{named}");
    assert!(placed.iter().all(|count| *count > 100), "{placed:?}");
}

/// Each op with each field filled, and with each single byte beside them.
#[test]
fn every_op_and_byte_comes_back() {
    for op in 0..=255u8 {
        for at in 1..13 {
            let mut input = vec![1, 1, 0, 1, 1, 0, op];
            input.extend([0; 12]);
            input[6 + at] = 200;
            assert_eq!(bytes(&text(&input).unwrap()).unwrap(), input);
        }
    }
}
