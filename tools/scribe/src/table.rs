//! The ballot table: season, header, weights, pairs and items. The pairs are not
//! written in the text; they follow from the items.

use crate::hexadecimal;
use crate::pairs::{Pairs, PAIR_LENGTH};
use crate::reasons::phrases::count;
use crate::season::{Season, HEADER_LENGTH};
use crate::words::Line;

pub const HEADER_FORM: &str = "peers N threshold T honest K .. periods P";
pub const WEIGHTS_FORM: &str = "weights A ..";

/// The most that two bytes hold.
const TWO_BYTES: usize = 65_535;
/// The most items that the header's byte can count.
const MOST_ITEMS: usize = 255;

/// The header's first five bytes; the sixth counts the items.
pub type Header = [u8; HEADER_LENGTH - 1];

/// An item's bytes, and the line that it was written on.
pub struct Item {
    line: usize,
    pub bytes: Vec<u8>,
}

/// Whether the line says the season.
pub fn is_season(line: &Line) -> bool {
    line.name() == "season"
}

/// `season 2`, `season 3`
pub fn read_season(mut line: Line) -> Result<Season, String> {
    line.word("season")?;
    let (number, season) = match line.peek() {
        Some("2") => ("2", Season::Second),
        Some("3") => ("3", Season::Third),
        _ => return Err(line.expected("'2' or '3' (a table of the first season has no such line)")),
    };
    line.word(number)?;
    line.end()?;
    Ok(season)
}

/// `peers N threshold T honest K .. periods P`
pub fn read_header(mut line: Line, season: Season) -> Result<Header, String> {
    if line.name() != "peers" {
        return Err(line.expected(&format!("'{HEADER_FORM}'")));
    }
    line.word("peers")?;
    let n = line.number("a number of peers", 0, 255)?;
    line.word("threshold")?;
    let t = line.number("a threshold", 0, 255)?;
    line.word("honest")?;
    let honest = line.numbers("an honest peer", 1, 16, Some("periods"))?;
    line.word("periods")?;
    let periods = line.number("a number of periods", 0, 255)?;
    line.end()?;
    let set = honest.iter().fold(0u16, |set, k| set | 1 << (k - 1)).to_be_bytes();
    let header = [n as u8, t as u8, set[0], set[1], periods as u8];
    if season == Season::First && Season::of(&header) != season {
        let told = format!("a table that starts with {n} and {t} is of season {t}");
        return Err(line.error(&format!("expected no threshold {t} of {n} peers: {told}")));
    }
    Ok(header)
}

/// Whether the line has the weights.
pub fn is_weights(line: &Line) -> bool {
    line.name() == "weights"
}

/// `weights A ..`, one for each peer.
pub fn read_weights(mut line: Line, peers: u8) -> Result<Vec<u8>, String> {
    if !is_weights(&line) {
        return Err(line.expected(&format!("'{WEIGHTS_FORM}'")));
    }
    line.word("weights")?;
    let mut weights = Vec::new();
    for peer in 1..=peers {
        weights.push(line.number(&format!("the weight of peer {peer}"), 0, 255)? as u8);
    }
    if line.peek().is_some() {
        let all = count(peers as usize, "weight");
        return Err(line.expected(&format!("the end of the line after {all}")));
    }
    Ok(weights)
}

/// Whether the line is an item and no step.
pub fn is_item(line: &Line) -> bool {
    ["vote", "audit", "cancel", "item"].contains(&line.name())
}

/// `vote B XX ..`, `audit B`, `audit B place L`, `cancel B`, `item XX ..`
pub fn read_item(mut line: Line) -> Result<Item, String> {
    let name = line.name();
    line.word(name)?;
    if name == "item" {
        return Ok(Item { line: line.number, bytes: line.bytes("an item byte")? });
    }
    let mut bytes = line.number("a ballot number", 0, u32::MAX)?.to_be_bytes().to_vec();
    match name {
        "vote" => {
            bytes.push(1);
            bytes.extend(line.bytes("a preference byte")?);
        }
        "audit" => {
            bytes.push(2);
            bytes.extend(read_place(&mut line)?);
        }
        _ => bytes.push(3),
    }
    line.end()?;
    Ok(Item { line: line.number, bytes })
}

/// `place L`, or nothing.
fn read_place(line: &mut Line) -> Result<Option<u8>, String> {
    match line.peek() {
        None => Ok(None),
        Some("place") => {
            line.word("place")?;
            Ok(Some(line.number("a place", 0, 255)? as u8))
        }
        Some(_) => Err(line.expected("'place' or the end of the line")),
    }
}

/// The table's bytes: what tells the season, header, weights, pairs, items.
pub fn lay_out(
    season: Season,
    header: Header,
    weights: &[u8],
    items: &[Item],
) -> Result<Vec<u8>, String> {
    if items.len() > MOST_ITEMS {
        let line = items[MOST_ITEMS].line;
        return Err(format!("line {line}: expected at most {MOST_ITEMS} items"));
    }
    let mut bytes = [season.front(), &header, &[items.len() as u8], weights].concat();
    let mut offset = bytes.len() + PAIR_LENGTH * items.len();
    for item in items {
        let length = item.bytes.len();
        if offset > TWO_BYTES || length > TWO_BYTES {
            let line = item.line;
            return Err(format!("line {line}: expected items of at most {TWO_BYTES} bytes"));
        }
        bytes.extend((offset as u16).to_be_bytes());
        bytes.extend((length as u16).to_be_bytes());
        offset += length;
    }
    for item in items {
        bytes.extend(&item.bytes);
    }
    Ok(bytes)
}

/// The lines of the table at the front of the input, and where it ends.
pub fn write_table(input: &[u8]) -> Result<(Vec<String>, usize), String> {
    let without = |fact: String| format!("no text for this table: {fact}");
    let season = Season::of(input);
    let header = season.header(input).map_err(without)?;
    let weights = season.weights(input, header[0]).map_err(without)?;
    let (texts, end) = Pairs::of_input(input).texts().map_err(|fault| without(fault.fact))?;
    let mut lines: Vec<String> = write_season(season).into_iter().collect();
    lines.push(write_header(header));
    lines.extend(write_weights(season, weights));
    lines.extend(texts.into_iter().map(write_item));
    Ok((lines, end))
}

/// The season's line, with the number that its tables start with; the first has none.
fn write_season(season: Season) -> Option<String> {
    Some(format!("season {}", season.front().last()?))
}

fn write_header(header: &[u8; HEADER_LENGTH]) -> String {
    let [n, t, high, low, periods, _] = *header;
    let set = u16::from_be_bytes([high, low]);
    let peers = (1..=16).filter(|k| set >> (k - 1) & 1 == 1);
    let honest: String = peers.map(|k| format!(" {k}")).collect();
    format!("peers {n} threshold {t} honest{honest} periods {periods}")
}

/// The weights' line, in a season that has them.
fn write_weights(season: Season, weights: &[u8]) -> Option<String> {
    let numbers: String = weights.iter().map(|weight| format!(" {weight}")).collect();
    season.has_weights().then(|| format!("weights{numbers}"))
}

/// The line of an item, or of bytes that are none.
pub fn write_item(item: &[u8]) -> String {
    if item.len() < 5 {
        return format!("item{}", hexadecimal(item));
    }
    let ballot = u32::from_be_bytes([item[0], item[1], item[2], item[3]]);
    match &item[4..] {
        [1, preferences @ ..] => format!("vote {ballot}{}", hexadecimal(preferences)),
        [2] => format!("audit {ballot}"),
        [2, place] => format!("audit {ballot} place {place}"),
        [3] => format!("cancel {ballot}"),
        _ => format!("item{}", hexadecimal(item)),
    }
}
