//! Pairs of offset and length, and the texts that they mark out. The ballot
//! table has them, and the sheet.

const PAIR_LENGTH: usize = 4;

/// Where a text stands.
#[derive(Clone, Copy, Debug, PartialEq, Eq)]
pub struct Pair {
    pub offset: usize,
    pub length: usize,
}

impl Pair {
    pub fn end(self) -> usize {
        self.offset + self.length
    }

    pub fn text(self, bytes: &[u8]) -> &[u8] {
        &bytes[self.offset..self.end()]
    }
}

/// So many pairs, which stand behind a head of so many bytes. None if they are
/// cut short, if the first offset is not where they end, or if a next offset is
/// not the previous offset plus length.
pub fn read_pairs(bytes: &[u8], head: usize, count: usize) -> Option<Vec<Pair>> {
    let first = head + PAIR_LENGTH * count;
    if bytes.len() < first {
        return None;
    }
    let mut pairs = Vec::new();
    let mut expected = first;
    for k in 0..count {
        let at = head + PAIR_LENGTH * k;
        let pair = Pair { offset: two_bytes(bytes, at), length: two_bytes(bytes, at + 2) };
        if pair.offset != expected {
            return None;
        }
        expected = pair.end();
        pairs.push(pair);
    }
    Some(pairs)
}

/// The last pair's end; without pairs, the head's.
pub fn last_end(pairs: &[Pair], head: usize) -> usize {
    pairs.last().map_or(head, |pair| pair.end())
}

/// The pairs of texts, which stand behind a head of so many bytes, and then the
/// texts. Nothing is checked.
pub fn write_pairs(head: usize, texts: &[Vec<u8>]) -> Vec<u8> {
    let mut bytes = Vec::new();
    let mut offset = head + PAIR_LENGTH * texts.len();
    for text in texts {
        bytes.extend((offset as u16).to_be_bytes());
        bytes.extend((text.len() as u16).to_be_bytes());
        offset += text.len();
    }
    bytes.extend(texts.concat());
    bytes
}

/// A number of two bytes, high byte first.
pub fn two_bytes(bytes: &[u8], at: usize) -> usize {
    256 * bytes[at] as usize + bytes[at + 1] as usize
}
