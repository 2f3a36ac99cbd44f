//! The season of a table: its first bytes tell it, and with it where the header
//! stands, whether the peers have weights, and which audits the table has.

use crate::reasons::phrases::count;

/// The header itself, behind what tells the season.
pub const HEADER_LENGTH: usize = 6;

/// An audit's text without a place: ballot number and kind.
const BARE_AUDIT: usize = 5;

#[derive(Clone, Copy, PartialEq)]
pub enum Season {
    /// The header stands at the start.
    First,
    /// The bytes 0 and 2, then the header. Audits have a place.
    Second,
    /// The bytes 0 and 3, then the header and a weight for each peer. Audits have a
    /// place.
    Third,
}

impl Season {
    /// Of the table that these bytes start with.
    pub fn of(bytes: &[u8]) -> Season {
        let mut later = [Season::Second, Season::Third].into_iter();
        later.find(|season| bytes.starts_with(season.front())).unwrap_or(Season::First)
    }

    /// What stands before the header.
    pub fn front(self) -> &'static [u8] {
        match self {
            Season::First => &[],
            Season::Second => &[0, 2],
            Season::Third => &[0, 3],
        }
    }

    /// Whether each peer has a weight; else all weigh the same.
    pub fn has_weights(self) -> bool {
        self == Season::Third
    }

    /// Where the header ends.
    fn header_end(self) -> usize {
        self.front().len() + HEADER_LENGTH
    }

    /// Where the pairs start, in a table of so many peers.
    pub fn pairs_start(self, peers: u8) -> usize {
        let weights = if self.has_weights() { peers as usize } else { 0 };
        self.header_end() + weights
    }

    /// The header in the bytes of a table, or that it is cut short.
    pub fn header(self, bytes: &[u8]) -> Result<&[u8; HEADER_LENGTH], String> {
        let behind = bytes.get(self.front().len()..).unwrap_or_default();
        behind.first_chunk().ok_or_else(|| self.cut_short(bytes, self.table(), 1))
    }

    /// The weights behind the header of so many peers, or that they are cut short.
    pub fn weights(self, bytes: &[u8], peers: u8) -> Result<&[u8], String> {
        bytes.get(self.header_end()..self.pairs_start(peers)).ok_or_else(|| {
            let table = format!("{} with {}", self.table(), count(peers as usize, "peer"));
            self.cut_short(bytes, &table, peers)
        })
    }

    /// Bytes that end before the pairs of such a table start.
    fn cut_short(self, bytes: &[u8], table: &str, peers: u8) -> String {
        let (length, least) = (count(bytes.len(), "byte"), self.pairs_start(peers));
        format!("{length}, but a {table} has at least {least}")
    }

    /// The length of an audit.
    pub fn audit_length(self) -> usize {
        match self {
            Season::First => BARE_AUDIT,
            Season::Second | Season::Third => BARE_AUDIT + 1,
        }
    }

    /// "table", "table of season 2"
    pub fn table(self) -> &'static str {
        match self {
            Season::First => "table",
            Season::Second => "table of season 2",
            Season::Third => "table of season 3",
        }
    }
}
