//! Names that a table does not have: a peer, a period or an item out of range.

use crate::reasons::phrases::{comma_list, item_list};
use crate::steps::{items_of, op, value, Field};
use crate::table::Header;
use reference::table::Table;

/// How many peers, periods and items a table has.
pub struct Bounds {
    pub peers: u64,
    pub periods: u64,
    pub items: u64,
}

impl Bounds {
    /// Of a header and so many items, whether they are in range or not.
    pub fn of_header(header: &Header, items: usize) -> Bounds {
        let [peers, _, _, _, periods] = header.map(u64::from);
        Bounds { peers, periods, items: items as u64 }
    }

    pub fn of(table: &Table) -> Bounds {
        let [peers, periods, items] = [table.n, table.periods, table.m()].map(|size| size as u64);
        Bounds { peers, periods, items }
    }

    /// The names in the 13 bytes of a step that the table does not have, each
    /// beside what it has.
    pub fn strangers(&self, bytes: &[u8]) -> Vec<String> {
        let fields = op(bytes[0]).map_or(&[][..], |(_, fields)| fields);
        fields.iter().filter_map(|field| self.stranger(*field, value(bytes, *field))).collect()
    }

    fn stranger(&self, field: Field, value: u64) -> Option<String> {
        let has_peer = (1..=self.peers).contains(&value);
        match field {
            Field::Peer => (!has_peer).then(|| format!("peer {value}: {}", self.peers())),
            Field::Other => {
                (!has_peer).then(|| format!("the other peer {value}: {}", self.peers()))
            }
            Field::Period => {
                let periods = || range("period", 0, self.periods);
                (value >= self.periods).then(|| format!("period {value}: {}", periods()))
            }
            Field::Item => (value >= self.items).then(|| format!("item {value}: {}", self.items())),
            Field::Board => {
                let beyond: Vec<usize> =
                    items_of(value).filter(|item| *item as u64 >= self.items).collect();
                let board = || format!("{} of the board: {}", item_list(&beyond), self.items());
                (!beyond.is_empty()).then(board)
            }
            Field::Entry => None,
        }
    }

    /// The honest peers of a header that its table does not have.
    pub fn strange_honest(&self, header: &Header) -> Vec<String> {
        let set = u16::from_be_bytes([header[2], header[3]]);
        let honest = (1..=16).filter(|peer| set >> (peer - 1) & 1 == 1);
        let beyond: Vec<usize> = honest.filter(|peer| *peer as u64 > self.peers).collect();
        let line = || format!("honest {}: {}", comma_list(&beyond), self.peers());
        (!beyond.is_empty()).then(line).into_iter().collect()
    }

    fn peers(&self) -> String {
        range("peer", 1, self.peers)
    }

    fn items(&self) -> String {
        range("item", 0, self.items)
    }
}

/// What the table has: so many, counted from the first.
fn range(what: &str, first: u64, count: u64) -> String {
    match count {
        0 => format!("the table has no {what}s"),
        1 => format!("the table has {what} {first} alone"),
        _ => format!("the table has {what}s {first} to {}", first + count - 1),
    }
}
