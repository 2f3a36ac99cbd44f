//! The seasons of document 02's P5 and P8: in a table of the new one an audit names the
//! place that made it; in a weighted one that is so too, and each peer has a weight.

use crate::table::Kind;

/// The header's fields, from n to m.
pub const FIELDS_LENGTH: usize = 6;

#[derive(Clone, Copy, Debug, PartialEq, Eq)]
pub enum Season {
    Old,
    New,
    Weighted,
}

pub const SEASONS: [Season; 3] = [Season::Old, Season::New, Season::Weighted];

impl Season {
    /// The season of a table. One that starts with 0 and another byte than 2 or 3 is
    /// of no season; under the old rule it is refused, since n is 0.
    pub fn of(table: &[u8]) -> Season {
        let mut marked = [Season::New, Season::Weighted].into_iter();
        marked.find(|season| table.starts_with(season.mark())).unwrap_or(Season::Old)
    }

    /// The bytes that a table of the season starts with, before its header.
    pub fn mark(self) -> &'static [u8] {
        match self {
            Season::Old => &[],
            Season::New => &[0, 2],
            Season::Weighted => &[0, 3],
        }
    }

    /// Whether its audits name their places.
    pub fn has_places(self) -> bool {
        self != Season::Old
    }

    /// Whether a weight for each peer stands between header and pairs.
    pub fn has_weights(self) -> bool {
        self == Season::Weighted
    }

    /// The bytes before the pairs of a table with so many peers.
    pub fn head_length(self, n: usize) -> usize {
        let weights = if self.has_weights() { n } else { 0 };
        self.mark().len() + FIELDS_LENGTH + weights
    }

    /// Whether a table of the season can have items of the kind.
    pub fn has(self, kind: &Kind) -> bool {
        match kind {
            Kind::Audit => !self.has_places(),
            Kind::PlacedAudit(_) => self.has_places(),
            Kind::Vote(_) | Kind::Cancellation => true,
        }
    }
}
