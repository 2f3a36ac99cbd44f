//! Rehearsals in which a peer is told more hashes than its box keeps: the bag is cleared
//! between, of which the box is not told.

use crate::field::early::liars_table;
use crate::making::Making;
use crate::period::posts;
use crate::random::Random;
use crate::tables::Shape;
use reference::form::Step;
use reference::state::Entry;

/// The hashes of a round, and the rounds: together they are more than 256.
const HASHES: usize = 100;
const ROUNDS: usize = 3;

/// All honest peers back period 0, whose board is empty. Then round after round a liar
/// sends hashes of it, two peers hear them, and they are cleared: their boxes get full
/// where the bag has room. At the end come the hashes of period 1.
pub fn overheard(random: &mut Random) -> Vec<u8> {
    let (n, periods, m) = (random.between(4, 7), random.between(2, 4), random.between(9, 12));
    let text = liars_table(random, Shape { n, periods, m });
    let mut making = Making::on(random, text);
    let (honest, liar) = (making.honest(), making.liars()[0]);
    let told = making.random.drawn(honest.iter().copied());
    making.agree(0);
    making.back(&honest);
    making.together(posts(&making.table));
    for round in 0..ROUNDS {
        let boards = (HASHES * round) as u64..(HASHES * (round + 1)) as u64;
        making.together(boards.map(|board| Step::FalseHash { peer: liar, period: 0, board }));
        making.tell_all(&told[..2]);
        making.together([Step::Clear { period: 0 }].into_iter());
    }
    making.agree(1);
    making.back(&honest);
    making.wander(20);
    making.input()
}

impl Making<'_> {
    /// These peers hear all hashes.
    fn tell_all(&mut self, peers: &[usize]) {
        let hashes = self.entries(|entry| matches!(entry, Entry::Hash { .. }));
        for peer in peers {
            self.together(hashes.iter().map(|entry| Step::Hear { peer: *peer, entry: *entry }));
        }
    }
}
