//! Rehearsals in which much reaches a peer before it has come to that period.

use crate::making::Making;
use crate::random::Random;
use crate::tables::Shape;
use reference::form::Step;

/// A liar signs and hashes for every period. The honest peers have closed some periods,
/// each its own number, and all that there is comes to them in any order; now and then one
/// is down.
pub fn early(random: &mut Random) -> Vec<u8> {
    let (n, periods, m) = (random.between(4, 6), random.between(2, 4), random.between(1, 3));
    let text = liars_table(random, Shape { n, periods, m });
    let mut making = Making::on(random, text);
    let (honest, liar) = (making.honest(), making.liars()[0]);
    let pairs = || (0..periods).flat_map(move |period| (0..m).map(move |item| (period, item)));
    making.together((0..m).map(|item| Step::Post { item }));
    making.together(pairs().map(|(period, item)| Step::FalseSignature {
        peer: liar,
        period,
        item,
    }));
    making.together((0..periods).map(|period| Step::FalseHash { peer: liar, period, board: 0 }));
    for peer in honest.iter().copied() {
        let closes = making.random.below(periods);
        making.together((0..closes).map(|_| Step::Close { peer }));
    }
    for peer in honest {
        let takes = pairs().map(|(period, item)| Step::Take { peer, other: liar, period, item });
        let others = (1..=n).flat_map(|other| (0..periods).map(move |period| (other, period)));
        let fetches = others.map(|(other, period)| Step::Fetch { peer, other, period });
        let hears = (0..periods).map(|entry| Step::Hear { peer, entry });
        let turns = [Step::Down { peer }, Step::Up { peer }].into_iter();
        making.together(takes.chain(fetches).chain(hears).chain(turns));
    }
    making.wander(20);
    making.input()
}

/// A table of this shape on which one peer lies: with four peers or more one may, unless
/// its weight is needed.
pub fn liars_table(random: &mut Random, shape: Shape) -> Vec<u8> {
    let Shape { n, periods, m } = shape;
    loop {
        let text = Shape { n, periods, m }.honest_table(random, 1);
        if !Making::on(random, text.clone()).liars().is_empty() {
            return text;
        }
    }
}
