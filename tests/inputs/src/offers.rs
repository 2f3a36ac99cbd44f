//! Bursts of what members do: an item is offered, and on another day again; shares
//! are asked for, and receipts put together.

use crate::bursts::Bursts;
use reference::form::Step;

impl Bursts<'_, '_> {
    pub fn offer(&mut self) {
        let item = self.item();
        self.offer_item(item);
    }

    /// A member whose receipt was late posts an item again for which some peer gave
    /// a share; some peers may have left their period since.
    pub fn offer_again(&mut self) {
        let shares = self.making.state.shares.iter();
        let Some((_, _, item)) = self.making.random.pick(shares).copied() else { return };
        if self.chance(50) {
            self.close_some();
        }
        self.deliver(vec![Step::Post { item }]);
        self.offer_item(item);
    }

    /// A member offers an item to some peers: hand and sign, take, share,
    /// receipt. The dishonest peers join in.
    fn offer_item(&mut self, item: usize) {
        let period = self.open_period();
        let reach = [60, 90, 100][self.below(3)];
        let mut round = Vec::new();
        for peer in self.making.honest() {
            if self.chance(reach) {
                round.extend([Step::Hand { peer, item }, Step::Sign { peer, item }]);
            }
        }
        for peer in self.making.liars() {
            round.push(Step::FalseSignature { peer, period, item });
            round.push(Step::FalseShare { peer, period, item });
        }
        self.deliver(round);
        let mut round = Vec::new();
        for peer in self.making.honest() {
            for other in 1..=self.making.table.n {
                if self.chance(reach) {
                    round.push(Step::Take { peer, other, period, item });
                }
            }
        }
        self.deliver(round);
        self.shares(item, period);
    }

    /// The peers give their shares, and the member puts a receipt together.
    pub fn shares(&mut self, item: usize, period: usize) {
        self.for_each_honest(|peer| Step::Share { peer, item });
        if self.chance(70) {
            self.deliver(vec![Step::Receipt { period, item }]);
        }
    }

    /// Members put together what receipts they can, some of them late.
    pub fn receipts(&mut self) {
        let (periods, m) = (self.making.table.periods, self.making.table.m());
        let receipt = |k: usize| Step::Receipt { period: k / m, item: k % m };
        self.deliver((0..periods * m).map(receipt).collect());
    }
}
