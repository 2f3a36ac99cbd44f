//! What is measured of the field peer: single calls on the box of peer 1, with the
//! table of an input.

use engine::field::call::Call;
use engine::field::{FieldBox, INDEPENDENT_BOX, PROVED_BOX};
use reference::field::bytes::{DATABASE, LENGTH};
use reference::field::message::{write_act, write_message, Act, Message, Row};
use reference::field::part::Hash;
use reference::field::passed::Passed;
use reference::form::STEP_LENGTH;
use reference::table::Table;
use std::hint::black_box;

pub const PLAIN_BOX: FieldBox =
    FieldBox { name: "plain", message: plain::field_message, step: plain::field_step };

/// Its counts are those of the driver alone.
const NO_BOX: FieldBox =
    FieldBox { name: "none", message: |_, _, _, _| 0, step: |_, _, _, _, _| 0 };

pub fn by_name(name: &str) -> Option<FieldBox> {
    [PLAIN_BOX, PROVED_BOX, NO_BOX].into_iter().find(|field| field.name == name)
}

/// How often a call is made in a round.
const TIMES: usize = 500;

/// The peer whose box it is, and the last vote, which clashes with nothing.
const PEER: usize = 1;
const ITEM: usize = 47;

/// A call that is taken.
pub struct Fed<'a> {
    pub name: &'static str,
    table: &'a [u8],
    before: Vec<u8>,
    passed: Passed,
    /// The bytes of the state that the call changes, as they were.
    changed: Vec<(usize, u8)>,
}

impl<'a> Fed<'a> {
    /// The calls on the table of an input.
    pub fn all(text: &'a [u8], table: &Table) -> Vec<Fed<'a>> {
        let (few, many) = (Making::of(text, table, table.t), Making::of(text, table, 255));
        let (signer, period, item) = (table.n, 1, ITEM);
        vec![
            few.message("hand", Message::Hand { item: item - 1 }),
            few.message("take", Message::Take { signer, period, item: item - 1 }),
            few.without_database()
                .message("fetch", Message::Fetch { other: 2, period: 0, row: few.row }),
            few.message("hear, few", Message::Hear { hash: few.hash(table.t) }),
            many.message("hear, 255", Message::Hear { hash: many.hash(255) }),
            few.step("sign", Act::Sign { item }),
            few.step("share", Act::Share { item }),
            few.step("hash", Act::Hash { period: 0 }),
            few.step("back", Act::Back),
        ]
    }

    /// All boxes take it, and do the same.
    pub fn check(&self) {
        let Fed { table, before, passed, .. } = self;
        let out = &[0; STEP_LENGTH];
        let call = Call { table, peer: PEER as u8, before, passed, out };
        let due = call.on(&INDEPENDENT_BOX);
        assert_eq!(due.answer, 0, "{} is refused", self.name);
        for field in [PLAIN_BOX, PROVED_BOX] {
            call.compare(&field, &due).unwrap_or_else(|wrong| panic!("{}: {wrong}", self.name));
        }
    }

    /// The call again and again, each time on the same state; how often.
    pub fn round(&self, field: &FieldBox) -> usize {
        let (mut state, mut sent) = (self.before.clone(), [0; STEP_LENGTH]);
        for _ in 0..TIMES {
            call(field, black_box(self.table), &mut state, &self.passed, &mut sent);
            self.changed.iter().for_each(|(at, byte)| state[*at] = *byte);
        }
        TIMES
    }
}

fn call(field: &FieldBox, table: &[u8], state: &mut [u8], passed: &Passed, sent: &mut [u8]) {
    black_box(match passed {
        Passed::Message(bytes) => (field.message)(table, PEER as u8, state, bytes),
        Passed::Step(bytes) => (field.step)(table, PEER as u8, state, bytes, sent),
    });
}

/// A box in its second period: it knows all signers of all items in the first, has
/// heard so many hashes, as many as t of its own board, and holds what it was handed.
struct Making<'a> {
    table: &'a [u8],
    n: usize,
    t: usize,
    row: Row,
    state: Vec<u8>,
}

impl<'a> Making<'a> {
    fn of(text: &'a [u8], table: &Table, hashes: usize) -> Making<'a> {
        let all = ((1u32 << table.n) - 1) as u16;
        let mut row: Row = [0; 64];
        row[..table.items.len()].fill(all);
        let mut making =
            Making { table: text, n: table.n, t: table.t, row, state: vec![0; LENGTH] };
        making.act(Act::Close);
        making.bring(Message::Fetch { other: 2, period: 0, row });
        (0..hashes).for_each(|k| making.bring(Message::Hear { hash: making.hash(k) }));
        for item in 0..ITEM - 1 {
            making.bring(Message::Hand { item });
            making.act(Act::Sign { item });
        }
        making.bring(Message::Hand { item: ITEM });
        for signer in 2..=making.n {
            making.bring(Message::Take { signer, period: 1, item: ITEM });
        }
        making
    }

    /// The same, but that nothing is known of the first period.
    fn without_database(&self) -> Making<'a> {
        let mut state = self.state.clone();
        state[DATABASE..][..2 * self.row.len()].fill(0);
        Making { state, ..*self }
    }

    /// The first t are of the peer's board, the others of boards that all differ.
    fn hash(&self, k: usize) -> Hash {
        let board =
            self.row.iter().enumerate().fold(0, |set, (i, row)| set | u64::from(*row != 0) << i);
        let other = if k < self.t { 0 } else { 1 + k as u64 };
        Hash { signer: 1 + k % self.n, period: 0, board: board ^ other }
    }

    fn bring(&mut self, message: Message) {
        self.pass(Passed::Message(write_message(PEER, &message)));
    }

    fn act(&mut self, act: Act) {
        self.pass(Passed::Step(write_act(PEER, act).to_vec()));
    }

    fn pass(&mut self, passed: Passed) {
        call(&PLAIN_BOX, self.table, &mut self.state, &passed, &mut [0; STEP_LENGTH]);
    }

    fn message(&self, name: &'static str, message: Message) -> Fed<'a> {
        self.fed(name, Passed::Message(write_message(PEER, &message)))
    }

    fn step(&self, name: &'static str, act: Act) -> Fed<'a> {
        self.fed(name, Passed::Step(write_act(PEER, act).to_vec()))
    }

    fn fed(&self, name: &'static str, passed: Passed) -> Fed<'a> {
        let (before, mut after) = (self.state.clone(), self.state.clone());
        call(&PLAIN_BOX, self.table, &mut after, &passed, &mut [0; STEP_LENGTH]);
        let changed = (0..LENGTH).filter(|at| before[*at] != after[*at]);
        let changed = changed.map(|at| (at, before[at])).collect();
        Fed { name, table: self.table, before, passed, changed }
    }
}
