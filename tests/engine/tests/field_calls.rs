//! The field peer on calls with any bytes: on states that messages lead to, on states that
//! none need lead to, and on damaged ones. The same answers and bytes as those of the
//! independent box, and a refused call alters nothing.

use engine::field::call::Call;
use engine::field::{field_state_length, BOXES};
use inputs::damaged::damaged_table;
use inputs::field::answers::{Answers, ANY};
use inputs::field::calls::{any_bytes, random_call, Given};
use inputs::field::parts::{damage, led, scattered};
use inputs::random::{run_seed, Random};
use inputs::tables::random_table;
use inputs::unequal::unequal_table;
use reference::field::bytes::{read_part, write_part, Unfit, LENGTH, UNFIT};
use reference::field::part::Part;
use reference::field::passed::Passed;
use reference::form::STEP_LENGTH;
use reference::table::{read_table, Table};
use std::collections::BTreeMap;

/// What the calls had.
#[derive(Default)]
struct Seen {
    answers: Answers,
    /// Why states were none.
    unfit: BTreeMap<Unfit, usize>,
    /// Damages that pass.
    passed: usize,
    /// Outputs of another length, of a call with a state.
    rooms: usize,
    /// States by their source: led to, scattered.
    states: [usize; 2],
    /// By seasons.
    seasons: [usize; 3],
    full: usize,
}

/// A table and a peer of it.
struct On {
    text: Vec<u8>,
    table: Table,
    peer: usize,
}

impl On {
    /// Mostly an honest peer.
    fn random(random: &mut Random, number: usize) -> On {
        let text = match number % 4 {
            0 => unequal_table(random),
            kind => random_table(random, [3, 5, 16][kind - 1]),
        };
        let table = read_table(&text).expect("a valid table");
        let honest = random.pick(table.honest.iter().copied());
        let any = random.between(1, table.n);
        let peer = if random.once_in(12) { any } else { honest.unwrap_or(any) };
        On { text, table, peer }
    }

    /// One call on all boxes: the state after it.
    fn call(&self, seen: &mut Seen, before: &[u8], given: &Given) -> Vec<u8> {
        let Given { peer, passed, out } = given;
        let call = Call { table: &self.text, peer: *peer, before, passed, out };
        let outcome = call.same().unwrap_or_else(|difference| panic!("{difference}"));
        seen.answers.count(passed.bytes(), outcome.answer);
        outcome.state().to_vec()
    }

    /// Calls one after the other, from a state that is taken; each leaves one.
    fn follow(&self, random: &mut Random, seen: &mut Seen, mut bytes: Vec<u8>, calls: usize) {
        for _ in 0..calls {
            let part = read_part(&self.table, &bytes).expect("a state that is taken");
            seen.full += (part.heard.len() == 256) as usize;
            let mut given = random_call(random, &self.table, self.peer, &part);
            if random.once_in(30) {
                given.passed = any_bytes(random);
            }
            let is_step = matches!(given.passed, Passed::Step(_));
            seen.rooms += (is_step && given.out.len() != STEP_LENGTH) as usize;
            bytes = self.call(seen, &bytes, &given);
        }
    }

    /// A call on a damaged state, and some more if the damage passes.
    fn judge(&self, random: &mut Random, seen: &mut Seen, part: &Part) {
        let mut bytes = write_part(part);
        damage(random, &self.table, &mut bytes);
        match read_part(&self.table, &bytes) {
            Ok(_) => {
                seen.passed += 1;
                self.follow(random, seen, bytes, 4);
            }
            Err(unfit) => {
                *seen.unfit.entry(unfit).or_default() += 1;
                let given = random_call(random, &self.table, self.peer, part);
                self.call(seen, &bytes, &given);
            }
        }
    }

    /// A call with another table, which is mostly refused.
    fn refuse(&self, random: &mut Random, seen: &mut Seen, part: &Part) {
        let other = On { text: damaged_table(random), table: self.table.clone(), peer: self.peer };
        let mut given = random_call(random, &self.table, self.peer, part);
        if random.once_in(2) {
            given.out.truncate(5);
        }
        let bytes = if random.once_in(3) { vec![7; 5] } else { write_part(part) };
        other.call(seen, &bytes, &given);
    }
}

fn run(random: &mut Random, number: usize, seen: &mut Seen) {
    let on = On::random(random, number);
    seen.seasons[on.table.season as usize] += 1;
    let rounds = random.between(20, 150);
    let led = match on.table.is_honest(on.peer) {
        true => led(random, &on.text, on.peer, rounds),
        false => vec![0; LENGTH],
    };
    let led = read_part(&on.table, &led).expect("messages lead to a state");
    let parts = [led, scattered(random, &on.table), scattered(random, &on.table)];
    for (source, part) in parts.iter().enumerate() {
        seen.states[source.min(1)] += 1;
        on.follow(random, seen, write_part(part), 50);
        (0..6).for_each(|_| on.judge(random, seen, part));
        (0..2).for_each(|_| on.refuse(random, seen, part));
    }
}

#[test]
fn same_answers_and_bytes_on_any_call() {
    let (seed, mut seen) = (run_seed(), Seen::default());
    for number in 0..700 {
        run(&mut Random::new(seed, number), number, &mut seen);
    }
    let Seen { answers, unfit, passed, rooms, states, seasons, full } = seen;
    println!("{} calls; states led to and scattered {states:?}", answers.calls());
    println!("tables by seasons {seasons:?}; {full} calls on a full box\n{answers}");
    println!("no states {unfit:?}; {passed} damages pass; {rooms} outputs of another length");
    assert!(answers.calls() > 100_000);
    assert_eq!(answers.wrong(ANY), [""; 0]);
    assert!([1, 2, 3, 4, 14].iter().all(|answer| answers.times(*answer) > 50));
    assert!(UNFIT.iter().all(|why| unfit.get(why).is_some_and(|times| *times > 10)));
    assert!(seasons.iter().all(|tables| *tables > 50) && full > 100);
    assert!(passed > 100 && rooms > 100);
}

/// A state of zeros, as long as the box says, is fresh.
#[test]
fn a_state_of_zeros_is_fresh() {
    assert_eq!(field_state_length(), 3_717);
    assert_eq!(write_part(&Part::fresh()), vec![0; field_state_length()]);
    assert!(!BOXES.is_empty());
}
