//! Every honest peer of every random rehearsal, in a box of its own beside the board: it is
//! fed with what the rehearsal passes to it, answers and sends as the peer does there, and
//! keeps the same, until one of the two stores is full. The independent box goes along to
//! the end.

use engine::field::call::Call;
use engine::field::fed::{Fed, Met};
use inputs::closes::{close, wrong_close, Close, Lack};
use inputs::field::alike::{alike, messages, Calls};
use inputs::field::answers::{Answers, FED};
use inputs::field::early::early;
use inputs::field::overheard::overheard;
use inputs::kinds::{rehearsal, round};
use inputs::random::{run_seed, Random};
use reference::form::STEP_LENGTH;
use reference::table::read_front;

/// The rounds of all kinds of rehearsals, the closes, and those that tell too early and too
/// much.
const ROUNDS: usize = 2;
const CLOSES: usize = 150;
const EARLY: usize = 60;
const OVERHEARD: usize = 12;

/// What some of the closes lack.
const LACKS: [Lack; 6] = [
    Lack::HashAfterFetches,
    Lack::BackingAfterFetches,
    Lack::BackAfterFetches,
    Lack::OwnHash,
    Lack::Fetch,
    Lack::AllUp,
];

/// What the rehearsals had.
#[derive(Default)]
struct Seen {
    rehearsals: usize,
    boards: [usize; 3],
    calls: usize,
    peers: usize,
    /// What was passed in step, by op and answer, and after that.
    answers: Answers,
    later: Answers,
    /// Peers that left the step since the bag was full, and since the box was.
    full_bags: usize,
    full_boxes: usize,
    /// Things sent again: signatures, shares and hashes that were outside already.
    again: usize,
    /// Boxes that keep what was cleared.
    keepers: usize,
}

impl Seen {
    fn add(&mut self, met: &Met) {
        let answers = if met.in_step { &mut self.answers } else { &mut self.later };
        answers.count(met.passed.bytes(), met.answer);
        self.full_bags += (met.in_step && met.board == 13) as usize;
        self.full_boxes += (met.in_step && met.answer == 13) as usize;
        self.again += (met.in_step && met.again) as usize;
    }
}

/// A whole rehearsal: every call on the board, and on the boxes what it passes.
fn feed(text: &[u8], calls: &[Vec<u8>], seen: &mut Seen) -> Result<Fed, String> {
    let mut fed = Fed::fresh(text);
    for (number, call) in (1..).zip(calls) {
        let met = fed.call(call).map_err(|wrong| format!("call {number}, {call:?}: {wrong}"))?;
        met.iter().for_each(|met| seen.add(met));
    }
    fed.finish()?;
    seen.rehearsals += 1;
    seen.calls += calls.len();
    seen.peers += fed.boxes.len();
    seen.keepers += fed.keepers();
    seen.boards[fed.table.season as usize] += 1;
    Ok(fed)
}

/// The table and the calls of an input; none if it is refused.
fn parts(input: &[u8]) -> Option<(Vec<u8>, Calls)> {
    let end = read_front(input).ok()?.1;
    let calls = input[end..].chunks(STEP_LENGTH).map(|call| call.to_vec()).collect();
    Some((input[..end].to_vec(), calls))
}

/// The rehearsals by their numbers, each with a name.
fn made(seed: u64, number: usize) -> (String, Option<(Vec<u8>, Calls)>) {
    let mut random = Random::new(!seed, number);
    let closes = ROUNDS * round();
    if number < closes {
        let (kind, input) = rehearsal(seed, number);
        return (kind.name.to_string(), parts(&input));
    }
    if number < closes + CLOSES {
        let close = match number % 3 {
            0 => wrong_close(&mut random, LACKS[number / 3 % LACKS.len()]),
            _ => close(&mut random, number - closes),
        };
        let Close { text, earlier, later, .. } = close;
        return ("a close".to_string(), Some((text, [earlier, later].concat())));
    }
    match number - closes - CLOSES < EARLY {
        true => ("told too early".to_string(), parts(&early(&mut random))),
        false => ("told too much".to_string(), parts(&overheard(&mut random))),
    }
}

#[test]
fn same_answers_sends_and_bytes_in_step() {
    let (seed, mut seen) = (run_seed(), Seen::default());
    for number in 0..ROUNDS * round() + CLOSES + EARLY + OVERHEARD {
        let (name, made) = made(seed, number);
        if let Some((text, calls)) = made {
            let place = format!("seed {seed}, number {number}, {name}");
            feed(&text, &calls, &mut seen).unwrap_or_else(|wrong| panic!("{place}: {wrong}"));
        }
    }
    let Seen { rehearsals, boards, calls, peers, answers, later, .. } = &seen;
    let Seen { full_bags, full_boxes, again, keepers, .. } = &seen;
    println!("{rehearsals} rehearsals, by seasons {boards:?}, of {calls} calls; {peers} boxes");
    println!("{} things passed in step\n{answers}", answers.calls());
    println!("{full_bags} peers met a full bag, {full_boxes} a full box");
    println!("{again} things sent again; {keepers} boxes keep what was cleared");
    println!("{} passed after that\n{later}", later.calls());
    assert_eq!(answers.wrong(FED), [""; 0], "seed {seed}");
    assert!(boards.iter().all(|times| *times > 100), "seed {seed}");
    assert!(*full_bags > 5 && *full_boxes > 5 && later.calls() > 100, "seed {seed}");
    assert!(*again > 100 && *keepers > 10, "seed {seed}");
}

/// Two lists that pass a peer the same messages and differ otherwise: the same box, and the
/// same part of the board, although the boards differ.
#[test]
fn the_same_messages_make_the_same_box() {
    let (seed, mut seen) = (run_seed(), Seen::default());
    let (mut compared, mut shorter, mut other_boards) = (0, 0, 0);
    for number in 0..round() {
        let mut random = Random::new(seed.wrapping_add(1), number);
        let Some((text, calls)) = parts(&rehearsal(seed, number).1) else { continue };
        let table = read_front(&text).expect("a table that was read").0;
        let peer = random.pick(table.honest.iter().copied());
        let (Some(peer), false) = (peer, calls.is_empty() || calls.len() > 300) else { continue };
        let other = alike(&mut random, &table, &calls, peer, 24);
        assert_eq!(messages(&table, &calls, peer), messages(&table, &other, peer));
        let [one, two] = [&calls, &other].map(|calls| {
            feed(&text, calls, &mut seen).unwrap_or_else(|wrong| panic!("number {number}: {wrong}"))
        });
        let of = |fed: &Fed| fed.boxes.iter().find(|one| one.peer == peer).unwrap().state.clone();
        assert!(of(&one) == of(&two), "seed {seed}, number {number}: another box");
        compared += 1;
        shorter += (other.len() < calls.len()) as usize;
        other_boards += (one.board != two.board) as usize;
    }
    println!("{compared} pairs of lists; {shorter} shorter, {other_boards} with another board");
    assert!(compared > 150 && shorter > 20 && other_boards > 100, "seed {seed}");
}

/// A call that passes nothing leaves the box as it is, and its bytes alone settle it: fed
/// with the messages only, without a board, it comes to the same.
#[test]
fn a_box_needs_no_board() {
    let seed = run_seed();
    let mut fed_alone = 0;
    for number in 0..round() {
        let Some((text, calls)) = parts(&rehearsal(seed, number).1) else { continue };
        if calls.len() > 300 {
            continue;
        }
        let fed = feed(&text, &calls, &mut Seen::default()).expect("the boxes go along");
        for one in &fed.boxes {
            let mut state = vec![0; one.state.len()];
            for passed in messages(&fed.table, &calls, one.peer) {
                let (before, peer, out) = (&state[..], one.peer as u8, &[1; STEP_LENGTH]);
                let call = Call { table: &text, peer, before, passed: &passed, out };
                let outcome = call.same().unwrap_or_else(|wrong| panic!("{wrong}"));
                state = outcome.state().to_vec();
            }
            assert!(state == one.state, "seed {seed}, number {number}: another box");
            fed_alone += 1;
        }
    }
    println!("{fed_alone} boxes fed without a board");
    assert!(fed_alone > 300);
}
