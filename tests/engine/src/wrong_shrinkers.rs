//! Engines that go wrong on purpose at document 02's P7: steps are tried in another
//! order, dropped by another rule, or told in another way. Each must be found.

use crate::{Engine, PLAIN};
use reference::form::STEP_LENGTH;
use reference::report::INPUT_SIZE;
use reference::state::State;
use reference::step::step;
use reference::table::{read_front, Table};
use reference::Refusal;

/// How steps are dropped.
struct Manner {
    /// The bytes behind the table as steps.
    steps: fn(&[u8]) -> Vec<&[u8]>,
    /// Whether there is nothing to cut down, by the answers.
    is_clean: fn(&[u8]) -> bool,
    /// Whether a step may be dropped, by its answer.
    may_drop: fn(u8) -> bool,
    /// Whether an answer will do for the last one.
    will_do: fn(answer: u8, last: u8) -> bool,
    from_first: bool,
    most_passes: usize,
    /// Each step is tried on the list as the pass began.
    on_the_whole: bool,
}

/// As document 02 wants it.
const RIGHT: Manner = Manner {
    steps: |bytes| bytes.chunks(STEP_LENGTH).collect(),
    is_clean: |answers| answers.last().is_none_or(|answer| *answer == 0),
    may_drop: |_| true,
    will_do: |answer, last| answer == last,
    from_first: false,
    most_passes: usize::MAX,
    on_the_whole: false,
};

/// The steps of a rehearsal, and their answers.
struct Run<'a> {
    table: Table,
    steps: Vec<&'a [u8]>,
    answers: Vec<u8>,
}

impl Run<'_> {
    /// The answers to the steps so numbered, from the fresh state on.
    fn answers(&self, numbers: &[usize]) -> Vec<u8> {
        let mut state = State::fresh(&self.table);
        let steps = numbers.iter().map(|number| self.steps[number - 1]);
        steps.map(|bytes| step(&self.table, &mut state, bytes)).collect()
    }
}

/// The numbers that are left, or that of a refusal.
type Left = Result<Vec<usize>, u8>;

impl Manner {
    fn left(&self, input: &[u8]) -> Left {
        if input.len() > INPUT_SIZE {
            return Err(15);
        }
        let (table, end) = read_front(input).map_err(Refusal::number)?;
        let steps = (self.steps)(&input[end..]);
        let mut kept: Vec<usize> = (1..=steps.len()).collect();
        let mut run = Run { table, steps, answers: Vec::new() };
        run.answers = run.answers(&kept);
        if (self.is_clean)(&run.answers) {
            return Err(18);
        }
        for _ in 0..self.most_passes {
            let before = kept.len();
            self.pass(&run, &mut kept);
            if kept.len() == before {
                break;
            }
        }
        Ok(kept)
    }

    /// All but the last are tried.
    fn pass(&self, run: &Run, kept: &mut Vec<usize>) {
        let before = kept.clone();
        let mut tried = before[..before.len() - 1].to_vec();
        if !self.from_first {
            tried.reverse();
        }
        let last = |answers: &[u8]| answers[answers.len() - 1];
        for number in tried {
            let mut without = if self.on_the_whole { before.clone() } else { kept.clone() };
            without.retain(|other| *other != number);
            let answer = last(&run.answers(&without));
            let will_do = (self.will_do)(answer, last(&run.answers));
            if will_do && (self.may_drop)(run.answers[number - 1]) {
                kept.retain(|other| *other != number);
            }
        }
    }

    fn shrink(&self, input: &[u8], out: &mut [u8]) -> usize {
        tell(self.left(input), out)
    }
}

/// One number a line, as much as fits: the text's length.
fn tell(left: Left, out: &mut [u8]) -> usize {
    let text = match left {
        Ok(numbers) => numbers.iter().map(|number| format!("{number}\n")).collect(),
        Err(number) => format!("refused {number}\n"),
    };
    let fits = text.len().min(out.len());
    out[..fits].copy_from_slice(&text.as_bytes()[..fits]);
    text.len()
}

/// The right steps, told as other numbers.
fn told(input: &[u8], out: &mut [u8], other: fn(Vec<usize>) -> Vec<usize>) -> usize {
    tell(RIGHT.left(input).map(other), out)
}

const fn wrong(name: &'static str, shrink: fn(&[u8], &mut [u8]) -> usize) -> Engine {
    Engine { name, shrink, ..PLAIN }
}

/// As document 02 wants it, and else like those below: it must not be found.
pub const RIGHT_SHRINKER: Engine = wrong("as it should be", |input, out| RIGHT.shrink(input, out));

/// What is left is not as promised.
pub const BROKEN_PROMISES: [Engine; 8] = [
    wrong("one pass only", |input, out| Manner { most_passes: 1, ..RIGHT }.shrink(input, out)),
    wrong("two passes only", |input, out| Manner { most_passes: 2, ..RIGHT }.shrink(input, out)),
    wrong("any refusal for the same number", |input, out| {
        Manner { will_do: |answer, _| answer != 0, ..RIGHT }.shrink(input, out)
    }),
    wrong("tried on the list as the pass began", |input, out| {
        Manner { on_the_whole: true, ..RIGHT }.shrink(input, out)
    }),
    wrong("what was done is kept", |input, out| {
        Manner { may_drop: |answer| answer != 0, ..RIGHT }.shrink(input, out)
    }),
    wrong("the last step dropped", |input, out| {
        told(input, out, |mut numbers| {
            numbers.pop();
            numbers
        })
    }),
    wrong("numbers from 0", |input, out| {
        told(input, out, |numbers| numbers.iter().map(|number| number - 1).collect())
    }),
    wrong("numbered anew", |input, out| told(input, out, |numbers| (1..=numbers.len()).collect())),
];

/// What is left may be as promised, and yet it is not what is due; or nothing should be.
pub const WRONG_ELSEWHERE: [Engine; 7] = [
    wrong("from the first to the last", |input, out| {
        Manner { from_first: true, ..RIGHT }.shrink(input, out)
    }),
    wrong("a short tail left out", |input, out| {
        Manner { steps: |bytes| bytes.chunks_exact(STEP_LENGTH).collect(), ..RIGHT }
            .shrink(input, out)
    }),
    wrong("clean without steps only", |input, out| {
        Manner { is_clean: |answers| answers.is_empty(), ..RIGHT }.shrink(input, out)
    }),
    wrong("clean if all were done", |input, out| {
        Manner { is_clean: |answers| answers.iter().all(|answer| *answer == 0), ..RIGHT }
            .shrink(input, out)
    }),
    wrong("the length of what fits", |input, out| RIGHT.shrink(input, out).min(out.len())),
    wrong("nothing if not all fits", |input, out| {
        let mut all = out.to_vec();
        let length = RIGHT.shrink(input, &mut all);
        if length <= out.len() {
            out.copy_from_slice(&all);
        }
        length
    }),
    wrong("a byte behind the text", |input, out| {
        let length = RIGHT.shrink(input, out);
        out.get_mut(length).into_iter().for_each(|byte| *byte ^= 1);
        length
    }),
];
