//! A rehearsal in the making, with the reference's state alongside.

use crate::random::Random;
use crate::steps::{liars, random_steps};
use reference::form::{write_step, Step, STEP_LENGTH};
use reference::state::{Entry, State};
use reference::step::step;
use reference::table::{read_table, Table};

pub struct Making<'a> {
    pub random: &'a mut Random,
    pub text: Vec<u8>,
    pub table: Table,
    pub state: State,
    pub steps: Vec<Vec<u8>>,
}

impl<'a> Making<'a> {
    /// No steps yet, on a valid table.
    pub fn on(random: &'a mut Random, text: Vec<u8>) -> Making<'a> {
        let table = read_table(&text).expect("a valid table");
        let state = State::fresh(&table);
        Making { random, text, table, state, steps: Vec::new() }
    }

    /// The same on a state that is lent.
    pub fn lent(random: &'a mut Random, text: Vec<u8>, state: State) -> Making<'a> {
        Making { state, ..Making::on(random, text) }
    }

    /// One call more, with any bytes. As a part of an input they must be 13.
    pub fn call_any(&mut self, bytes: Vec<u8>) {
        step(&self.table, &mut self.state, &bytes);
        self.steps.push(bytes);
    }

    /// One step more, cut or filled up to 13 bytes.
    pub fn call(&mut self, mut bytes: Vec<u8>) {
        bytes.resize(STEP_LENGTH, 0);
        self.call_any(bytes);
    }

    /// These steps, in any order.
    pub fn together(&mut self, steps: impl Iterator<Item = Step>) {
        let mut steps: Vec<Step> = steps.collect();
        self.random.shuffle(&mut steps);
        for step in steps {
            self.call(write_step(step).to_vec());
        }
    }

    /// So many random steps more.
    pub fn wander(&mut self, count: usize) {
        let end = self.steps.len() + count;
        while self.steps.len() < end {
            let room = end - self.steps.len();
            let steps = random_steps(self.random, &self.table, &self.state);
            steps.into_iter().take(room).for_each(|step| self.call(step));
        }
    }

    pub fn honest(&self) -> Vec<usize> {
        self.table.honest.iter().copied().collect()
    }

    pub fn liars(&self) -> Vec<usize> {
        liars(&self.table)
    }

    /// The numbers of the entries that are so.
    pub fn entries(&self, is: impl Fn(&Entry) -> bool) -> Vec<usize> {
        (0..self.state.bag.len()).filter(|e| is(&self.state.bag[*e])).collect()
    }

    pub fn input(self) -> Vec<u8> {
        [self.text, self.steps.concat()].concat()
    }
}
