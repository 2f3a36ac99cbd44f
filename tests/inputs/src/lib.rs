//! Random inputs for every engine: tables, steps, sheets, closes and whole
//! rehearsals.
//!
//! - `random`: a small generator, and the seed of a run
//! - `sorts`: bytes by sort, and which answers each sort got
//! - `tables`, with `peers`: valid tables of every season, and what their peers weigh
//! - `seasons`, `weights`: sorts of tables by what makes a season, right or wrong, and by
//!   what weights do
//! - `damaged`: damaged tables
//! - `places`: audits of one ballot from two places
//! - `quorums`, with `unequal`: what weights decide, and numbers of peers would decide
//!   otherwise
//! - `given`: slips posted on two days
//! - `clears`: hashes that are cleared, and come again
//! - `uncleared`: the same calls with the clears among them and without
//! - `steps`: steps of which many are taken
//! - `making`: a rehearsal in the making, with the reference's state alongside
//! - `period`: periods that go well, and lies that fill the bag
//! - `protocol`: long rehearsals in which most steps are taken
//! - `chain`: rehearsals that shrink by one step a pass
//! - `bursts`, with `offers`: runs in bursts, shuffled, repeated and lost
//! - `rehearsed`: a rehearsal with what the reference makes of it
//! - `runs`, `wide`, `counted`, `odd`: rehearsals in the protocol's shape, those
//!   with the most to report, those whose totals are easily counted wrong, and
//!   those that are refused
//! - `kinds`: every kind of rehearsal
//! - `refused`: rehearsals whose last step is refused, and how they are cut short
//! - `step_files`: step files, to be counted
//! - `closes`, with `earlier` and `exchange`: closes of a period that come through,
//!   and such as lack something
//! - `scattered`, with `lent_closes`: states that no steps need lead to, and closes from
//!   such states
//! - `answers`: which answers the steps got
//! - `field`: calls and states of one peer's box for the field
//! - `sheets`: valid sheets, damaged ones, and other bytes
//! - `stored`: the rehearsals that are stored, with their reports

pub mod answers;
mod bursts;
pub mod chain;
pub mod clears;
pub mod closes;
mod counted;
pub mod damaged;
mod earlier;
mod exchange;
pub mod field;
pub mod given;
pub mod kinds;
pub mod lent_closes;
pub mod making;
mod odd;
mod offers;
pub mod peers;
pub mod period;
pub mod places;
pub mod protocol;
pub mod quorums;
pub mod random;
pub mod refused;
pub mod rehearsed;
mod runs;
pub mod scattered;
pub mod seasons;
pub mod sheets;
pub mod sorts;
pub mod step_files;
pub mod steps;
pub mod stored;
pub mod tables;
pub mod uncleared;
pub mod unequal;
pub mod weights;
mod wide;
