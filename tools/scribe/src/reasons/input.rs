//! Why a table or an input is refused, told from its bytes.

use super::items::{no_item, twin};
use super::phrases::{comma_list, count};
use crate::pairs::Pairs;
use crate::season::Season;
use reference::report::INPUT_SIZE;
use reference::Refusal;

/// What a peer can weigh.
const WEIGHTS: std::ops::RangeInclusive<u8> = 1..=4;

/// What is wrong with a table or an input.
pub struct Fault {
    pub place: Place,
    /// The fact behind the refusal, in numbers.
    pub fact: String,
}

/// Where it stands.
pub enum Place {
    Input,
    Header,
    Weights,
    Item(usize),
}

/// The fact behind the refusal of this input; none if there is no such fact,
/// which is a fault of this program.
pub fn why(input: &[u8], refusal: Refusal) -> Option<Fault> {
    match refusal {
        Refusal::Input => too_long(input),
        Refusal::Header => header(input),
        Refusal::Pairs => pairs(input),
        Refusal::Item => item(input),
        Refusal::Twin => twins(input),
        // No other refusal is of an input.
        _ => None,
    }
}

fn fault(place: Place, fact: String) -> Option<Fault> {
    Some(Fault { place, fact })
}

/// 15
fn too_long(input: &[u8]) -> Option<Fault> {
    let length = input.len();
    let told = || format!("{length} bytes, but a rehearsal has at most {INPUT_SIZE}");
    (length > INPUT_SIZE).then(|| Fault { place: Place::Input, fact: told() })
}

/// 1: cut short, or fields and weights out of range, all of them.
fn header(input: &[u8]) -> Option<Fault> {
    let season = Season::of(input);
    let [n, t, high, low, periods, m] = match season.header(input) {
        Ok(header) => *header,
        Err(fact) => return fault(Place::Header, fact),
    };
    let (mut facts, mut weights) = (Vec::new(), None);
    if (1..=16).contains(&n) {
        match weight(season, input, n) {
            Ok(weight) => facts.extend(threshold(season, weight, t as usize)),
            Err(fact) => weights = Some(fact),
        }
        facts.extend(honest(n as usize, u16::from_be_bytes([high, low])));
    } else {
        facts.push(peers(season, n, t));
    }
    if !(1..=8).contains(&periods) {
        facts.push(format!("{periods} periods, but a table has 1 to 8"));
    }
    if m > 64 {
        facts.push(format!("{m} items, but a table has at most 64"));
    }
    let place = if facts.is_empty() { Place::Weights } else { Place::Header };
    facts.extend(weights);
    (!facts.is_empty()).then(|| Fault { place, fact: facts.join("; ") })
}

/// A number of peers out of range. A 0 at the start may be meant for a season.
fn peers(season: Season, n: u8, second: u8) -> String {
    let told = format!("{n} peers, but a table has 1 to 16");
    match (season, n) {
        (Season::First, 0) => {
            let later = "one of season 2 or 3 starts with 0 and 2 or with 0 and 3";
            format!("{told}, and {later}, not with 0 and {second}")
        }
        _ => told,
    }
}

/// W, which is n where peers have no weights; or the weights out of range.
fn weight(season: Season, input: &[u8], n: u8) -> Result<usize, String> {
    if !season.has_weights() {
        return Ok(n as usize);
    }
    let weights = season.weights(input, n)?;
    let wrong = (1..).zip(weights).filter(|(_, weight)| !WEIGHTS.contains(weight));
    let told: Vec<String> = wrong.map(|(j, weight)| format!("{weight} of peer {j}")).collect();
    match told.is_empty() {
        true => Ok(weights.iter().map(|weight| *weight as usize).sum()),
        false => Err(format!("weight {}, but weights are 1 to 4", told.join(", "))),
    }
}

/// The threshold, if it does not fit so many peers, or such a weight of all.
fn threshold(season: Season, weight: usize, t: usize) -> Option<String> {
    let least = 2 * weight / 3 + 1;
    let fits = if least == weight { format!("{weight}") } else { format!("{least} to {weight}") };
    let all = match season.has_weights() {
        true => format!("a weight of {weight} in all"),
        false => count(weight, "peer"),
    };
    let told = || format!("threshold {t}, but with {all} it must be {fits}");
    (!(least..=weight).contains(&t)).then(told)
}

/// The honest peers above n.
fn honest(n: usize, set: u16) -> Option<String> {
    let beyond: Vec<usize> = (n + 1..=16).filter(|k| set >> (k - 1) & 1 == 1).collect();
    let told = || format!("honest {}, but there are {}", comma_list(&beyond), count(n, "peer"));
    (!beyond.is_empty()).then(told)
}

/// 2: cut short, or an offset that is not the end before it.
fn pairs(input: &[u8]) -> Option<Fault> {
    let wrong = Pairs::of_input(input).texts().err()?;
    fault(wrong.item.map_or(Place::Header, Place::Item), wrong.fact)
}

/// The texts of the items, where header and pairs are in order.
fn texts(input: &[u8]) -> Option<Vec<&[u8]>> {
    Some(Pairs::of_input(input).texts().ok()?.0)
}

/// 3: length or kind wrong.
fn item(input: &[u8]) -> Option<Fault> {
    let fact_of = |(k, text)| Some((k, no_item(k, text, &[Season::of(input)])?));
    let (k, fact) = texts(input)?.into_iter().enumerate().find_map(fact_of)?;
    fault(Place::Item(k), fact)
}

/// 4: two items the same.
fn twins(input: &[u8]) -> Option<Fault> {
    let (k, fact) = twin(&texts(input)?)?;
    fault(Place::Item(k), fact)
}
