//! The support call that the bench measures is what its comment says.

use inputs::protocol::support_call;
use inputs::rehearsed::Rehearsed;
use reference::shrink::steps_left;

#[test]
fn of_4000_steps() {
    let input = support_call();
    let answers = Rehearsed::new(&input).outcome.expect("a valid table").answers;
    assert_eq!((answers.len(), answers.last()), (4_000, Some(&17)));
    let left = steps_left(&input).expect("a last step that is refused");
    assert_eq!((left.numbers.len(), left.numbers.last()), (33, Some(&4_000)));
    // Peers that it takes were down four times: the first pass keeps each up, and then
    // drops the down.
    assert_eq!(left.dropped, [3_963, 4, 0]);
}
