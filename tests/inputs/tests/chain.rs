//! A chain shrinks by one link a pass, from the first to the last; the reference
//! counts.

use inputs::chain::Chain;
use reference::shrink::steps_left;

/// As many passes as links drop one step each; then one drops none.
#[test]
fn a_link_a_pass() {
    for links in [1, 2, 3, 20] {
        let chain = Chain::of(links);
        let left = steps_left(&chain.input).expect("a last step that is refused");
        assert_eq!(left.dropped, [vec![1; links], vec![0]].concat());
        assert_eq!(left.numbers, chain.left());
    }
}
