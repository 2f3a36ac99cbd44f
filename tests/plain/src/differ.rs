//! Whether things all differ, by a small hash table of their numbers.

const SPREAD: u64 = 0x9E37_79B9_7F4A_7C15;

/// Whether the first n things differ. There are at least twice as many slots,
/// a power of two.
pub fn all_differ<const SLOTS: usize>(
    n: usize,
    hash: impl Fn(usize) -> u64,
    same: impl Fn(usize, usize) -> bool,
) -> bool {
    // A thing's number plus 1; 0 is free.
    let mut slots = [0u16; SLOTS];
    for k in 0..n {
        let mut at = (hash(k).wrapping_mul(SPREAD) >> (64 - SLOTS.ilog2())) as usize;
        while slots[at] != 0 {
            if same(slots[at] as usize - 1, k) {
                return false;
            }
            at = (at + 1) % SLOTS;
        }
        slots[at] = k as u16 + 1;
    }
    true
}
