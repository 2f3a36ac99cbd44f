//! The bytes of docs/STATE.md as a struct without gaps. Peers are counted from
//! 0 here: peer j of document 01 is number j - 1.

/// A struct without gaps, in which any bytes will do, as the bytes in which it stands.
macro_rules! over_bytes {
    ($state:ty, $size:expr) => {
        const _: () =
            assert!(std::mem::size_of::<$state>() == $size && cfg!(target_endian = "little"));

        impl $state {
            /// The state that stands in so many bytes.
            pub fn over(bytes: &mut [u8]) -> &mut $state {
                assert_eq!(bytes.len(), $size);
                // The length is right, alignment is 1, and any bytes will do.
                unsafe { &mut *bytes.as_mut_ptr().cast() }
            }

            /// The same, to be read only.
            pub fn of(bytes: &[u8]) -> &$state {
                assert_eq!(bytes.len(), $size);
                // As above.
                unsafe { &*bytes.as_ptr().cast() }
            }
        }
    };
}

pub(crate) use over_bytes;

pub const SIZE: usize = 22_906;
pub const MOST_ENTRIES: usize = 256;

/// Signer sets by period and item.
pub type Sets = [[u16; 64]; 8];

pub const HASH: u8 = 1;
pub const BACKING: u8 = 2;
pub const BOARD: u8 = 3;

#[derive(Clone, Copy, PartialEq, Eq)]
#[repr(C, packed)]
pub struct Entry {
    pub kind: u8,
    pub signer: u8,
    pub period: u8,
    pub board: u64,
}

#[repr(C, packed)]
pub struct State {
    pub posted: u64,
    pub signed: Sets,
    pub shared: Sets,
    pub receipted: [u64; 8],
    pub held: [[u64; 8]; 16],
    pub databases: [Sets; 16],
    pub heard: [[u64; 4]; 16],
    pub open: [u8; 16],
    pub next: [u8; 16],
    pub down: [u8; 16],
    pub count: u16,
    pub bag: [Entry; MOST_ENTRIES],
}

over_bytes!(State, SIZE);

impl State {
    pub fn bytes(&self) -> &[u8; SIZE] {
        // It is so long, and has no gaps.
        unsafe { &*std::ptr::from_ref(self).cast() }
    }

    /// Makes it the fresh state.
    pub fn make_fresh(&mut self) {
        // It has no gaps, and zeros will do.
        unsafe { std::ptr::from_mut(self).write_bytes(0, 1) }
    }

    pub fn entries(&self) -> &[Entry] {
        &self.bag[..self.count as usize]
    }
}
