//! Memory at a chosen offset modulo 4,096. A machine tells early loads from stores before them by these bits of their addresses alone, so a
//! call's time may depend on where its slices lie; its bytes never do.
use std::ops::Range;

const PAGE: usize = 4_096;
/// The offsets that matter: a page's first byte and the next, a word's, a wide load's and a cache line's distance from it, and its last byte.
pub const OFFSETS: [usize; 6] = [0, 1, 8, 16, 64, PAGE - 1];
/// Bytes on each side of what is lent, and what they hold.
const AROUND: usize = 64;
const UNTOUCHED: u8 = 0x5a;

/// Where a call's record and output lie, modulo 4,096.
#[derive(Clone, Copy, PartialEq, Eq, Debug)]
pub struct Offsets {
    pub rec: usize,
    pub out: usize,
}

impl Offsets {
    /// Every pair.
    pub fn all() -> impl Iterator<Item = Offsets> {
        OFFSETS.into_iter().flat_map(|rec| OFFSETS.map(|out| Offsets { rec, out }))
    }
}

/// Bytes that lie at an offset, with others around them.
pub struct Placed {
    pub memory: Vec<u8>,
    /// Which of these are lent.
    pub lent: Range<usize>,
}

impl Placed {
    /// A copy of the bytes at the offset.
    pub fn new(bytes: &[u8], offset: usize) -> Placed {
        let memory = vec![UNTOUCHED; AROUND + PAGE + bytes.len() + AROUND];
        let first = memory.as_ptr() as usize + AROUND;
        let from = AROUND + (offset + PAGE - first % PAGE) % PAGE;
        let mut placed = Placed { memory, lent: from..from + bytes.len() };
        placed.as_mut().copy_from_slice(bytes);
        assert_eq!(placed.as_mut().as_ptr() as usize % PAGE, offset);
        placed
    }

    /// All bytes around those lent are as they were.
    pub fn kept_within(&self) -> bool {
        let around = [&self.memory[..self.lent.start], &self.memory[self.lent.end..]];
        around.into_iter().flatten().all(|&byte| byte == UNTOUCHED)
    }
}

/// What is lent.
impl AsMut<[u8]> for Placed {
    fn as_mut(&mut self) -> &mut [u8] {
        &mut self.memory[self.lent.clone()]
    }
}
