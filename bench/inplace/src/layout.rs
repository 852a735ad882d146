//! The record of the Rattle vault (docs/DECISIONS.md, 'The record') as one struct over its bytes.
//! Every field is made of bytes, so every string of this length is one, at any address.

pub const SIZE: usize = 11_703;

const _: () = assert!(size_of::<Record>() == SIZE && align_of::<Record>() == 1);

/// The kept frame or the report of a sender, or one of the vault's own votes.
#[repr(C)]
#[derive(Clone, Copy)]
pub struct Slot {
    pub mark: u8,
    view: [u8; 4],
    plan: [u8; 8],
}

/// The slots of one kind of frame or report, by sender.
pub type Row = [Slot; 64];

/// The rows behind the view-changes: kinds 7, 8, 1 to 5, then the reports of suggests and proofs.
pub const SUGGESTS: usize = 0;
pub const PROOFS: usize = 1;
pub const PROPOSALS: usize = 2;
pub const VOTES_1: usize = 3;
pub const VOTES_2: usize = 4;
pub const VOTES_3: usize = 5;
pub const VOTES_4: usize = 6;
pub const ROWS: usize = 13;

/// The last slots: the previous vote-1, the previous vote-2, and the decision.
pub const DECISION: usize = 2;

#[repr(C)]
pub struct Record {
    pub n: u8,
    pub f: u8,
    pub id: u8,
    pub class: u8,
    view: [u8; 4],
    pub changes: Row,
    plan: [u8; 8],
    pub rows: [Row; ROWS],
    pub last: [Slot; 3],
}

/// The row of the highest votes that the suggests (0) or proofs (1) report; previous votes and
/// locks are in the next two.
#[inline(always)]
pub const fn reports_of(row: usize) -> usize {
    7 + 3 * row
}

impl Slot {
    #[inline(always)]
    pub fn new(view: u32, plan: u64) -> Slot {
        Slot { mark: 1, view: view.to_be_bytes(), plan: plan.to_be_bytes() }
    }

    #[inline(always)]
    pub fn from_bytes(bytes: &[u8; 13]) -> Slot {
        let [mark, a, b, c, d, plan @ ..] = *bytes;
        Slot { mark, view: [a, b, c, d], plan }
    }

    #[inline(always)]
    pub fn bytes(&self) -> [u8; 13] {
        let mut bytes = [self.mark; 13];
        bytes[1..5].copy_from_slice(&self.view);
        bytes[5..].copy_from_slice(&self.plan);
        bytes
    }

    #[inline(always)]
    pub fn view(&self) -> u32 {
        u32::from_be_bytes(self.view)
    }

    /// The view, wide enough to be added to.
    #[inline(always)]
    pub fn wide_view(&self) -> u64 {
        u64::from(self.view())
    }

    #[inline(always)]
    pub fn plan(&self) -> u64 {
        u64::from_be_bytes(self.plan)
    }

    /// View and plan as numbers that tell them apart and nothing else.
    #[inline(always)]
    pub fn raw_view(&self) -> u32 {
        u32::from_ne_bytes(self.view)
    }

    #[inline(always)]
    pub fn raw_plan(&self) -> u64 {
        u64::from_ne_bytes(self.plan)
    }
}

impl Record {
    /// None where the length is wrong.
    #[inline(always)]
    pub fn of(bytes: &[u8]) -> Option<&Record> {
        // SAFETY: the length is that of a record, whose fields are all made of bytes.
        (bytes.len() == SIZE).then(|| unsafe { &*bytes.as_ptr().cast() })
    }

    /// Records that lie end to end. None where a part is left over.
    #[inline(always)]
    pub fn end_to_end(bytes: &[u8]) -> Option<&[Record]> {
        let count = bytes.len() / SIZE;
        // SAFETY: as above, for each of so many records.
        (bytes.len() == SIZE * count)
            .then(|| unsafe { std::slice::from_raw_parts(bytes.as_ptr().cast(), count) })
    }

    #[inline(always)]
    pub fn of_mut(bytes: &mut [u8]) -> Option<&mut Record> {
        // SAFETY: as above.
        (bytes.len() == SIZE).then(|| unsafe { &mut *bytes.as_mut_ptr().cast() })
    }

    #[inline(always)]
    pub fn view(&self) -> u32 {
        u32::from_be_bytes(self.view)
    }

    #[inline(always)]
    pub fn set_view(&mut self, view: u32) {
        self.view = view.to_be_bytes();
    }

    #[inline(always)]
    pub fn plan(&self) -> u64 {
        u64::from_be_bytes(self.plan)
    }

    /// Settings, current view and starting plan.
    #[inline(always)]
    pub fn head(&self) -> [u8; 16] {
        let mut bytes = [0; 16];
        bytes[..4].copy_from_slice(&[self.n, self.f, self.id, self.class]);
        bytes[4..8].copy_from_slice(&self.view);
        bytes[8..].copy_from_slice(&self.plan);
        bytes
    }

    #[inline(always)]
    pub fn set_head(&mut self, bytes: &[u8; 16]) {
        [self.n, self.f, self.id, self.class] = [bytes[0], bytes[1], bytes[2], bytes[3]];
        self.view.copy_from_slice(&bytes[4..8]);
        self.plan.copy_from_slice(&bytes[8..]);
    }

    /// A started record: settings and plan, and nothing kept.
    pub fn fill(&mut self, [n, f, id, class]: [u8; 4], plan: u64) {
        // SAFETY: a record of zero bytes is one.
        unsafe { std::ptr::write_bytes(self, 0, 1) };
        (self.n, self.f, self.id, self.class) = (n, f, id, class);
        self.plan = plan.to_be_bytes();
    }
}

/// view mod n without a division, n from 4 to 64: 2^64 / n, rounded up, times view leaves the
/// remainder's share of 2^64.
#[inline(always)]
pub fn leader(view: u32, n: usize) -> usize {
    let share = STEPS[n & 127].wrapping_mul(u64::from(view));
    ((u128::from(share) * n as u128) >> 64) as usize
}

const STEPS: [u64; 128] = {
    let mut steps = [0; 128];
    let mut n = 1;
    while n < 128 {
        steps[n] = (u64::MAX / n as u64).wrapping_add(1);
        n += 1;
    }
    steps
};
