//! The views above the current one that view-changes are for: steps A and B.

use crate::layout::Record;

/// What stands behind the first `count` views is not above the current one.
pub struct Asked {
    views: [u32; 64],
    count: usize,
}

impl Asked {
    #[inline(always)]
    pub fn of(rec: &Record, n: usize, current: u32) -> Asked {
        let mut asked = Asked { views: [0; 64], count: 0 };
        // An absent view-change has view 0.
        for change in &rec.changes[..n.min(64)] {
            let w = change.view();
            asked.views[asked.count & 63] = w;
            asked.count += usize::from(w > current);
        }
        asked
    }

    /// How many ask for a view above the current one: those for it or for a later one.
    #[inline(always)]
    fn asking(&self, w: u32) -> usize {
        let parts = self.views.chunks_exact(16).take(self.count.div_ceil(16));
        let asking = |part: &[u32]| part.iter().map(|&x| u32::from(w <= x)).sum::<u32>();
        parts.map(asking).sum::<u32>() as usize
    }

    /// The highest view above `low` that `need` ask for: it is the view of one of them.
    #[inline(always)]
    pub fn highest(&self, need: usize, low: u32) -> Option<u32> {
        if self.count < need {
            return None;
        }
        let mut best = low;
        for i in 0..self.count {
            let w = self.views[i & 63];
            if w > best && (i == 0 || self.views[(i - 1) & 63] != w) && self.asking(w) >= need {
                best = w;
            }
        }
        (best > low).then_some(best)
    }
}
