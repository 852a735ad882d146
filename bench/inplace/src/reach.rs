//! How high a claim reaches (document 02, wish 7), told from the bytes of three reports where they
//! lie.

use crate::layout::Slot;
use crate::scan::absent;

const SIZE: usize = 3 * size_of::<Slot>();

/// Whether a report is present, or absent and all 0.
#[inline(always)]
fn formed(report: &Slot) -> bool {
    report.mark == 1 || absent(std::slice::from_ref(report))
}

/// The highest view at which reports claim a plan, or refusals 10, 14 and 22 in this order.
pub fn claim_reach(reports: &[u8], plan: u64) -> Result<u32, u8> {
    let reports: &[u8; SIZE] = reports.try_into().map_err(|_| 10)?;
    let (slots, _) = reports.as_chunks();
    let [high, previous, lock] = [0, 1, 2].map(|i| Slot::from_bytes(&slots[i]));
    if !(formed(&high) && formed(&previous) && formed(&lock)) {
        return Err(14);
    }
    // An absent highest vote is at view 0: no previous vote is below it.
    let at_odds = || previous.view() >= high.view() || previous.raw_plan() == high.raw_plan();
    if previous.mark == 1 && at_odds() {
        return Err(22);
    }
    // An absent previous vote is at view 0. Where there is no highest vote there is none before it.
    Ok(if high.plan() == plan { high.view() } else { previous.view() })
}
