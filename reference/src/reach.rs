//! How high a claim reaches (document 02, wish 7): "for a reporter and a plan, the highest view at
//! which it claims that plan". It is written apart from `rules::claims`, and tested against it.

use crate::frame::{bad_previous, parse_reports, REPORT_LEN};

/// "The reports come as the 39 bytes of a suggest or proof."
pub const REPORTS_LEN: usize = 3 * REPORT_LEN;

/// "10 for another length, then 14 and 22"; otherwise the view.
pub fn claim_reach(bytes: &[u8], plan: u64) -> Result<u32, u8> {
    // 10: "not 39 bytes"
    if bytes.len() != REPORTS_LEN {
        return Err(10);
    }
    // 14: "some report, the lock too, has a bad mark, or is absent with a nonzero byte"
    let Some([highest, previous, _lock]) = parse_reports(bytes) else {
        return Err(14);
    };
    // 22: "the previous vote is at odds with its highest, as in the frame call"
    if bad_previous(previous, highest) {
        return Err(22);
    }
    // "It is the highest vote's view if that vote is for the plan,
    if let Some(vote) = highest.filter(|vote| vote.plan == plan) {
        return Ok(vote.view);
    }
    // else the previous vote's view,
    if let Some(vote) = previous {
        return Ok(vote.view);
    }
    // else 0."
    Ok(0)
}
