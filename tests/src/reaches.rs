//! How high claims reach, asked of the library with the reports on memory at the edge of closed pages: the answer against the in-place vault and
//! the reference, and what was lent.
use reference::reach::claim_reach;
use reference::reaches::{reach_question, ReachQuestion};

use crate::compared::{overrun, Harm};
use crate::pages::{Closed, Edge};
use crate::vaults;

/// The view, or a refusal's number.
pub type Reached = Result<u32, u8>;

/// The most bytes that are lent.
pub const MOST: usize = 100;

/// The page that reports are lent on.
pub struct Asker {
    reports: Closed,
    harm: Harm,
}

impl Asker {
    pub fn new(harm: Harm) -> Asker {
        Asker { reports: Closed::new(MOST), harm }
    }

    /// Asks with the bytes at either edge. A difference tells where the question comes from.
    pub fn ask(&mut self, from: &str, reports: &[u8], plan: u64) -> Reached {
        let wanted = claim_reach(reports, plan);
        let in_place = inplace::claim_reach(reports, plan);
        assert!(in_place == wanted, "difference: the in-place vault answers {in_place:?}, the reference {wanted:?}, on {from}");
        for edge in [Edge::Before, Edge::After] {
            let lent = self.reports.lend(reports, edge);
            let mut answer = vaults::claim_reach(lent, plan);
            if let Ok(view) = &mut answer {
                harm(self.harm, lent, view);
            }
            assert!(answer == wanted, "difference: the library answers {answer:?}, the reference {wanted:?}, on {from}");
            assert!(lent == reports, "difference: what was lent to be read was changed, on {from}");
        }
        wanted
    }

    /// The generator's question of a seed, and the answer to it.
    pub fn question(&mut self, seed: u64) -> (ReachQuestion, Reached) {
        let question = reach_question(seed);
        let answer = self.ask(&format!("question {seed}"), &question.bytes, question.plan);
        (question, answer)
    }
}

/// Does the harm where a view is answered.
fn harm(harm: Harm, reports: &[u8], view: &mut u32) {
    match harm {
        Harm::None => {}
        Harm::OtherByte => *view ^= 1,
        Harm::Overrun => overrun(reports),
    }
}
