//! Scripts of the rehearsal: its output against the reference's, and no two plans decided by vaults that are not declared.
use reference::rehearsals::{cover, script, Coverage};
use reference::rng::Rng;

use super::lines::same;
use super::Sabotage;
use crate::program::REHEARSAL;
use crate::stage;

/// In one round.
const SCRIPTS: u64 = 20;

pub fn round(mut rng: Rng, sabotage: Sabotage) {
    for _ in 0..SCRIPTS {
        let script = script(rng.next());
        stage::begin(b"rehearsal\n");
        stage::note(&script);
        let covered = judged(&script, sabotage);
        stage::counts().add_rehearsal(&covered);
    }
}

fn judged(script: &[u8], sabotage: Sabotage) -> Coverage {
    same(&REHEARSAL, script, sabotage);
    let mut coverage = Coverage::default();
    cover(script, &mut coverage);
    assert!(coverage.disagreements == 0, "disagreement: vaults that are not declared decided two plans");
    coverage
}

pub fn again(lines: &[Vec<u8>], sabotage: Sabotage) {
    judged(&lines.concat(), sabotage);
}
