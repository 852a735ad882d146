//! The counts, as they are printed each minute.
use std::ops::RangeInclusive;

use crate::stage;

/// The sizes of networks that are counted together.
const SIZES: [RangeInclusive<usize>; 4] = [4..=4, 5..=13, 14..=63, 64..=64];

pub fn counts(when: &str) {
    let counts = stage::counts();
    let seen = &counts.seen;
    let [runs, decisions] = [&counts.runs, &counts.decisions].map(|all| all.iter().sum::<u64>());
    println!("{when}");
    println!("    calls {}, accepted {}; scripts {}, lines {}", seen.calls, seen.accepted, counts.scripts, counts.lines);
    println!("    rehearsals {}, lines {}, decisions by vaults not declared {}", counts.rehearsals, counts.rehearsed, counts.rehearsed_decisions);
    println!("    lists {}, records in them {}, refused {}, vaults named {}", counts.lists, counts.listed, counts.lists_refused, counts.names);
    println!("    claims {}, reaching above view 0 {}, refused {}", counts.reaches, counts.reaches_above, counts.reaches_refused);
    let [runs_cut, restarts, refused] = [counts.cut_runs, counts.restarts, counts.restarts_refused];
    let (items, cuts, decided) = (counts.cut_items, counts.cuts, counts.cut_decisions);
    println!("    runs with power cuts {runs_cut}, items {items}, cuts {cuts}, restarts {restarts} and {refused} refused, decisions {decided}");
    println!("    runs {runs}, decisions {decisions}; a proposal was safe by view 0, no lock, one set, two sets: {:?}", counts.clauses);
    for sizes in SIZES {
        let [runs, some, all] = [&counts.runs, &counts.some_decided, &counts.all_decided].map(|by_n| by_n[sizes.clone()].iter().sum::<u64>());
        let decisions: u64 = counts.decisions[sizes.clone()].iter().sum();
        println!("    n = {} to {}: runs {runs}, some decided in {some}, all in {all}, decisions {decisions}", sizes.start(), sizes.end());
    }
    println!("    refusals met, 1 to 22: {:?}", &seen.refusals[1..]);
    println!("    steps met, A to H: {:?}; A and B at different views: {}", seen.steps, seen.apart);
}
