//! Report sets in the flat table that the Rattle search is lent, and random ones.
use crate::frames;
use reference::frame::Report;
use reference::rng::Rng;

pub type Reports = Vec<Option<[Option<Report>; 3]>>;

/// Columns of 64 numbers, one for each vault: 1 where it has reported; then of its highest vote, previous vote and lock the view + 1,
/// 0 where it has none, and the plan.
pub const COLUMN: usize = 64;
pub type Table = [u64; 7 * COLUMN];

/// The table of reports kept for view v. Where there is no reporter, reports of another view may stand there.
pub fn table_of(rng: &mut Rng, v: u32, reports: &Reports) -> Table {
    let mut table = [0; 7 * COLUMN];
    for vault in 0..COLUMN {
        let told = reports.get(vault).copied().flatten();
        if told.is_none() && rng.below(2) == 0 {
            continue;
        }
        table[vault] = u64::from(told.is_some());
        let another = v.wrapping_add(1 + rng.below(3) as u32);
        let three = told.unwrap_or_else(|| frames::reports(rng, another));
        for (j, report) in three.iter().enumerate() {
            if let Some(report) = report {
                table[(1 + 2 * j) * COLUMN + vault] = u64::from(report.view) + 1;
                table[(2 + 2 * j) * COLUMN + vault] = report.plan;
            }
        }
    }
    table
}

/// Reports that pass 14, 21 and 22 in view v, with views below v and plans below `plans`, so that all clauses occur.
pub fn random(rng: &mut Rng, n: usize, v: u32, plans: u64) -> Reports {
    let silent = rng.below(4);
    let locks = rng.below(4);
    (0..n)
        .map(|_| {
            if rng.below(8) < silent {
                return None;
            }
            let vote = |rng: &mut Rng, below: u32| Report { view: rng.below(u64::from(below)) as u32, plan: rng.below(plans) };
            let highest = (rng.below(5) > 0).then(|| vote(rng, v));
            let previous = highest.filter(|h| h.view > 0 && rng.below(2) == 0).map(|h| vote(rng, h.view));
            let previous = previous.filter(|p| highest.is_some_and(|h| p.plan != h.plan));
            let lock = (rng.below(4) < locks).then(|| vote(rng, v));
            Some([highest, previous, lock])
        })
        .collect()
}
