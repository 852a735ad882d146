//! Part 10: calls in which a step acts, by where record and output lie modulo 4,096.

use comparison::case::{Case, Class};
use comparison::cases;
use comparison::offsets::{Offsets, Placed, OFFSETS};

use crate::calls;
use crate::clock::{race, Clock, Group, Times};
use crate::summary::{Aim, Summary};
use crate::table;

/// Enough to find the best and the worst pairs of offsets, and to time those well.
const QUICK_ROUNDS: u32 = 6;
const ROUNDS: u32 = 40;
/// How many of the worst pairs are timed well, and how many of the best.
const FINALISTS: usize = 3;

type Found = Vec<(Offsets, Times)>;

/// The pairs that matter by themselves, and the record at every cache line of a page: how far it
/// lies from the stack matters too, and the stack lies elsewhere in each run.
fn tried() -> Vec<Offsets> {
    let lines = (128..4_096).step_by(64).map(|rec| Offsets { rec, out: 0 });
    Offsets::all().chain(lines).collect()
}

fn group<'a>(clock: &'a Clock, case: &'a Case, at: Offsets) -> Group<'a> {
    calls::group_at(clock, case, |rec, out| (Placed::new(rec, at.rec), Placed::new(out, at.out)))
}

/// The pairs of offsets with their times, the best ratio to the in-place vault first.
fn timed(clock: &Clock, case: &Case, rounds: u32, pairs: Vec<Offsets>) -> Found {
    let groups = pairs.iter().map(|&at| group(clock, case, at)).collect();
    let mut found: Found = pairs.into_iter().zip(race(rounds, groups)).collect();
    let ratio = |times: Times| times.library / times.in_place;
    found.sort_by(|one, other| ratio(one.1).total_cmp(&ratio(other.1)));
    found
}

/// The best few and the worst few of a quick race are timed well; of these the best and the worst.
fn extremes(clock: &Clock, case: &Case) -> [(Offsets, Times); 2] {
    let found = timed(clock, case, QUICK_ROUNDS, tried());
    let (best, worst) = (&found[..FINALISTS], &found[found.len() - FINALISTS..]);
    let finalists = [best, worst].concat().into_iter().map(|(at, _)| at).collect();
    let found = timed(clock, case, ROUNDS, finalists);
    [found[0], found[found.len() - 1]]
}

fn print_case(clock: &Clock, summary: &mut Summary, n: u8, case: &Case) {
    let [best, worst] = extremes(clock, case);
    let name =
        |which, Offsets { rec, out }| format!("    {which}: record at {rec}, output at {out}");
    println!("n = {n}: {}", case.name);
    table::row(&name("best", best.0), best.1);
    let of = format!("n = {n}: {}, ", case.name);
    summary.row(Aim::Acting, &of, &name("worst", worst.0), worst.1);
}

pub fn print(clock: &Clock, summary: &mut Summary, sizes: &[(u8, u8)]) {
    let title = format!(
        "10. Calls in which a step acts, with record and output at the offsets
   {OFFSETS:?} modulo 4096, all pairs, and the record at every 64th with the
   output at 0, the same for each side: the best ratio to the in-place vault, and the worst"
    );
    table::head(&title, "nanoseconds a call");
    for &(n, f) in sizes {
        let mut acting = cases::all(n, f);
        acting.retain(|case| case.class() == Class::Acting);
        acting.iter().for_each(|case| print_case(clock, summary, n, case));
    }
}
