//! Part 1: single calls.

use std::hint::black_box;

use comparison::case::Case;
use comparison::cases;
use comparison::sides::{InPlace, Rattle, Reference, Side};

use crate::clock::{race, Clock, Contender, Group};
use crate::summary::{Aim, Summary};
use crate::table;

const ROUNDS: u32 = 150;

/// Calls from a fresh copy of the record. A refused call changes nothing, and may be repeated.
/// Record and output lie where `place` puts them.
fn caller<'a, S: Side, B: AsMut<[u8]> + 'a>(
    clock: &'a Clock,
    case: &'a Case,
    place: impl Fn(&[u8], &[u8]) -> (B, B),
) -> Contender<'a> {
    let lent = case.lend::<S>();
    let state = place(&lent, &vec![0; case.space]);
    let call = move |(rec, out): &mut (B, B)| {
        let (rec, out) = (black_box(rec.as_mut()), black_box(out.as_mut()));
        let _ = black_box(black_box(case).call.on::<S>(rec, out));
    };
    if case.refused() {
        clock.repeated(state, call)
    } else {
        clock.fresh(state, move |(rec, _)| rec.as_mut().copy_from_slice(&lent), call)
    }
}

/// A copy of a record's bytes.
fn copier<S: Side>(clock: &Clock) -> Contender<'_> {
    let (from, to) = (vec![1u8; S::RECORD_LEN], vec![0u8; S::RECORD_LEN]);
    clock.repeated(to, move |to| black_box(to).copy_from_slice(black_box(&from)))
}

/// All sides, each with record and output where `place` puts them.
pub fn group_at<'a, B: AsMut<[u8]> + 'a>(
    clock: &'a Clock,
    case: &'a Case,
    place: impl Fn(&[u8], &[u8]) -> (B, B),
) -> Group<'a> {
    Group {
        library: caller::<Rattle, B>(clock, case, &place),
        in_place: caller::<InPlace, B>(clock, case, &place),
        reference: caller::<Reference, B>(clock, case, &place),
    }
}

/// All sides, with record and output where they come to lie.
pub fn group<'a>(clock: &'a Clock, case: &'a Case) -> Group<'a> {
    group_at(clock, case, |rec, out| (rec.to_vec(), out.to_vec()))
}

pub fn print(clock: &Clock, summary: &mut Summary, n: u8, f: u8) {
    let cases = cases::all(n, f);
    cases.iter().for_each(Case::check);
    let mut groups = vec![Group {
        library: copier::<Rattle>(clock),
        in_place: copier::<InPlace>(clock),
        reference: copier::<Reference>(clock),
    }];
    groups.extend(cases.iter().map(|case| group(clock, case)));
    let times = race(ROUNDS, groups);
    table::head(&format!("1. Single calls, n = {n}, f = {f}"), "nanoseconds a call");
    table::row("floor: a copy of the record's bytes", times[0]);
    for (case, &times) in cases.iter().zip(&times[1..]) {
        summary.row(Aim::of(case), &format!("n = {n}: "), &case.name, times);
    }
}
