//! How many bytes a call copies and fills by memcpy, memmove and memset. This program has its own ones, which count: the library's
//! calls come here. A record by value where none is needed, by our own slip or a compiler's, shows as a record more.
use std::cell::Cell;

use comparison::case::{Case, Class, Expected, SPACE};
use comparison::random::{contested, view_of};
use comparison::records::{frame_slot, fresh, put, LEN};
use comparison::remnants::REMNANT_SIZE;
use comparison::sides::Rattle;
use comparison::{cases, vaults};
use reference::frame::Report;
use reference::reaches::spelled;
use reference::rng::Rng;
use reference::rules::Clause;
use reference::vault::Step;

/// The most that a call copies in which no step acts or searches.
const MOST_QUIET: usize = 0;
/// The most that a call copies where it acts: of the vault's own part, of slots and of entries.
const MOST_OWN: usize = 1_024;
/// What C and D copy where they search: the table of reports, seven numbers for each of 64 vaults, twice.
const TABLES: usize = 2 * 64 * 7 * 8;
/// What they copy besides for each view that they prepare a search at: none where no lock is in the way, else C one and D one or two.
const COUNTS: usize = 1_280;
/// A start fills a record once; what is filled besides, own parts and tables, is small.
const MOST_FILLED: usize = LEN + MOST_OWN;
/// So does a restart, and it makes no other record to be tested.
const MOST_RESTARTED: usize = LEN + MOST_OWN;

/// Random report sets that are searched.
const SEARCHES: u32 = 20_000;

thread_local! {
    /// The bytes copied and filled by this thread.
    static COPIED: Cell<usize> = const { Cell::new(0) };
    static FILLED: Cell<usize> = const { Cell::new(0) };
}

// Volatile accesses: a compiler makes a plain loop a call of the very function that it stands in.

#[no_mangle]
unsafe extern "C" fn memcpy(to: *mut u8, from: *const u8, count: usize) -> *mut u8 {
    COPIED.set(COPIED.get() + count);
    for i in 0..count {
        to.add(i).write_volatile(from.add(i).read_volatile());
    }
    to
}

#[no_mangle]
unsafe extern "C" fn memmove(to: *mut u8, from: *const u8, count: usize) -> *mut u8 {
    if to.cast_const() <= from {
        return memcpy(to, from, count);
    }
    COPIED.set(COPIED.get() + count);
    for i in (0..count).rev() {
        to.add(i).write_volatile(from.add(i).read_volatile());
    }
    to
}

#[no_mangle]
unsafe extern "C" fn memset(to: *mut u8, byte: i32, count: usize) -> *mut u8 {
    FILLED.set(FILLED.get() + count);
    for i in 0..count {
        to.add(i).write_volatile(byte as u8);
    }
    to
}

/// The bytes that the case's call copies, and those that it fills.
fn counted(case: &Case) -> (usize, usize) {
    let (mut rec, mut out) = (case.lend::<Rattle>(), vec![0; case.space]);
    let before = (COPIED.get(), FILLED.get());
    let answer = case.call.on::<Rattle>(&mut rec, &mut out);
    let counted = (COPIED.get() - before.0, FILLED.get() - before.1);
    assert_eq!(answer.is_ok(), case.class() != Class::Refused, "{}", case.name);
    counted
}

/// The measure itself: what this program copies is counted.
#[test]
fn a_copy_and_a_fill_show() {
    let (from, mut to) = (vec![1u8; 5_000], vec![0u8; 5_000]);
    let before = (COPIED.get(), FILLED.get());
    std::hint::black_box(&mut to).copy_from_slice(std::hint::black_box(&from));
    std::hint::black_box(&mut to)[..3_000].fill(std::hint::black_box(7));
    assert_eq!((COPIED.get() - before.0, FILLED.get() - before.1), (5_000, 3_000));
}

/// The most that C and D copy where they search. At a start, in view 0, they do not. Where C acts D searches too: the cases have no proofs then.
fn most_searched(case: &Case) -> usize {
    match case.expected {
        Expected::Steps([]) if case.searches => TABLES + 2 * COUNTS,
        Expected::Steps([Step::C]) => TABLES + COUNTS + TABLES,
        Expected::SafeBy(Clause::OneSet { .. }) => TABLES + COUNTS,
        Expected::SafeBy(Clause::TwoSets { .. }) => TABLES + 2 * COUNTS,
        Expected::SafeBy(_) => TABLES,
        _ => 0,
    }
}

/// The most that the case's call copies.
fn most_copied(case: &Case) -> usize {
    let most = if case.class() == Class::Acting { MOST_OWN } else { MOST_QUIET };
    most + most_searched(case)
}

/// Calls of which the one that copies the most is printed, and whether C or D searches in them.
const GROUPS: [(Class, bool); 5] =
    [(Class::Quiet, false), (Class::Quiet, true), (Class::Refused, false), (Class::Acting, false), (Class::Acting, true)];

#[test]
fn no_call_copies_a_record() {
    let mut slips = Vec::new();
    for (n, f) in [(4, 1), (64, 21)] {
        let cases = cases::all(n, f);
        let mut counts: Vec<_> = cases.iter().map(|case| (counted(case), case)).collect();
        counts.sort_by_key(|count| count.0);
        for (class, searches) in GROUPS {
            let of_group = |count: &&(_, &Case)| count.1.class() == class && (most_searched(count.1) > 0) == searches;
            let ((copied, filled), Case { name, .. }) = counts.iter().rfind(of_group).expect("a case of the group");
            let how = if searches { ", C or D searches" } else { "" };
            println!("{copied:>7} bytes copied, {filled} filled, n = {n}, {class:?}{how}: {name}");
        }
        counts.retain(|&((copied, filled), case)| copied > most_copied(case) || filled > MOST_FILLED);
        slips.extend(counts.iter().map(|(counted, case)| format!("n = {n}: {counted:?}, at most {}: {}", most_copied(case), case.name)));
    }
    assert!(slips.is_empty(), "too many bytes, copied and filled: {slips:#?}");
}

/// The bytes that work copies, and those that it fills.
fn counted_in(work: impl FnOnce()) -> (usize, usize) {
    let before = (COPIED.get(), FILLED.get());
    work();
    (COPIED.get() - before.0, FILLED.get() - before.1)
}

/// Whatever the reports are, C and D copy no more where they search: tried on random ones.
#[test]
fn no_search_copies_more() {
    let mut rng = Rng(5);
    let mut most = [[0; 2]; 2];
    for _ in 0..SEARCHES {
        let (mut rec, mut out) = (contested(&mut rng), [0; SPACE]);
        let leads = view_of(&rec) % u32::from(rec[0]) == u32::from(rec[2]);
        let sender = (rec[2] + 1) % rec[0];
        let vote = [&[3, sender][..], &u32::MAX.to_be_bytes(), &[0; 8]].concat();
        let mut answer = Err(0);
        let (copied, _) = counted_in(|| answer = vaults::frame(&mut rec, sender, &vote, &mut out));
        let acts = answer.expect("a vote for a later view is kept") > 0;
        let most = &mut most[usize::from(leads)][usize::from(acts)];
        *most = copied.max(*most);
    }
    println!("most bytes copied: D in vain, D acts {:?}; C in vain, C acts {:?}", most[0], most[1]);
    let [by_d, by_c] = [TABLES + 2 * COUNTS, TABLES + COUNTS];
    assert!(most[0][0] <= by_d && most[0][1] <= by_d + MOST_OWN);
    assert!(most[1][0] <= by_c && most[1][1] <= by_c + TABLES + MOST_OWN);
}

/// A remnant is the vault's own part, and a restart's record is made of it where it is lent. No record is copied whole.
#[test]
fn a_remnant_and_a_restart_copy_no_record() {
    let mut rec = fresh([64, 21, 0, 0], 0, 7);
    (2..=5).for_each(|kind| put(&mut rec, frame_slot(kind, 0), 1, 0, 7));
    let (mut remnant, mut out, mut back) = ([0; REMNANT_SIZE], [0; 256], vec![0; LEN]);
    let written = counted_in(|| assert_eq!(vaults::write_remnant(&rec, &mut remnant), Ok(REMNANT_SIZE)));
    let restarted = counted_in(|| assert_eq!(vaults::restart(&mut back, &remnant, &mut out), Ok(10)));
    for ((copied, filled), most_filled, name) in [(written, 0, "a remnant"), (restarted, MOST_RESTARTED, "a restart")] {
        println!("{copied:>7} bytes copied, {filled} filled: {name}");
        assert!(copied <= MOST_OWN && filled <= most_filled, "{name}");
    }
}

/// Reports are read where they lie.
#[test]
fn a_claims_reach_copies_nothing() {
    let [highest, previous] = [(4, 5), (2, 6)].map(|(view, plan)| Some(Report { view, plan }));
    for (reports, wanted) in [([highest, previous, None], Ok(2)), ([previous, highest, None], Err(22))] {
        let reports = spelled(&reports);
        let counted = counted_in(|| assert_eq!(vaults::claim_reach(&reports, 6), wanted));
        assert_eq!(counted, (0, 0), "{wanted:?}");
    }
}
