//! Which vaults spoke twice (document 02, wish 5): the library's call against the reference, on random lists, on records of networks of Rattle
//! vaults, on damaged records, on any lengths, and in the worked cases.
use std::collections::BTreeSet;

use comparison::compared::Harm;
use comparison::lists::{Desk, List, Named, MOST};
use comparison::random::any_of;
use comparison::records::{damage, frame_slot, get, place, reached, spell, LEN};
use comparison::sim::{self, Mode, Setup, Style, Wrong};
use comparison::text::bytes_of;
use comparison::vaults;
use reference::collections::{collection, Coverage, Item};
use reference::rng::Rng;
use reference::vault::Fault;

const FIRST_LIST: u64 = 70_000;
const LISTS: u64 = 4_000;
const DAMAGED: u64 = 20_000;
/// Sound lists that are damaged in turn.
const POOL: usize = 300;

fn desk() -> Desk {
    Desk::new(Harm::None)
}

#[test]
fn lists_are_named_as_the_reference_does() {
    let (mut desk, mut coverage) = (desk(), Coverage::default());
    for seed in FIRST_LIST..FIRST_LIST + LISTS {
        let (list, answer) = desk.list(seed);
        coverage.look(&list, &answer);
    }
    println!("{coverage:#?}");
    assert_eq!(coverage.missing(), Vec::<String>::new());
}

// Records of networks of Rattle vaults.

const STYLES: [Style; 6] = [Style::Rounds, Style::Feints, Style::Partitions, Style::Chaos, Style::Camps, Style::Calm];
/// Lists of the records of one run.
const LISTS_OF_RUN: u64 = 6;

/// The names in random lists of one run's records, none of them a rule-keeper's, and what went wrong in the run.
fn named_in_run(desk: &mut Desk, rng: &mut Rng, setup: &Setup) -> (BTreeSet<u8>, Option<Wrong>) {
    let run = sim::run_collected(setup, 60);
    let records: Vec<Vec<u8>> = run.moments.iter().chain(&run.last).map(spell).collect();
    let mut names = BTreeSet::new();
    for _ in 0..LISTS_OF_RUN {
        let size = if rng.one_in(4) { 64 - rng.below(8) } else { 2 + rng.below(8) };
        let picked: Vec<&Vec<u8>> = (0..size).map(|_| any_of(rng, &records)).collect();
        let answer = desk.ask(rng, &format!("records of {setup:?}"), &List::of(&picked), 256);
        names.extend(answer.expect("sound records of one network"));
    }
    for vault in &names {
        assert!(!run.keepers.contains(vault), "vault {vault} keeps the rules: {setup:?}");
    }
    (names, run.outcome.wrong)
}

/// A vault that keeps the rules votes once of a kind in a view: only liars are named, in some of the runs all of several.
#[test]
fn only_liars_of_networks_are_named() {
    let (mut desk, mut rng) = (desk(), Rng(12));
    let (mut runs, mut with_names, mut all_liars) = (0, 0, 0);
    for (n, f, liars, seeds) in [(4, 1, 1, 40), (4, 1, 0, 4), (7, 2, 2, 12), (10, 3, 3, 4)] {
        for (style, seed) in STYLES.into_iter().flat_map(|style| (0..seeds).map(move |seed| (style, seed))) {
            let setup = Setup { n, f, liars, mode: Mode::Bytes, fault: Fault::None, style, seed };
            let (names, wrong) = named_in_run(&mut desk, &mut rng, &setup);
            assert_eq!(wrong, None, "{setup:?}");
            runs += 1;
            with_names += u64::from(!names.is_empty());
            all_liars += u64::from(liars > 1 && names.len() == usize::from(liars));
        }
    }
    println!("{runs} runs, {with_names} with names, {all_liars} with all of several liars");
    assert!(with_names > 0 && all_liars > 0);
}

/// Where more than f lie, two plans may be decided. Then too only liars are named.
#[test]
fn only_liars_are_named_where_two_plans_are_decided() {
    let (mut desk, mut rng) = (desk(), Rng(17));
    let (mut runs, mut disagreed, mut with_names) = (0, 0, 0);
    for (n, f, liars, seeds) in [(4, 1, 2, 40), (7, 2, 3, 20), (7, 2, 4, 20), (10, 3, 5, 6)] {
        for (style, seed) in [Style::Camps, Style::Rounds].into_iter().flat_map(|style| (0..seeds).map(move |seed| (style, seed))) {
            let setup = Setup { n, f, liars, mode: Mode::Bytes, fault: Fault::None, style, seed };
            let (names, wrong) = named_in_run(&mut desk, &mut rng, &setup);
            runs += 1;
            if matches!(wrong, Some(Wrong::Disagreement { .. })) {
                disagreed += 1;
                with_names += u64::from(!names.is_empty());
            }
        }
    }
    println!("{runs} runs with more than f liars, {disagreed} with two plans decided, {with_names} of these with names");
    assert!(disagreed > 0 && with_names > 0);
}

// Damaged lists.

/// Lengths off by a little, moved from one record to another, 0, or as large as they get.
fn damage_lengths(rng: &mut Rng, lengths: &mut [u32]) {
    let [one, other] = [(); 2].map(|()| rng.below(lengths.len() as u64) as usize);
    let change = 1 + rng.below(3) as u32;
    match rng.below(5) {
        0 => lengths[one] += change,
        1 => lengths[one] -= change,
        2 => {
            lengths[one] += change;
            lengths[other] -= change;
        }
        3 => lengths[one] = 0,
        _ => lengths[one] = u32::MAX,
    }
}

/// Another last byte in a view or a plan of a kept vote, if there is one: mostly the record stays sound.
fn damage_vote(rng: &mut Rng, record: &mut [u8]) {
    let votes = (2..=5).flat_map(|kind| (0..64).map(move |sender| place(frame_slot(kind, sender))));
    let kept: Vec<usize> = votes.filter(|&at| record[at] == 1).collect();
    if !kept.is_empty() {
        let last = rng.pick(&kept) + rng.pick(&[4, 12]);
        record[last] = record[last].wrapping_add(rng.pick(&[1, 255]));
    }
}

/// One record has one to three other bytes, is cut short, too long or any bytes, or the lengths are wrong.
fn damaged(rng: &mut Rng, records: &[Vec<u8>]) -> List {
    let mut records = records.to_vec();
    let at = rng.below(records.len() as u64) as usize;
    let record = &mut records[at];
    match rng.below(16) {
        0 => record.truncate(LEN - 1 - rng.below(3) as usize),
        1 => record.resize(LEN + 1 + rng.below(3) as usize, 0),
        2 => rng.fill(record),
        3 | 4 => {
            let mut list = List::of(&records);
            damage_lengths(rng, &mut list.lengths);
            return list;
        }
        5..=8 => (0..1 + rng.below(3)).for_each(|_| damage(rng, record)),
        _ => (0..1 + rng.below(3)).for_each(|_| damage_vote(rng, record)),
    }
    List::of(&records)
}

/// The bytes of each record of lists that are not refused.
fn sound_lists(count: usize) -> Vec<(Vec<Vec<u8>>, Named)> {
    let lists = (FIRST_LIST..).map(collection).filter(|list| list.answer().is_ok() && list.items.len() < 8);
    let spelled = |item: &Item| item.spelled(spell);
    lists.take(count).map(|list| (list.items.iter().map(spelled).collect(), list.answer())).collect()
}

#[test]
fn damaged_lists_are_named_as_their_contents_say() {
    let (mut desk, mut rng) = (desk(), Rng(13));
    let lists = sound_lists(POOL);
    let (mut refused, mut with_names, mut other_names) = (0, 0, 0);
    for round in 0..DAMAGED {
        let (records, before) = any_of(&mut rng, &lists);
        let list = damaged(&mut rng, records);
        let answer = desk.ask(&mut rng, &format!("damaged list {round}"), &list, 256);
        refused += u64::from(answer == Err(24));
        with_names += u64::from(answer.as_ref().is_ok_and(|names| !names.is_empty()));
        other_names += u64::from(answer.is_ok() && answer != *before);
    }
    println!("{DAMAGED} damaged lists: {refused} refused, {with_names} with names, {other_names} with other names than before");
    assert!(refused > DAMAGED / 4 && with_names > DAMAGED / 4 && other_names > DAMAGED / 50);
}

#[test]
fn any_bytes_are_refused() {
    let (mut desk, mut rng) = (desk(), Rng(14));
    for round in 0..300 {
        let mut records = vec![vec![0; LEN]; 2 + rng.below(4) as usize];
        records.iter_mut().for_each(|record| rng.fill(record));
        if round % 2 == 0 {
            records[0][0] = 0;
        }
        assert_eq!(desk.ask(&mut rng, &format!("any bytes {round}"), &List::of(&records), 256), Err(24));
    }
}

// Any lengths.

/// Counts of records and of lengths: too few, right and too many.
const COUNTS: [usize; 7] = [0, 1, 2, 3, 64, 65, MOST];

/// Lengths that are refused with so many bytes of sound records, though some add up.
fn wrong_lengths(bytes: usize) -> Vec<Vec<u32>> {
    let (len, half) = (LEN as u32, 1 << 31);
    let mut all = vec![vec![half, half]];
    for count in COUNTS {
        all.extend([vec![0; count], vec![u32::MAX; count]]);
        // All bytes in the first part; then, with as many records, the right sum in 32 bits only.
        let (mut whole, mut wrapped) = (vec![0; count], vec![len; count]);
        whole.iter_mut().take(1).for_each(|first| *first = bytes as u32);
        wrapped.iter_mut().take(2).for_each(|length| *length += half);
        all.extend([whole, wrapped]);
        if bytes != count * LEN || !(2..=64).contains(&count) {
            all.push(vec![len; count]);
        }
    }
    all
}

#[test]
fn any_lengths_are_refused() {
    let (mut desk, mut rng) = (desk(), Rng(15));
    let record = spell(&reached(7, 1)[0]);
    for count in COUNTS {
        let records = record.repeat(count);
        for lengths in wrong_lengths(records.len()) {
            let from = format!("{count} records, {} lengths from {:?} on", lengths.len(), lengths.first());
            let list = List { records: records.clone(), lengths };
            assert_eq!(desk.ask(&mut rng, &from, &list, 256), Err(24), "{from}");
            assert_eq!(desk.ask(&mut rng, &from, &list, 255), Err(1), "{from}");
        }
    }
    let fine = List::of(&vec![&record; 64]);
    assert_eq!(desk.ask(&mut rng, "64 records", &fine, 256), Ok(vec![]));
}

// The worked cases.

fn started(n: u8, f: u8, id: u8) -> Vec<u8> {
    let mut rec = vec![0; LEN];
    vaults::start(&mut rec, n, f, id, 0, 7, &mut [0; 256]).expect("right settings");
    rec
}

/// A record of four vaults, made by a start and frames at the library; each frame is of the sender that it names.
fn made(id: u8, frames: &[&str]) -> Vec<u8> {
    let mut rec = started(4, 1, id);
    for frame in frames {
        let bytes = bytes_of(frame.as_bytes()).expect("digits");
        vaults::frame(&mut rec, bytes[1], &bytes, &mut [0; 256]).expect("a frame that passes");
    }
    rec
}

#[test]
fn the_worked_cases() {
    let a = &made(0, &["0201000000000000000000000007", "0502000000030000000000000001"]);
    let b = &made(3, &["0201000000000000000000000008", "0502000000040000000000000002"]);
    let c = &made(1, &["0502000000030000000000000009", "0100000000000000000000000099"]);
    let e = &made(0, &["0501000000000000000000000007", "0502000000000000000000000007", "0503000000000000000000000007"]);
    let g = &made(3, &["0500000000000000000000000008", "0501000000000000000000000008", "0502000000000000000000000008"]);
    assert_eq!(get(c, frame_slot(2, 1)), (1, 0, 0x99), "its own vote-1");
    let (blank, seven) = (&vec![0; LEN], &started(7, 2, 0));
    let (mut desk, mut rng) = (desk(), Rng(16));
    let mut ask = |records: &[&Vec<u8>], space| desk.ask(&mut rng, "a worked case", &List::of(records), space);
    assert_eq!(ask(&[a, b], 256), Ok(vec![1]));
    assert_eq!(ask(&[a, c], 256), Ok(vec![1, 2]));
    assert_eq!(ask(&[b, a, c], 256), Ok(vec![1, 2]));
    assert_eq!(ask(&[a, a], 256), Ok(vec![]));
    assert_eq!(ask(&[e, g], 256), Ok(vec![1, 2]));
    assert_eq!(ask(&[a], 255), Err(1));
    assert_eq!(ask(&[a], 256), Err(24));
    assert_eq!(ask(&[a, blank], 256), Err(24));
    assert_eq!(ask(&[a, seven], 256), Err(24));
}
