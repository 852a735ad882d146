//! Which vaults spoke twice (document 02, wish 5): the worked cases of document 03, the edges of 1
//! and 24, what counts and what doesn't, the promises on random lists, and the records of networks.
mod common;
use common::*;

use std::collections::{BTreeMap, BTreeSet};

use reference::collections::{collection, Coverage, Item};
use reference::equivocation::{equivocators, named_by_contents, named_in};
use reference::frame::{Frame, VOTE_1, VOTE_4};
use reference::record::{classify, encode, Lent, Record, RECORD_LEN};
use reference::rng::Rng;
use reference::sim::{self, Mode, Setup, Style};
use reference::vault::Fault;

const SEED: u64 = 50_000;

/// A debug build is slower, so it runs fewer lists and networks.
fn count(release: u64) -> u64 {
    if cfg!(debug_assertions) {
        release.div_ceil(4)
    } else {
        release
    }
}

/// The call with all that it leaves alone: bytes beyond the names, and after a refusal all bytes.
fn called(records: &[u8], lengths: &[u32], space: usize) -> Result<Vec<u8>, u8> {
    let mut out = vec![0; space];
    Rng(0x5eed).fill(&mut out);
    let before = out.clone();
    let answer = equivocators(records, lengths, &mut out);
    let written = answer.unwrap_or(0);
    assert!(written <= 64, "{written}");
    assert!(out[written..] == before[written..], "bytes beyond the names");
    answer.map(|written| out[..written].to_vec())
}

fn end_to_end<T: AsRef<[u8]>>(records: &[T]) -> (Vec<u8>, Vec<u32>) {
    let lengths = records.iter().map(|record| record.as_ref().len() as u32).collect();
    (records.iter().flat_map(|record| record.as_ref().to_vec()).collect(), lengths)
}

/// The names over bytes, which are the names by contents.
fn named<T: AsRef<[u8]>>(records: &[T]) -> Result<Vec<u8>, u8> {
    let (bytes, lengths) = end_to_end(records);
    let answer = called(&bytes, &lengths, 256);
    let lent: Vec<Lent> = records.iter().map(|record| classify(record.as_ref())).collect();
    assert_eq!(answer, named_in(&lent));
    answer
}

fn names_of(records: &[Record]) -> Vec<u8> {
    assert!(records.iter().all(Record::sound), "a test's records are sound");
    named(&records.iter().map(encode).collect::<Vec<_>>()).expect("accepted")
}

/// Of four vaults, in view 9: a record with these frames.
fn keeping(id: u8, frames: &[Frame]) -> Record {
    record_with(4, 1, id, 7, 9, frames)
}

// ---------------------------------------------------------------------------------------------
// Document 03's worked cases.

/// A record of four vaults with class 0 and plan 7, by a start and frames.
fn by_calls(id: u8, frames: &[Frame]) -> Vec<u8> {
    let mut vault = Vault::blank();
    vault.start(4, 1, id, 0, 7).expect("starts");
    for frame in frames {
        vault.take(frame);
    }
    vault.rec
}

fn a() -> Vec<u8> {
    by_calls(0, &[vote(1, 1, 0, 7), vote(4, 2, 3, 1)])
}

fn b() -> Vec<u8> {
    by_calls(3, &[vote(1, 1, 0, 8), vote(4, 2, 4, 2)])
}

fn c() -> Vec<u8> {
    by_calls(1, &[vote(4, 2, 3, 9), proposal(0, 0, 0x99)])
}

#[test]
fn the_frames_of_the_worked_cases() {
    for (frame, spelled) in [
        (vote(1, 1, 0, 7), "0201000000000000000000000007"),
        (vote(4, 2, 3, 1), "0502000000030000000000000001"),
        (vote(1, 1, 0, 8), "0201000000000000000000000008"),
        (vote(4, 2, 4, 2), "0502000000040000000000000002"),
        (vote(4, 2, 3, 9), "0502000000030000000000000009"),
        (proposal(0, 0, 0x99), "0100000000000000000000000099"),
    ] {
        assert_eq!(hex(&reference::frame::write(&frame)), spelled);
    }
    // "it then sends vote-1 for 99 itself"
    let Lent::Sound(c) = classify(&c()) else { panic!("sound") };
    assert_eq!(c.own(VOTE_1), Some(&vote(1, 1, 0, 0x99)));
}

#[test]
fn the_worked_cases() {
    let e = by_calls(0, &[1, 2, 3].map(|sender| vote(4, sender, 0, 7)));
    let g = by_calls(3, &[0, 1, 2].map(|sender| vote(4, sender, 0, 8)));
    for (records, names) in [
        (vec![a(), b()], vec![1]),
        (vec![a(), c()], vec![1, 2]),
        (vec![b(), a(), c()], vec![1, 2]),
        (vec![a(), a()], vec![]),
        (vec![e, g], vec![1, 2]),
    ] {
        assert_eq!(named(&records), Ok(names));
    }
    let (bytes, lengths) = end_to_end(&[a()]);
    assert_eq!(called(&bytes, &lengths, 255), Err(1));
    assert_eq!(named(&[a()]), Err(24));
    assert_eq!(named(&[a(), vec![0; RECORD_LEN]]), Err(24));
    assert_eq!(named(&[a(), encode(&record_with(7, 2, 0, 7, 0, &[]))]), Err(24));
}

// ---------------------------------------------------------------------------------------------
// 1 and 24.

#[test]
fn space_below_256_bytes_comes_first() {
    let (bytes, lengths) = end_to_end(&[a(), c()]);
    for space in [0, 1, 2, 64, 255] {
        assert_eq!(called(&bytes, &lengths, space), Err(1));
        assert_eq!(called(&bytes, &lengths[..1], space), Err(1), "and 24");
        assert_eq!(called(&[], &[], space), Err(1), "and 24");
    }
    for space in [256, 257, 1000] {
        assert_eq!(called(&bytes, &lengths, space), Ok(vec![1, 2]));
        assert_eq!(called(&bytes, &lengths[..1], space), Err(24));
    }
}

#[test]
fn two_to_64_records() {
    let many = |count: usize| -> Vec<Vec<u8>> {
        (0..count).map(|at| if at + 1 < count { a() } else { c() }).collect()
    };
    for count in [0, 1, 65, 66, 128] {
        assert_eq!(named(&many(count)), Err(24), "{count}");
    }
    for count in [2, 3, 63, 64] {
        assert_eq!(named(&many(count)), Ok(vec![1, 2]), "{count}");
    }
}

/// With this record in the first, a middle or the last place of five.
fn assert_in_each_place(record: &[u8], answer: Result<Vec<u8>, u8>) {
    for place in [0, 2, 4] {
        let mut records = vec![a(), c(), b(), a(), c()];
        records[place] = record.to_vec();
        assert_eq!(named(&records), answer, "place {place}");
    }
}

#[test]
fn a_blank_or_unsound_record_anywhere() {
    let mut left_over = a();
    left_over[0] = 0;
    assert_eq!(classify(&left_over), Lent::Blank);
    let mut bad_class = a();
    bad_class[3] = 8;
    let mut bad_mark = a();
    bad_mark[16] = 2;
    let zeros = vec![0; RECORD_LEN];
    for record in [zeros, left_over, bad_class, bad_mark, vec![0xff; RECORD_LEN]] {
        assert_in_each_place(&record, Err(24));
    }
    // the list itself is right
    assert_in_each_place(&a(), Ok(vec![1, 2]));
}

#[test]
fn a_short_or_long_record_anywhere() {
    let long: Vec<u8> = [a(), vec![0]].concat();
    let (short, none, twice) = (&a()[..RECORD_LEN - 1], &[][..], [a(), a()].concat());
    for record in [short, &a()[1..], none, &long, &twice] {
        assert_in_each_place(record, Err(24));
    }
}

#[test]
fn lengths_that_do_not_add_up() {
    let (bytes, lengths) = end_to_end(&[a(), b(), c()]);
    let given = |lengths: &[u32]| called(&bytes, lengths, 256);
    assert_eq!(given(&lengths), Ok(vec![1, 2]));
    for place in 0..3 {
        for change in [1, u32::MAX, 1 << 31] {
            let mut wrong = lengths.clone();
            wrong[place] = wrong[place].wrapping_add(change);
            assert_eq!(given(&wrong), Err(24));
        }
    }
    // the slice is a byte more or less
    assert_eq!(called(&bytes[..bytes.len() - 1], &lengths, 256), Err(24));
    assert_eq!(called(&[bytes.clone(), vec![0]].concat(), &lengths, 256), Err(24));
    // a length too many or too few
    assert_eq!(given(&lengths[..2]), Err(24));
    assert_eq!(given(&[&lengths[..], &[0]].concat()), Err(24));
    // they add up in 32 bits
    let long = lengths[0] + (1 << 31);
    assert_eq!(given(&[long, long, lengths[2]]), Err(24));
    assert_eq!(given(&[u32::MAX; 64]), Err(24));
    assert_eq!(given(&[u32::MAX; 3]), Err(24));
}

#[test]
fn wrong_lengths_with_the_right_sum() {
    let (bytes, lengths) = end_to_end(&[a(), b(), c()]);
    for (less, more) in [(0, 1), (1, 0), (0, 2), (1, 2), (2, 1)] {
        for change in [1, 13, lengths[0]] {
            let mut wrong = lengths.clone();
            wrong[less] -= change;
            wrong[more] += change;
            assert_eq!(called(&bytes, &wrong, 256), Err(24));
        }
    }
}

#[test]
fn records_that_differ_in_n_or_f() {
    let of = |n, f, id| encode(&record_with(n, f, id, 7, 0, &[]));
    assert_eq!(named(&[of(7, 2, 0), of(7, 2, 6)]), Ok(vec![]));
    for other in [of(8, 2, 0), of(7, 1, 0), of(8, 1, 0), of(10, 3, 0)] {
        for place in 0..3 {
            let mut records = [(); 3].map(|()| of(7, 2, 0));
            records[place] = other.clone();
            assert_eq!(named(&records), Err(24));
        }
    }
}

/// "Class, starting plan, id and view may differ."
#[test]
fn records_may_differ_in_all_else() {
    let mut other = record_with(4, 1, 3, 99, 77, &[vote(2, 2, 5, 6)]);
    other.settings.class = 7;
    assert_eq!(names_of(&[keeping(0, &[vote(2, 2, 5, 7)]), other]), [2]);
}

// ---------------------------------------------------------------------------------------------
// What counts and what doesn't.

#[test]
fn each_kind_is_enough() {
    for number in 1..=4 {
        for (view, one, other) in [(5, 1, 2), (0, 0, u64::MAX), (u32::MAX, 7, 7 + (1 << 32))] {
            let keeps = |id, plan| keeping(id, &[vote(number, 2, view, plan)]);
            assert_eq!(names_of(&[keeps(0, one), keeps(1, other)]), [2]);
            assert_eq!(names_of(&[keeps(0, other), keeps(0, one)]), [2], "one vault's records");
        }
    }
}

#[test]
fn another_kind_does_not_count() {
    for number in 1..=4 {
        for other in (1..=4).filter(|&other| other != number) {
            let records = [vote(number, 2, 5, 1), vote(other, 2, 5, 2)].map(|v| keeping(0, &[v]));
            assert_eq!(names_of(&records), []);
        }
    }
}

#[test]
fn another_view_does_not_count() {
    for number in 1..=4 {
        for (view, other) in [(5, 6), (0, 1), (5, 5 + (1 << 24)), (0, u32::MAX)] {
            let keeps = |view, plan| keeping(0, &[vote(number, 2, view, plan)]);
            assert_eq!(names_of(&[keeps(view, 1), keeps(other, 2)]), []);
        }
    }
}

#[test]
fn another_vault_does_not_count() {
    let records = [vote(1, 2, 5, 1), vote(1, 3, 5, 2)].map(|vote| keeping(0, &[vote]));
    assert_eq!(names_of(&records), []);
}

#[test]
fn a_proposal_does_not_count() {
    let proposals = [proposal(2, 6, 1), proposal(2, 6, 2)].map(|frame| keeping(0, &[frame]));
    assert_eq!(names_of(&proposals), []);
    for number in 1..=4 {
        let records = [proposal(2, 6, 1), vote(number, 2, 6, 2)].map(|f| keeping(0, &[f]));
        assert_eq!(names_of(&records), []);
    }
}

/// Vault 0 leads view 8, so a suggest of view 8 is kept there.
#[test]
fn a_report_does_not_count() {
    let told = |plan| [rep(5, plan), rep(4, plan + 1), rep(5, plan)];
    for frame in [suggest, proof] {
        let reports = |plan| keeping(0, &[frame(2, 8, told(plan))]);
        assert_eq!(names_of(&[reports(1), reports(2)]), []);
        for number in 1..=4 {
            let votes = keeping(0, &[vote(number, 2, 5, 7), vote(number, 3, 4, 7)]);
            assert_eq!(names_of(&[reports(1), votes]), []);
        }
    }
}

#[test]
fn a_previous_vote_does_not_count() {
    for number in [1, 2] {
        let of = |plan: u64| {
            let mut record = keeping(2, &[vote(number, 2, 5, 7)]);
            let previous =
                if number == 1 { &mut record.previous_vote1 } else { &mut record.previous_vote2 };
            *previous = rep(4, plan);
            record
        };
        assert_eq!(names_of(&[of(1), of(2)]), []);
        assert_eq!(names_of(&[of(1), keeping(0, &[vote(number, 2, 4, 2)])]), []);
    }
}

#[test]
fn a_decision_does_not_count() {
    let decided = |plan| Record { decision: rep(5, plan), ..keeping(2, &[]) };
    assert_eq!(names_of(&[decided(1), decided(2)]), []);
    let votes: Vec<Frame> = (1..=4).map(|number| vote(number, 2, 5, 2)).collect();
    assert_eq!(names_of(&[decided(1), keeping(0, &votes)]), []);
}

#[test]
fn own_rows_count() {
    for number in 1..=4 {
        let own = |plan| keeping(2, &[vote(number, 2, 5, plan)]);
        let others = |plan| keeping(0, &[vote(number, 2, 5, plan)]);
        assert_eq!(names_of(&[own(1), others(2)]), [2], "own row against another's");
        assert_eq!(names_of(&[others(1), own(2)]), [2], "another's against own row");
        assert_eq!(names_of(&[own(1), own(2)]), [2], "own row against own row");
        assert_eq!(names_of(&[own(1), others(1), own(1)]), []);
    }
}

#[test]
fn records_far_apart_count_as_neighbours_do() {
    for (one, other) in [(0, 1), (0, 63), (1, 62), (31, 33), (62, 63)] {
        let mut records: Vec<Record> = (0..64).map(|_| keeping(0, &[])).collect();
        records[one].keep(vote(3, 1, 5, 1));
        records[other].keep(vote(3, 1, 5, 2));
        assert_eq!(names_of(&records), [1], "{one} and {other}");
    }
}

/// Of three records one pair clashes; in between the vault keeps nothing, another view, or one of the two.
#[test]
fn one_pair_of_three() {
    let keeps = |view, plan| keeping(0, &[vote(1, 2, view, plan)]);
    let third = [keeping(0, &[]), keeps(6, 3), keeps(5, 1), keeps(5, 2)];
    for third in third {
        let all = [keeps(5, 1), keeps(5, 2), third];
        for order in [[0, 1, 2], [0, 2, 1], [2, 0, 1], [2, 1, 0], [1, 0, 2], [1, 2, 0]] {
            assert_eq!(names_of(&order.map(|at: usize| all[at].clone())), [2]);
        }
    }
}

#[test]
fn the_same_bytes_twice_name_nobody() {
    for record in [a(), b(), c()] {
        assert_eq!(named(&[&record, &record]), Ok(vec![]));
        assert_eq!(named(&vec![&record; 64]), Ok(vec![]));
    }
}

/// All vaults of 64, and the first and the last alone; by rising number however they clash.
#[test]
fn names_by_rising_number() {
    let of = |plan, vaults: &[u8]| {
        let number = |vault: u8| 1 + vault % 4;
        let frames: Vec<Frame> = vaults.iter().map(|&v| vote(number(v), v, 5, plan)).collect();
        record_with(64, 21, 7, 7, 9, &frames)
    };
    let all: Vec<u8> = (0..64).collect();
    for vaults in [&all[..], &[0, 63], &[63], &[2, 3, 5, 40]] {
        assert_eq!(names_of(&[of(1, vaults), of(2, vaults)]), vaults);
        let (front, back) = vaults.split_at(vaults.len() / 2);
        assert_eq!(names_of(&[of(1, vaults), of(2, back), of(2, front)]), vaults);
    }
}

// ---------------------------------------------------------------------------------------------
// Random lists: the promises, by a second definition.

/// The plans seen over all records, by vault, kind and view; vaults with more than one are named.
fn by_plans_seen(records: &[&Record]) -> Vec<u8> {
    let mut seen: BTreeMap<(u8, u8, u32), BTreeSet<u64>> = BTreeMap::new();
    for frame in records.iter().flat_map(|record| record.rows.iter().flatten().flatten()) {
        if let (VOTE_1..=VOTE_4, Some(plan)) = (frame.kind, frame.plan()) {
            seen.entry((frame.sender, frame.kind, frame.view)).or_default().insert(plan);
        }
    }
    let twice = seen.iter().filter(|(_, plans)| plans.len() > 1);
    twice.map(|(&(vault, _, _), _)| vault).collect::<BTreeSet<u8>>().into_iter().collect()
}

/// 24 or the names, from the bytes and lengths alone.
fn by_second_definition(bytes: &[u8], lengths: &[u32]) -> Result<Vec<u8>, u8> {
    let (mut lent, mut at) = (Vec::new(), 0);
    for &length in lengths {
        let part = bytes.get(at..at + length as usize).ok_or(24)?;
        lent.push(classify(part));
        at += length as usize;
    }
    let mut records = Vec::new();
    for lent in &lent {
        let Lent::Sound(record) = lent else { return Err(24) };
        records.push(record);
    }
    let sizes: BTreeSet<(u8, u8)> =
        records.iter().map(|record| (record.settings.n, record.settings.f)).collect();
    if at != bytes.len() || lent.len() < 2 || lent.len() > 64 || sizes.len() > 1 {
        return Err(24);
    }
    Ok(by_plans_seen(&records))
}

/// "Each one named has two such frames in the records handed in".
fn assert_shown(records: &[&Record], vault: u8) {
    let shown = records.iter().any(|one| {
        records.iter().any(|other| {
            (VOTE_1..=VOTE_4).any(|kind| match (one.kept(vault, kind), other.kept(vault, kind)) {
                (Some(a), Some(b)) => a.view == b.view && a.plan() != b.plan(),
                _ => false,
            })
        })
    });
    assert!(shown, "{vault}");
}

/// "If two records show quorums of vote-4 for different plans in one view, at least n - 2f vaults
/// are named." Whether they do.
fn assert_quorums_named(records: &[&Record], names: &[u8]) -> bool {
    let (n, f) = (usize::from(records[0].settings.n), usize::from(records[0].settings.f));
    let votes: Vec<Frame> = records
        .iter()
        .flat_map(|r| (0..n as u8).filter_map(|s| r.kept(s, VOTE_4)))
        .copied()
        .collect();
    let candidates: BTreeSet<(u32, Option<u64>)> =
        votes.iter().map(|vote| (vote.view, vote.plan())).collect();
    let quorum = |record: &Record, view, plan| {
        record.kept_of(VOTE_4, view).filter(|vote| vote.plan() == plan).count() >= n - f
    };
    let shown: Vec<(u32, Option<u64>)> = candidates
        .into_iter()
        .filter(|&(view, plan)| records.iter().any(|record| quorum(record, view, plan)))
        .collect();
    let two = shown.windows(2).any(|pair| pair[0].0 == pair[1].0);
    assert!(!two || names.len() >= n - 2 * f, "{names:?}");
    two
}

#[test]
fn the_promises_on_random_lists() {
    let mut quorums = 0;
    for seed in SEED..SEED + count(1500) {
        let list = collection(seed);
        let (bytes, lengths) = list.spelled(encode);
        let answer = called(&bytes, &lengths, 256 + (seed % 50) as usize);
        assert_eq!(answer, by_second_definition(&bytes, &lengths), "list {seed}");
        assert_eq!(answer, list.answer(), "list {seed}");
        if let Ok(names) = answer {
            let records: Vec<&Record> = list.items.iter().map(Item::record).collect();
            names.iter().for_each(|&vault| assert_shown(&records, vault));
            quorums += u64::from(assert_quorums_named(&records, &names));
        }
    }
    assert!(quorums > 0);
}

#[test]
fn lists_reach_all_that_is_wanted() {
    let mut coverage = Coverage::default();
    assert_eq!(coverage.missing().len(), 36);
    for seed in SEED..SEED + 3000 {
        let list = collection(seed);
        coverage.look(&list, &list.answer());
    }
    println!("{coverage:#?}");
    assert_eq!(coverage.missing(), Vec::<String>::new());
    assert!(coverage.records < 10 * coverage.lists, "mostly few records");
}

/// A wrong answer is seen, whichever way it is wrong.
#[test]
fn the_cover_sees_wrong_answers() {
    for seed in SEED..SEED + 100 {
        let list = collection(seed);
        let wrong = match list.answer() {
            Err(_) => vec![Err(1), Ok(vec![]), Ok(vec![0])],
            Ok(names) => {
                let more: Vec<u8> = (0..=names.len() as u8).collect();
                vec![Err(24), Ok(more), Ok(names.into_iter().rev().chain([0]).collect())]
            }
        };
        for answer in wrong {
            let mut coverage = Coverage::default();
            coverage.look(&list, &answer);
            assert!(coverage.misjudged > 0, "list {seed}: {answer:?}");
        }
    }
}

#[test]
fn a_seed_gives_one_list() {
    for seed in 0..20 {
        assert_eq!(collection(seed), collection(seed));
    }
    assert_ne!(collection(1), collection(2));
}

/// Items are what they say, in bytes too.
#[test]
fn items_are_what_they_say() {
    for seed in SEED..SEED + 300 {
        for item in collection(seed).items {
            let lent = classify(&item.spelled(encode));
            match &item {
                Item::Sound(record) => assert_eq!(lent, Lent::Sound((**record).clone())),
                Item::Blank(_) => assert_eq!(lent, Lent::Blank),
                Item::Unsound(record) => {
                    assert!(lent == Lent::Unsound && !record.sound() && record.settings.n > 0);
                }
                Item::WrongLength(record, _) => assert!(lent == Lent::Unsound && record.sound()),
            }
        }
    }
}

/// Bytes and lengths of any kind get an answer.
#[test]
fn nothing_panics() {
    let mut rng = Rng(5);
    for _ in 0..count(2000) {
        let mut bytes = [a(), b(), c(), vec![0; RECORD_LEN]].concat();
        bytes.truncate(rng.below(bytes.len() as u64 + 1) as usize);
        for _ in 0..rng.below(3) {
            let at = rng.below(700) as usize;
            if let Some(byte) = bytes.get_mut(at) {
                *byte = rng.next() as u8;
            }
        }
        let any = [0, 1, RECORD_LEN as u32, 1 << 31, u32::MAX];
        let lengths: Vec<u32> = (0..rng.pick(&[0, 1, 2, 3, 4, 64, 65, 3000]))
            .map(|_| if rng.one_in(8) { rng.next() as u32 } else { rng.pick(&any) })
            .collect();
        let answer = called(&bytes, &lengths, rng.pick(&[0, 255, 256, 300]));
        assert!(matches!(answer, Ok(_) | Err(1 | 24)), "{answer:?}");
    }
}

// ---------------------------------------------------------------------------------------------
// Records of networks.

/// Names from random lists of one run's records; none of them keeps the rules.
fn names_in_run(setup: &Setup, rng: &mut Rng) -> BTreeSet<u8> {
    let run = sim::run_collected(setup, 60);
    assert_eq!(run.outcome.wrong, None, "{setup:?}");
    assert!(run.keepers.len() == usize::from(setup.n - setup.liars) && !run.moments.is_empty());
    assert_eq!(run.last.len(), run.outcome.started);
    let mut records: Vec<&Record> = run.moments.iter().chain(&run.last).collect();
    assert!(records.iter().all(|r| r.sound() && run.keepers.contains(&r.settings.id)));
    let mut names = BTreeSet::new();
    for _ in 0..8 {
        for last in (1..records.len()).rev() {
            records.swap(last, rng.below(last as u64 + 1) as usize);
        }
        let most = records.len().min(64) as u64;
        let size = if rng.one_in(4) { most } else { (2 + rng.below(6)).min(most) };
        let given: Vec<Option<&Record>> =
            records[..size as usize].iter().copied().map(Some).collect();
        if given.len() > 1 {
            names.extend(named_by_contents(&given).expect("sound records of one network"));
        }
    }
    for vault in &names {
        assert!(!run.keepers.contains(vault), "vault {vault} keeps the rules: {setup:?}");
    }
    names
}

const STYLES: [Style; 6] =
    [Style::Rounds, Style::Feints, Style::Partitions, Style::Chaos, Style::Camps, Style::Calm];

/// "a vault that keeps the rules never votes twice in one view and kind"
#[test]
fn only_liars_are_named() {
    let mut rng = Rng(9);
    let (mut runs_with_names, mut all_liars) = (0, 0);
    for (n, f, liars, seeds) in
        [(4, 1, 1, 60), (4, 1, 0, 10), (7, 2, 2, 20), (10, 3, 3, 5), (13, 4, 4, 2)]
    {
        for style in STYLES {
            for seed in 0..count(seeds) {
                let (mode, fault) = (Mode::Contents, Fault::None);
                let setup = Setup { n, f, liars, mode, fault, style, seed };
                let names = names_in_run(&setup, &mut rng);
                // in calm runs liars keep silent
                assert!(names.is_empty() || (liars > 0 && style != Style::Calm), "{setup:?}");
                runs_with_names += u64::from(!names.is_empty());
                all_liars += u64::from(liars > 1 && names.len() == usize::from(liars));
            }
        }
    }
    println!("{runs_with_names} runs with names, {all_liars} with all of several liars");
    assert!(runs_with_names > 0 && all_liars > 0);
}

/// Records are collected alike in every mode, and the run is the one without a collector.
#[test]
fn all_modes_collect_the_same() {
    for style in STYLES {
        for seed in 0..count(4) {
            let with = |mode| Setup { n: 4, f: 1, liars: 1, mode, fault: Fault::None, style, seed };
            let contents = sim::run_collected(&with(Mode::Contents), 12);
            for mode in [Mode::Bytes, Mode::Both] {
                let other = sim::run_collected(&with(mode), 12);
                assert!(contents.moments == other.moments && contents.last == other.last);
                assert_eq!(contents.keepers, other.keepers);
            }
            let alone = sim::run(&with(Mode::Contents));
            assert_eq!(contents.outcome.tally, alone.tally);
            assert_eq!(contents.outcome.decisions, alone.decisions);
            let ids: BTreeSet<u8> = contents.moments.iter().map(|r| r.settings.id).collect();
            assert!(contents.moments.len() <= 12 && ids.len() > 1, "several vaults");
        }
    }
}

/// A vault whose host lends it an older record votes again in a view gone by, and is named.
#[test]
fn a_vault_with_an_older_record_is_named() {
    let named = |seed| {
        let (mode, fault, style) = (Mode::Contents, Fault::None, Style::OlderRecord);
        let setup = Setup { n: 4, f: 1, liars: 1, mode, fault, style, seed };
        let run = sim::run_collected(&setup, 60);
        let given: Vec<Option<&Record>> = run.moments.iter().chain(&run.last).map(Some).collect();
        let names = named_by_contents(&given).expect("at most 63 records of one network");
        names.iter().any(|vault| run.keepers.contains(vault))
    };
    assert!((0..50).any(named));
}
