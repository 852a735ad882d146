//! How high a claim reaches (document 02, wish 7): the worked cases of document 03, the refusals in
//! their order, the answer against the reference's own claims, and the frames of the frame call.
mod common;
use common::*;

use reference::frame::{self, parse_reports, Report, REPORT_LEN};
use reference::reach::{claim_reach, REPORTS_LEN};
use reference::reaches::{reach_question, spelled, Coverage};
use reference::rng::Rng;
use reference::rules::{claims, Reports};

const SEED: u64 = 70_000;
const QUESTIONS: u64 = 20_000;

/// The answer about sound reports.
fn reach(reports: &Reports, plan: u64) -> u32 {
    claim_reach(&spelled(reports), plan).expect("accepted")
}

// ---------------------------------------------------------------------------------------------
// Document 03's worked cases.

#[test]
fn the_worked_cases() {
    let first = [rep(4, 5), rep(2, 6), rep(3, 7)];
    let without_highest = spelled(&[None, rep(2, 6), None]);
    let mut and_lock_mark = without_highest;
    and_lock_mark[26] = 0x02;
    assert_eq!(
        hex(&spelled(&first)),
        "010000000400000000000000050100000002000000000000000601000000030000000000000007"
    );
    for (bytes, plan, answer) in [
        (&spelled(&first)[..], 5, Ok(4)),
        (&spelled(&first), 6, Ok(2)),
        (&spelled(&first), 7, Ok(2)),
        (&spelled(&[rep(4, 5), None, rep(3, 7)]), 6, Ok(0)),
        (&spelled(&[None, None, rep(4294967295, 7)]), 7, Ok(0)),
        (&spelled(&[rep(4294967295, 5), None, None]), 5, Ok(4294967295)),
        (&without_highest, 6, Err(22)),
        (&and_lock_mark, 6, Err(14)),
        (&[], 6, Err(10)),
        (&[1, 0], 6, Err(10)),
    ] {
        assert_eq!(claim_reach(bytes, plan), answer, "{} for {plan}", hex(bytes));
    }
}

// ---------------------------------------------------------------------------------------------
// 10, 14 and 22.

/// Votes with each way of 22.
const AT_ODDS: [[Option<Report>; 2]; 6] = [
    [None, Some(Report { view: 2, plan: 6 })],
    [None, Some(Report { view: 0, plan: 0 })],
    [Some(Report { view: 4, plan: 5 }), Some(Report { view: 5, plan: 6 })],
    [Some(Report { view: 4, plan: 5 }), Some(Report { view: 4, plan: 6 })],
    [Some(Report { view: 4, plan: 5 }), Some(Report { view: 3, plan: 5 })],
    [Some(Report { view: 4, plan: 5 }), Some(Report { view: 4, plan: 5 })],
];

#[test]
fn any_other_length_is_10() {
    let sound = spelled(&[rep(4, 5), rep(2, 6), rep(3, 7)]);
    let at_odds = spelled(&[None, rep(2, 6), None]);
    for bytes in [sound, at_odds, [0; REPORTS_LEN], [2; REPORTS_LEN]] {
        for length in (0..200).filter(|&length| length != 39) {
            let mut bytes = bytes.to_vec();
            bytes.resize(length, 0);
            assert_eq!(claim_reach(&bytes, 5), Err(10), "{length} bytes");
        }
    }
    // a whole frame, and other frames
    let told = proof(2, 5, [rep(4, 5), rep(2, 6), rep(3, 7)]);
    for frame in [told, vote(1, 2, 5, 7), view_change(2, 5)] {
        assert_eq!(claim_reach(&frame::write(&frame), 5), Err(10));
    }
    assert_eq!(claim_reach(&frame::write(&told)[6..], 5), Ok(4));
}

/// Reports, and all that 14 says of them, in each of the three places.
fn spoiled(reports: &Reports) -> Vec<[u8; REPORTS_LEN]> {
    let mut all = Vec::new();
    for place in 0..3 {
        for mark in 2..=255 {
            let mut bytes = spelled(reports);
            bytes[place * REPORT_LEN] = mark;
            all.push(bytes);
        }
        let mut absent = *reports;
        absent[place] = None;
        for at in 1..REPORT_LEN {
            for value in 1..=255 {
                let mut bytes = spelled(&absent);
                bytes[place * REPORT_LEN + at] = value;
                all.push(bytes);
            }
        }
    }
    all
}

#[test]
fn a_bad_mark_or_a_nonzero_byte_is_14() {
    for reports in [NONE, [rep(4, 5), rep(2, 6), rep(3, 7)], [rep(4, 5), None, None]] {
        for bytes in spoiled(&reports) {
            assert_eq!(claim_reach(&bytes, 5), Err(14), "{}", hex(&bytes));
        }
    }
}

#[test]
fn fourteen_comes_before_22() {
    for [highest, previous] in AT_ODDS {
        for lock in [None, rep(3, 7)] {
            assert_eq!(claim_reach(&spelled(&[highest, previous, lock]), 5), Err(22));
            for bytes in spoiled(&[highest, previous, lock]) {
                assert_eq!(claim_reach(&bytes, 5), Err(14), "{}", hex(&bytes));
            }
        }
    }
}

/// 22 whatever the plan; a step less and it is none.
#[test]
fn a_previous_vote_at_odds_is_22() {
    for plan in 0..9 {
        for [highest, previous] in AT_ODDS {
            assert_eq!(claim_reach(&spelled(&[highest, previous, None]), plan), Err(22));
        }
        assert_eq!(reach(&[rep(4, 5), rep(3, 6), None], plan), if plan == 5 { 4 } else { 3 });
    }
    for bit in 0..64 {
        assert_eq!(reach(&[rep(4, 5), rep(3, 5 ^ (1 << bit)), None], 5), 4);
    }
}

/// "21 is not tested, as there is no frame's view; views up to 4,294,967,295 pass."
#[test]
fn any_view_passes() {
    for view in [0, 1, 2, 255, 256, 1 << 16, 1 << 24, 1 << 31, u32::MAX - 1, u32::MAX] {
        assert_eq!(reach(&[rep(view, 5), None, None], 5), view);
        assert_eq!(reach(&[rep(view, 5), None, None], 6), 0);
        assert_eq!(reach(&[None, None, rep(view, 5)], 5), 0);
        if view > 0 {
            let below = view - 1;
            let votes = [rep(view, 5), rep(below, 6), rep(u32::MAX, 7)];
            assert_eq!([5, 6, 7].map(|plan| reach(&votes, plan)), [view, below, below]);
        }
    }
}

// ---------------------------------------------------------------------------------------------
// The answer.

/// "The reference's own claims say yes at the answer and no at the next view", and at every view as
/// the answer says.
fn assert_claims(reports: &Reports, plan: u64, answer: u32) {
    assert!(claims(reports, plan, answer) && claims(reports, plan, 0));
    if let Some(next) = answer.checked_add(1) {
        assert!(!claims(reports, plan, next), "{reports:?} for {plan} at {next}");
    }
    let named = reports.iter().flatten().map(|report| report.view);
    for view in named.chain([0, answer, u32::MAX]) {
        for at in [view.saturating_sub(1), view, view.saturating_add(1)] {
            let claimed = claims(reports, plan, at);
            assert_eq!(claimed, at <= answer, "{reports:?} for {plan} at {at}");
        }
    }
}

/// Every three reports of four views and three plans, and every plan.
#[test]
fn small_reports_all_of_them() {
    let votes = [0, 1, 2, u32::MAX].map(|view| [0, 1, u64::MAX].map(|plan| rep(view, plan)));
    let reports: Vec<Option<Report>> = votes.concat().into_iter().chain([None]).collect();
    let mut accepted = 0;
    for &highest in &reports {
        for &previous in &reports {
            for &lock in &reports {
                let reports = [highest, previous, lock];
                for plan in [0, 1, 2, u64::MAX] {
                    let answer = claim_reach(&spelled(&reports), plan);
                    match answer {
                        Ok(view) => assert_claims(&reports, plan, view),
                        refused => assert!(refused == Err(22) && previous.is_some()),
                    }
                    accepted += u32::from(answer.is_ok());
                }
            }
        }
    }
    // 13 pairs without previous, and 6 x 6 with one; 13 locks; 4 plans
    assert_eq!(accepted, (13 + 36) * 13 * 4);
}

/// "The previous vote's own plan plays no part: it claims every plan. Nor does the lock, beyond 14."
#[test]
fn what_plays_no_part() {
    for view in [1, 4, u32::MAX] {
        for plan in [5, 6, 7, 8] {
            let answer = if plan == 5 { view } else { view - 1 };
            for own in [0, 6, 7, 8, 5 + (1 << 32), u64::MAX] {
                for lock in [None, rep(0, plan), rep(view, plan), rep(u32::MAX, plan)] {
                    let reports = [rep(view, 5), rep(view - 1, own), lock];
                    assert_eq!(reach(&reports, plan), answer, "{reports:?} for {plan}");
                }
            }
        }
    }
}

// ---------------------------------------------------------------------------------------------
// Random questions.

#[test]
fn random_questions() {
    let mut coverage = Coverage::default();
    assert_eq!(coverage.missing().len(), 38);
    for seed in SEED..SEED + QUESTIONS {
        let question = reach_question(seed);
        let answer = question.answer();
        coverage.look(&question, answer);
        if let Ok(view) = answer {
            let reports = parse_reports(&question.bytes).expect("passes 14");
            assert_claims(&reports, question.plan, view);
        }
    }
    println!("{coverage}");
    assert_eq!(coverage.missing(), Vec::<String>::new());
}

/// Fewer questions meet everything too.
#[test]
fn two_thousand_questions_are_enough() {
    for start in [0, 1_000_000, 1 << 40] {
        let mut coverage = Coverage::default();
        for seed in start..start + 2_000 {
            let question = reach_question(seed);
            coverage.look(&question, question.answer());
        }
        assert_eq!(coverage.missing(), Vec::<String>::new(), "from {start}");
    }
}

/// A wrong answer is seen, whichever way it is wrong.
#[test]
fn the_cover_sees_wrong_answers() {
    for seed in SEED..SEED + 1_000 {
        let question = reach_question(seed);
        let right = question.answer();
        let near = right.unwrap_or(0);
        let wrong = [Err(10), Err(14), Err(22), Err(21), Ok(0), Ok(near ^ 1), Ok(u32::MAX)];
        for answer in wrong.into_iter().filter(|&answer| answer != right) {
            let mut coverage = Coverage::default();
            coverage.look(&question, answer);
            assert!(coverage.misjudged == 1 && coverage.met.is_empty(), "{seed}: {answer:?}");
            assert_eq!(coverage.missing().len(), 39);
        }
    }
}

#[test]
fn a_seed_gives_one_question() {
    for seed in 0..20 {
        assert_eq!(reach_question(seed), reach_question(seed));
    }
    assert_ne!(reach_question(1), reach_question(2));
}

/// Bytes of any kind get an answer.
#[test]
fn nothing_panics() {
    let mut rng = Rng(3);
    for _ in 0..100_000 {
        let mut bytes = vec![0; if rng.one_in(2) { 39 } else { rng.below(100) as usize }];
        rng.fill(&mut bytes);
        for mark in bytes.iter_mut().step_by(REPORT_LEN) {
            *mark = rng.pick(&[0, 1, 1, 1, *mark]);
        }
        let plan = bytes.get(5..13).map(frame::number8).unwrap_or(rng.next());
        let answer = claim_reach(&bytes, plan);
        assert!(matches!(answer, Ok(_) | Err(10 | 14 | 22)), "{answer:?}");
        assert_eq!(bytes.len() != 39, answer == Err(10));
    }
}

// ---------------------------------------------------------------------------------------------
// The frame call.

/// The reports of a frame, against what the frame reader says of it: 14 and 22 are the same there,
/// and 21, which lies between them, is not asked here.
fn assert_as_in_frame(read: Result<frame::Frame, u8>, reports: &[u8], plan: u64) {
    let answer = claim_reach(reports, plan);
    match read {
        Ok(frame) => {
            let reports = frame.reports().expect("reports");
            let view = answer.expect("an accepted frame has an answer");
            assert!(view < frame.view, "by 21, or by 13 where it is 0");
            assert_claims(&reports, plan, view);
        }
        Err(21) => assert!(matches!(answer, Ok(_) | Err(22)), "{answer:?}"),
        Err(number) => assert!(matches!(number, 14 | 22) && answer == Err(number), "{number}"),
    }
}

/// Vault 1 of four leads view 4k + 1 and takes suggests for it.
#[test]
fn accepted_frames_have_an_answer() {
    let mut rng = Rng(4);
    for _ in 0..20_000 {
        let any = 4 * rng.below(1 << 30) as u32 + 1;
        let view = rng.pick(&[1, 5, 9, any]);
        let reports = valid_reports(&mut rng, view, 4);
        let frame = rng.pick(&[suggest, proof])(2, view, reports);
        let bytes = frame::write(&frame);
        let read = frame::read(&bytes, 2, 4, 1);
        assert_eq!(read, Ok(frame));
        for plan in 0..5 {
            assert_as_in_frame(read, &bytes[6..], plan);
        }
    }
}

#[test]
fn frames_are_refused_alike() {
    let mut rng = Rng(5);
    let mut seen = [0; 23];
    for seed in SEED..SEED + QUESTIONS {
        let question = reach_question(seed);
        if question.bytes.len() != REPORTS_LEN {
            continue;
        }
        let view = rng.pick(&[1u32, 5, 9, u32::MAX - 2]);
        let kind = rng.pick(&[frame::SUGGEST, frame::PROOF]);
        let bytes = [&[kind, 2], &view.to_be_bytes()[..], &question.bytes].concat();
        let read = frame::read(&bytes, 2, 4, 1);
        seen[usize::from(read.err().unwrap_or(0))] += 1;
        assert_as_in_frame(read, &bytes[6..], question.plan);
    }
    assert!([0, 14, 21, 22].iter().all(|&number: &usize| seen[number] > 500), "{seen:?}");
}
