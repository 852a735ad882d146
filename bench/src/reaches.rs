//! Part 9: how high claims reach.

use std::hint::black_box;

use comparison::reaches::Reached;
use comparison::vaults;
use reference::frame::Report;
use reference::reach::claim_reach;
use reference::reaches::{reach_question, spelled, ReachQuestion};
use reference::rules::Reports;

use crate::clock::{race, Clock, Contender, Group};
use crate::summary::{Aim, Summary};
use crate::table;

const ROUNDS: u32 = 100;
/// Asked in a row: a single call is too short to be timed.
const QUESTIONS: u32 = 100;
/// Questions on which all sides are compared before any is timed.
const RANDOM_QUESTIONS: u64 = 20_000;

const PLAN: u64 = 7;
const OTHER_PLAN: u64 = 8;

type Call = fn(reports: &[u8], plan: u64) -> Reached;

/// Question i of a case, and its answer.
type Asked = fn(i: u32) -> (ReachQuestion, Reached);

const ASKED: [(&str, Asked); 8] = [
    ("the highest vote's view", |i| (question(told(i), PLAN), Ok(2 * i + 2))),
    ("the previous vote's view", |i| (question(told(i), OTHER_PLAN), Ok(2 * i + 1))),
    ("0, highest vote for another plan, no previous", |i| {
        let [highest, _, lock] = told(i);
        (question([highest, None, lock], OTHER_PLAN), Ok(0))
    }),
    ("0, no reports", |_| (question([None; 3], PLAN), Ok(0))),
    ("refused 10, a byte too short", |i| {
        let mut question = question(told(i), PLAN);
        question.bytes.pop();
        (question, Err(10))
    }),
    ("refused 14, the lock's mark", |i| {
        let mut question = question(told(i), PLAN);
        question.bytes[26] = 2;
        (question, Err(14))
    }),
    ("refused 22, previous for the highest vote's plan", |i| {
        let [highest, _, lock] = told(i);
        (question([highest, report(2 * i + 1, PLAN), lock], PLAN), Err(22))
    }),
    ("random questions", |i| {
        let question = reach_question(u64::from(i));
        let answer = question.answer();
        (question, answer)
    }),
];

fn report(view: u32, plan: u64) -> Option<Report> {
    Some(Report { view, plan })
}

/// All three reports, which pass 14 and 22.
fn told(i: u32) -> Reports {
    [report(2 * i + 2, PLAN), report(2 * i + 1, OTHER_PLAN), report(i, PLAN)]
}

fn question(reports: Reports, plan: u64) -> ReachQuestion {
    ReachQuestion { bytes: spelled(&reports).to_vec(), plan }
}

/// All sides give this answer.
fn check(name: &str, question: &ReachQuestion, wanted: Reached) {
    for call in [vaults::claim_reach, inplace::claim_reach, claim_reach] {
        assert_eq!(call(&question.bytes, question.plan), wanted, "{name}: {question:?}");
    }
}

/// The case's questions, with answers as they should be.
fn questions((name, asked): (&str, Asked)) -> Vec<ReachQuestion> {
    let checked = |(question, wanted)| {
        check(name, &question, wanted);
        question
    };
    (0..QUESTIONS).map(asked).map(checked).collect()
}

fn contender<'a>(
    clock: &'a Clock,
    questions: &'a [ReachQuestion],
    call: impl Fn(&[u8], u64) -> Reached + 'a,
) -> Contender<'a> {
    clock.repeated((), move |()| {
        for ReachQuestion { bytes, plan } in black_box(questions) {
            let _ = black_box(call(bytes, *plan));
        }
    })
}

/// The library can't be made part of the loop. The others are called by address, so that they are
/// not either.
fn group<'a>(clock: &'a Clock, questions: &'a [ReachQuestion]) -> Group<'a> {
    let [in_place, reference]: [Call; 2] = black_box([inplace::claim_reach, claim_reach]);
    Group {
        library: contender(clock, questions, vaults::claim_reach),
        in_place: contender(clock, questions, in_place),
        reference: contender(clock, questions, reference),
    }
}

/// The sides agree on random questions.
fn compare() {
    for seed in 0..RANDOM_QUESTIONS {
        let question = reach_question(seed);
        check("random question", &question, question.answer());
    }
}

pub fn print(clock: &Clock, summary: &mut Summary) {
    compare();
    table::head(
        "9. How high claims reach: questions of one form for different views, and random ones
   The others are called by address, as the library is: none saves the call itself",
        &format!("nanoseconds for {QUESTIONS} calls"),
    );
    let cases = ASKED.map(questions);
    let groups = cases.iter().map(|questions| group(clock, questions)).collect();
    for ((name, _), times) in ASKED.iter().zip(race(ROUNDS, groups)) {
        summary.row(Aim::Reach, "", name, times);
    }
}
