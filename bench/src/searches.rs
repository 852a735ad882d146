//! Part 2: the searches for safe plans, on bad report sets: apart from the calls, and in whole
//! calls.

use std::hint::black_box;

use comparison::case::{Before, Case, Expected, Harm, SPACE};
use comparison::records::spell;
use comparison::rows::{random, table_of, Reports, Table};
use comparison::scenes::heard;
use comparison::{choose_plan, safe_plan};
use inplace::Search;
use reference::frame::{Frame, PROOF, PROPOSAL, SUGGEST, VOTE_3};
use reference::record::{Record, Settings};
use reference::rng::Rng;
use reference::rules::{self, Question, Rule};
use reference::vault::Step;

use crate::calls;
use crate::clock::{race, Clock, Group, Times};
use crate::shapes::{Shape, ASKED, VIEW};
use crate::summary::{Aim, Summary};
use crate::table;

/// Enough to find the bad sets, and to time those well.
const QUICK_ROUNDS: u32 = 5;
const ROUNDS: u32 = 40;

/// A report set in the forms of all sides, and what is asked of it.
struct Input {
    name: String,
    n: usize,
    f: usize,
    reports: Reports,
    flat: Table,
    /// The in-place vault's record, with the reports of the current view.
    rec: Vec<u8>,
    rule: Rule,
    plan: u64,
}

impl Input {
    fn new(name: String, n: usize, f: usize, reports: Reports, rule: Rule, plan: u64) -> Input {
        let flat = table_of(&mut Rng(9), VIEW, &reports);
        let rec = spell(&kept(n, f, &reports, rule, plan));
        Input { name, n, f, reports, flat, rec, rule, plan }
    }

    fn library(&self) -> Option<u64> {
        let Input { n, f, flat, plan, .. } = self;
        match self.rule {
            Rule::One => choose_plan(flat, *n, *f, VIEW, *plan),
            Rule::Three => safe_plan(flat, *n, *f, VIEW, *plan, self.rule).then_some(*plan),
        }
    }

    fn reference(&self) -> Option<u64> {
        let question = Question { n: self.n, f: self.f, v: VIEW, reports: &self.reports };
        match self.rule {
            Rule::One => rules::choose(&question, self.plan),
            Rule::Three => rules::safe(self.rule, &question, self.plan).map(|_| self.plan),
        }
    }

    /// The in-place search. Who reports is found beforehand, as the library's table is.
    fn in_place(&self) -> impl Fn() -> Option<u64> + '_ {
        let search = match self.rule {
            Rule::One => Search::of_suggests(&self.rec),
            Rule::Three => Search::of_proofs(&self.rec),
        };
        let search = search.expect("the record is sound");
        move || match self.rule {
            Rule::One => black_box(&search).choose(self.plan),
            Rule::Three => black_box(&search).safe(self.plan).then_some(self.plan),
        }
    }

    /// All three find the same.
    fn check(&self) {
        let answer = self.reference();
        assert_eq!(self.library(), answer, "{}", self.name);
        assert_eq!(self.in_place()(), answer, "{}", self.name);
    }

    fn group<'a>(&'a self, clock: &'a Clock) -> Group<'a> {
        let in_place = self.in_place();
        Group {
            library: clock.repeated((), move |()| {
                black_box(black_box(self).library());
            }),
            in_place: clock.repeated((), move |()| {
                black_box(in_place());
            }),
            reference: clock.repeated((), move |()| {
                black_box(black_box(self).reference());
            }),
        }
    }

    /// A vote of a later view, after which C or D searches.
    fn whole_call(&self) -> Case {
        let expected: &[Step] = match (self.rule, self.reference()) {
            (_, None) => &[],
            (Rule::One, Some(_)) => &[Step::C],
            (Rule::Three, Some(_)) => &[Step::D],
        };
        let record = kept(self.n, self.f, &self.reports, self.rule, self.plan);
        Case {
            name: String::from("    the same in a whole call"),
            before: Before::Contents(Box::new(record)),
            searches: true,
            harm: Harm::None,
            call: heard(Frame::with_plan(VOTE_3, 2, VIEW + 1, 0)),
            space: SPACE,
            expected: Expected::Steps(expected),
        }
    }
}

/// The contents of a vault in VIEW that has these reports: of the leader, which is vault 0 (Rule
/// 1), or of vault 1 with the leader's proposal of the plan (Rule 3).
fn kept(n: usize, f: usize, reports: &Reports, rule: Rule, plan: u64) -> Record {
    let (id, kind) = match rule {
        Rule::One => (0, SUGGEST),
        Rule::Three => (1, PROOF),
    };
    let settings = Settings { n: n as u8, f: f as u8, id, class: 2 };
    let mut record = Record::new(settings, plan);
    record.view = VIEW;
    for (sender, told) in (0..).zip(reports) {
        if let Some(told) = told {
            record.keep(Frame::with_reports(kind, sender, VIEW, *told));
        }
    }
    if id != 0 {
        record.keep(Frame::with_plan(PROPOSAL, 0, VIEW, plan));
    }
    record
}

const RANDOM_SETS: u64 = 40;

/// Every shape and some random sets, with the plans that are worth asking for.
fn inputs(rule: Rule, n: usize, f: usize) -> Vec<Input> {
    let mut rng = Rng(9);
    let mut sets: Vec<(String, Reports)> =
        Shape::every().into_iter().map(|shape| (shape.name(), shape.reports(n, f))).collect();
    for number in 0..RANDOM_SETS {
        sets.push((format!("random set {number}"), random(&mut rng, n, VIEW, 1 << 40)));
    }
    // A leader starts with one plan, and tries all that are named.
    let asked = match rule {
        Rule::One => &ASKED[..1],
        Rule::Three => &ASKED[..],
    };
    let mut inputs = Vec::new();
    for (name, reports) in sets {
        for &(plan, whose) in asked {
            let name = format!("{name}; {whose}");
            inputs.push(Input::new(name, n, f, reports.clone(), rule, plan));
        }
    }
    inputs
}

/// What can be bad about a set.
#[derive(Clone, Copy, PartialEq)]
enum Bad {
    ForLibrary,
    ForInPlace,
    ForReference,
    Ratio,
}

impl Bad {
    const ALL: [Bad; 4] = [Bad::ForLibrary, Bad::ForInPlace, Bad::ForReference, Bad::Ratio];

    fn name(self) -> &'static str {
        match self {
            Bad::ForLibrary => "slowest for the library",
            Bad::ForInPlace => "slowest in place",
            Bad::ForReference => "slowest for the reference",
            Bad::Ratio => "worst ratio to in-place",
        }
    }

    fn measure(self, times: Times) -> f64 {
        match self {
            Bad::ForLibrary => times.library,
            Bad::ForInPlace => times.in_place,
            Bad::ForReference => times.reference,
            Bad::Ratio => times.to_in_place().unwrap_or(0.0),
        }
    }

    /// The worst sets come first.
    fn sort(self, found: &mut [(&Input, Times)]) {
        found.sort_by(|one, other| self.measure(other.1).total_cmp(&self.measure(one.1)));
    }
}

fn timed<'a>(clock: &Clock, rounds: u32, inputs: Vec<&'a Input>) -> Vec<(&'a Input, Times)> {
    let groups = inputs.iter().map(|input| input.group(clock)).collect();
    let times = race(rounds, groups);
    inputs.into_iter().zip(times).collect()
}

/// How many of the worst sets are timed well.
const FINALISTS: usize = 5;
/// The vaults of the summary's slowest search.
const LARGE: usize = 64;

/// The worst few of a quick race are timed well, and the worst of these is printed, with a whole
/// call.
fn print_worst(clock: &Clock, summary: &mut Summary, rule: Rule, n: usize, f: usize) {
    let inputs = inputs(rule, n, f);
    inputs.iter().for_each(Input::check);
    let mut found = timed(&clock.quick(), QUICK_ROUNDS, inputs.iter().collect());
    let step = match rule {
        Rule::One => "C, Rule 1",
        Rule::Three => "D, Rule 3",
    };
    for bad in Bad::ALL {
        bad.sort(&mut found);
        let finalists = found.iter().take(FINALISTS).map(|&(input, _)| input).collect();
        let mut finalists = timed(clock, ROUNDS, finalists);
        bad.sort(&mut finalists);
        let (input, times) = finalists[0];
        let name = format!("{step}, n = {n}: {}", bad.name());
        let whole = input.whole_call();
        whole.check();
        let whole_times = race(ROUNDS, vec![calls::group(clock, &whole)])[0];
        if n == LARGE && bad == Bad::ForLibrary {
            summary.row(Aim::Search, "", &name, times);
            summary.row(Aim::Search, &format!("{name}: "), &whole.name, whole_times);
        } else {
            table::row(&name, times);
            table::row(&whole.name, whole_times);
        }
        println!("    {}", input.name);
    }
}

pub fn print(clock: &Clock, summary: &mut Summary, sizes: &[(u8, u8)]) {
    table::head("2. Searches for safe plans in bad cases", "nanoseconds a search");
    for rule in [Rule::One, Rule::Three] {
        for &(n, f) in sizes {
            print_worst(clock, summary, rule, usize::from(n), usize::from(f));
        }
    }
}
