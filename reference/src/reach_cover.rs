//! What questions of how high a claim reaches come to. Each thing to be met has a name; `missing`
//! lists the names that no question met. It is written apart from reach.rs and from the tests of
//! frame.rs: faults are read off the bytes, and the answer is looked for with `rules::claims`.

use std::collections::BTreeMap;
use std::fmt;

use crate::frame::{number4, number8, Report, PROOF, REPORT_LEN, SUGGEST};
use crate::reach::REPORTS_LEN;
use crate::reaches::ReachQuestion;
use crate::report_faults::{faults_of, Place, ReportFault};
use crate::rules::{claims, Reports};

/// What questions came to, seen with their answers.
#[derive(Clone, Default, PartialEq, Eq, Debug)]
pub struct Coverage {
    pub questions: u64,
    pub accepted: u64,
    /// Answers that are not those which the bytes call for.
    pub misjudged: u64,
    /// How often each thing was met, by its name.
    pub met: BTreeMap<String, u64>,
}

/// A question and its right answer. Of a refused one the reports are absent here.
struct Seen<'a> {
    bytes: &'a [u8],
    plan: u64,
    /// Faults of 14 and 22 in the first 39 bytes, if there are so many.
    faults: Vec<ReportFault>,
    highest: Option<Report>,
    previous: Option<Report>,
    lock: Option<Report>,
    answer: Result<u32, u8>,
}

/// Whether a question is such a one.
type Such = fn(&Seen) -> bool;

const REFUSED: [(&str, Such); 11] = [
    ("refusal 10", |seen| seen.answer == Err(10)),
    ("refusal 14", |seen| seen.answer == Err(14)),
    ("refusal 22", |seen| seen.answer == Err(22)),
    ("no bytes", |seen| seen.bytes.is_empty()),
    ("2 bytes", |seen| seen.bytes.len() == 2),
    ("38 bytes", |seen| seen.bytes.len() == 38),
    ("40 bytes", |seen| seen.bytes.len() == 40),
    ("a whole frame", |seen| seen.bytes.len() == 45 && matches!(seen.bytes[0], SUGGEST | PROOF)),
    ("10 where 14 holds too", |seen| seen.answer == Err(10) && seen.has(14)),
    ("10 where 22 holds too", |seen| seen.answer == Err(10) && seen.has(22)),
    // The votes themselves pass 14, so that it is no question whether they are at odds.
    ("14 by the lock alone where 22 holds too", |seen| {
        let by_lock = [ReportFault::Mark(Place::Lock), ReportFault::Nonzero(Place::Lock)];
        let or_22 = |fault: &ReportFault| fault.refusal() == 22 || by_lock.contains(fault);
        seen.answer == Err(14) && seen.has(22) && seen.faults.iter().all(or_22)
    }),
];

const ANSWERED: [(&str, Such); 18] = [
    ("the highest vote's view", |seen| seen.by_highest()),
    ("the highest vote's view, with previous", |seen| seen.by_highest() && seen.previous.is_some()),
    ("the highest vote's view 0", |seen| seen.by_highest() && seen.answer == Ok(0)),
    ("the highest vote's view 4294967295", |seen| seen.answer == Ok(u32::MAX)),
    ("the previous vote's view", |seen| seen.by_previous()),
    ("the previous vote's view 0", |seen| seen.by_previous() && seen.answer == Ok(0)),
    // 22 leaves a previous vote no higher view.
    ("the previous vote's view 4294967294", |seen| {
        seen.by_previous() && seen.answer == Ok(u32::MAX - 1)
    }),
    ("0 for want of both", |seen| seen.by_neither()),
    ("no vote", |seen| seen.answer.is_ok() && seen.highest.is_none()),
    ("highest for another plan, with previous", |seen| {
        seen.highest.is_some_and(|vote| vote.plan != seen.plan) && seen.previous.is_some()
    }),
    ("highest for another plan, without previous", |seen| {
        seen.highest.is_some_and(|vote| vote.plan != seen.plan) && seen.previous.is_none()
    }),
    ("highest for a plan one bit off", |seen| {
        seen.highest.is_some_and(|vote| one_bit_off(vote.plan, seen.plan))
    }),
    ("the previous vote's own plan", |seen| {
        seen.previous.is_some_and(|vote| vote.plan == seen.plan)
    }),
    ("previous just below highest", |seen| {
        seen.votes().is_some_and(|(highest, previous)| highest.view - previous.view == 1)
    }),
    ("previous for a plan one bit off highest's", |seen| {
        seen.votes().is_some_and(|(highest, previous)| one_bit_off(highest.plan, previous.plan))
    }),
    ("the lock's plan, not highest's", |seen| {
        seen.lock.is_some_and(|lock| lock.plan == seen.plan) && !seen.by_highest()
    }),
    ("the lock's plan, with the lock above the answer", |seen| {
        let above = |lock: Report| seen.answer.is_ok_and(|view| view < lock.view);
        seen.lock.is_some_and(|lock| lock.plan == seen.plan && above(lock))
    }),
    ("a plan that no report names", |seen| {
        let reports = [seen.highest, seen.previous, seen.lock];
        seen.answer.is_ok() && reports.iter().flatten().all(|report| report.plan != seen.plan)
    }),
];

/// All names: those above, and each fault of 14 and 22 where it is the only one.
fn wanted() -> impl Iterator<Item = String> {
    let faults = ReportFault::ALL.into_iter().filter(|fault| fault.refusal() != 21);
    let named = REFUSED.into_iter().chain(ANSWERED).map(|(name, _)| name.to_string());
    named.chain(faults.map(|fault| fault.to_string()))
}

impl Coverage {
    /// The names that were never met, and whether an answer was wrong.
    pub fn missing(&self) -> Vec<String> {
        let unmet = wanted().filter(|name| !self.met.contains_key(name));
        let mut missing: Vec<String> = unmet.collect();
        if self.misjudged > 0 {
            missing.push(format!("the right answer to {} questions", self.misjudged));
        }
        missing
    }

    /// Looks at a question and its answer: the view, or a refusal.
    pub fn look(&mut self, question: &ReachQuestion, answer: Result<u32, u8>) {
        self.questions += 1;
        self.accepted += u64::from(answer.is_ok());
        let seen = Seen::of(question);
        if answer != seen.answer {
            self.misjudged += 1;
            return;
        }
        for (name, such) in REFUSED.into_iter().chain(ANSWERED) {
            if such(&seen) {
                self.count(name.to_string());
            }
        }
        if let (Err(14 | 22), [fault]) = (answer, &seen.faults[..]) {
            self.count(fault.to_string());
        }
    }

    fn count(&mut self, name: String) {
        *self.met.entry(name).or_default() += 1;
    }
}

impl fmt::Display for Coverage {
    fn fmt(&self, out: &mut fmt::Formatter) -> fmt::Result {
        let Coverage { questions, accepted, misjudged, met } = self;
        writeln!(out, "{questions} questions, {accepted} accepted, {misjudged} misjudged")?;
        for name in wanted() {
            writeln!(out, "{:8} {name}", met.get(&name).unwrap_or(&0))?;
        }
        Ok(())
    }
}

impl Seen<'_> {
    fn of(question: &ReachQuestion) -> Seen<'_> {
        let bytes = &question.bytes[..];
        let faults = bytes.get(..REPORTS_LEN).map(faults).unwrap_or_default();
        let mut reports = [None; 3];
        // The faults are sorted by the order of the refusals.
        let answer = match faults.first() {
            _ if bytes.len() != REPORTS_LEN => Err(10),
            Some(fault) => Err(fault.refusal()),
            None => {
                reports = [0, 1, 2].map(|place| report(&bytes[place * REPORT_LEN..]));
                Ok(highest_claimed(&reports, question.plan))
            }
        };
        let [highest, previous, lock] = reports;
        Seen { bytes, plan: question.plan, faults, highest, previous, lock, answer }
    }

    fn has(&self, refusal: u8) -> bool {
        self.faults.iter().any(|fault| fault.refusal() == refusal)
    }

    fn votes(&self) -> Option<(Report, Report)> {
        self.highest.zip(self.previous)
    }

    fn by_highest(&self) -> bool {
        self.highest.is_some_and(|vote| vote.plan == self.plan)
    }

    fn by_previous(&self) -> bool {
        !self.by_highest() && self.previous.is_some()
    }

    fn by_neither(&self) -> bool {
        self.answer.is_ok() && !self.by_highest() && self.previous.is_none()
    }
}

fn one_bit_off(one: u64, other: u64) -> bool {
    (one ^ other).is_power_of_two()
}

/// The faults of 39 bytes that 14 or 22 is for. As 21 is not asked, any six bytes stand for those
/// before the reports.
fn faults(reports: &[u8]) -> Vec<ReportFault> {
    let mut faults = faults_of(&[&[0; 6], reports].concat());
    faults.retain(|fault| fault.refusal() != 21);
    faults
}

/// The report at the front of the bytes, which passes 14.
fn report(bytes: &[u8]) -> Option<Report> {
    (bytes[0] == 1).then(|| Report { view: number4(&bytes[1..5]), plan: number8(&bytes[5..13]) })
}

/// "the highest view at which it claims that plan": claims end at the view of a vote, or at 0.
fn highest_claimed(reports: &Reports, plan: u64) -> u32 {
    let views = reports.iter().flatten().map(|report| report.view);
    views.filter(|&view| claims(reports, plan, view)).max().unwrap_or(0)
}
