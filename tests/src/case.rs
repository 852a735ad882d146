//! A call to time or to measure: the calls that make its record, and what must come of it.
use reference::frame::Report;
use reference::record::{Record, Settings};
use reference::rules::Clause;
use reference::vault::{self, Step};

use crate::sides::{Answer, Call, InPlace, Rattle, Reference, Side};

/// The least space that is not refused.
pub const SPACE: usize = 256;

/// How a record that calls left is made unsound.
#[derive(Clone, Copy)]
pub enum Harm {
    None,
    /// One byte short: told by the length alone.
    Length,
    /// A class above 7: told by the settings.
    Class,
    /// A previous vote without a highest: the last thing that is asked of a record.
    Previous,
}

pub enum Expected {
    /// The steps that act.
    Steps(&'static [Step]),
    /// Step D alone, by this clause; the view in it is not compared.
    SafeBy(Clause),
    Refused(u8),
}

/// What a call is compared with others by.
#[derive(Clone, Copy, PartialEq, Eq, Debug)]
pub enum Class {
    /// Accepted, and no step acts.
    Quiet,
    Refused,
    /// Some step acts.
    Acting,
}

/// What makes the record that a call is lent.
pub enum Before {
    /// Calls at a blank record, all accepted.
    Calls(Vec<Call>),
    /// Contents that no calls need lead to.
    Contents(Box<Record>),
}

pub struct Case {
    pub name: String,
    pub before: Before,
    /// C or D searches the reports for a safe plan, and no step acts.
    pub searches: bool,
    pub harm: Harm,
    pub call: Call,
    /// The length of the output.
    pub space: usize,
    pub expected: Expected,
}

impl Case {
    /// The record that the call is lent, made by the side's own calls.
    pub fn lend<S: Side>(&self) -> Vec<u8> {
        let mut rec = match &self.before {
            Before::Calls(calls) => made::<S>(calls),
            Before::Contents(record) => S::spell(record),
        };
        match self.harm {
            Harm::None => {}
            Harm::Length => rec.truncate(S::RECORD_LEN - 1),
            Harm::Class => rec = changed::<S>(&rec, |record| record.settings.class = 8),
            Harm::Previous => {
                let vote = Some(Report { view: 0, plan: 1 });
                rec = changed::<S>(&rec, |record| record.previous_vote2 = vote);
            }
        }
        rec
    }

    pub fn class(&self) -> Class {
        match self.expected {
            Expected::Refused(_) => Class::Refused,
            Expected::Steps([]) => Class::Quiet,
            _ => Class::Acting,
        }
    }

    /// A refused call leaves the record as it was, so many may follow each other on one copy.
    pub fn refused(&self) -> bool {
        self.class() == Class::Refused
    }

    /// All sides are lent the same contents, do what the case is named for, and leave the same contents and output bytes: a table then
    /// compares equal work.
    pub fn check(&self) {
        self.check_in_place();
        let (mut ours, mut theirs) = (self.lend::<Rattle>(), self.lend::<Reference>());
        let known = !matches!(self.harm, Harm::Length);
        let before = known.then(|| same_contents(&ours, &theirs, &self.name));
        let (mut our_out, mut their_out) = (vec![0xa5; self.space], vec![0xa5; self.space]);
        let answer = self.call.on::<Rattle>(&mut ours, &mut our_out);
        assert_eq!(answer, self.call.on::<Reference>(&mut theirs, &mut their_out), "{}", self.name);
        assert!(our_out == their_out, "{}: the outputs differ", self.name);
        match self.expected {
            Expected::Refused(number) => {
                assert_eq!(answer, Err(number), "{}", self.name);
                assert!(ours == self.lend::<Rattle>(), "{}: the record changed", self.name);
                assert!(theirs == self.lend::<Reference>(), "{}: the record changed", self.name);
            }
            _ => {
                same_contents(&ours, &theirs, &self.name);
                self.check_steps(&before.expect("an accepted call's record is sound"), answer);
            }
        }
    }

    /// The in-place vault and the library leave the same bytes.
    fn check_in_place(&self) {
        let (mut library, mut in_place) = (self.lend::<Rattle>(), self.lend::<InPlace>());
        assert!(library == in_place, "{}: the records lent differ", self.name);
        let (mut library_out, mut out) = (vec![0xa5; self.space], vec![0xa5; self.space]);
        let answer = self.call.on::<Rattle>(&mut library, &mut library_out);
        assert_eq!(self.call.on::<InPlace>(&mut in_place, &mut out), answer, "{}", self.name);
        assert!(library == in_place && library_out == out, "{}: the bytes left differ", self.name);
    }

    /// The steps that act are those that the case is named for.
    fn check_steps(&self, before: &Record, answer: Answer) {
        assert!(answer.is_ok(), "{}: {answer:?}", self.name);
        let done = match &self.call {
            &Call::Start { settings: Settings { n, f, id, class }, plan } => vault::start(n, f, id, class, plan),
            Call::Frame { link, bytes } => vault::frame(before, *link, bytes),
            Call::Timer { view } => vault::timer(before, *view),
        };
        let done = done.expect("accepted by the reference's calls");
        match &self.expected {
            Expected::Steps(steps) => assert_eq!(&done.steps, steps, "{}", self.name),
            Expected::SafeBy(clause) => {
                assert_eq!(done.steps, [Step::D], "{}", self.name);
                let kind = std::mem::discriminant(clause);
                let found = done.clause.as_ref().map(std::mem::discriminant);
                assert_eq!(found, Some(kind), "{}: {:?}", self.name, done.clause);
            }
            Expected::Refused(_) => unreachable!("checked as a refusal"),
        }
    }
}

/// The record that calls leave.
fn made<S: Side>(calls: &[Call]) -> Vec<u8> {
    let mut rec = vec![0; S::RECORD_LEN];
    for call in calls {
        call.on::<S>(&mut rec, &mut [0; SPACE]).expect("the record's calls are accepted");
    }
    rec
}

fn changed<S: Side>(rec: &[u8], change: impl FnOnce(&mut Record)) -> Vec<u8> {
    let mut record = S::contents(rec).expect("calls left it");
    change(&mut record);
    S::spell(&record)
}

fn same_contents(ours: &[u8], theirs: &[u8], name: &str) -> Record {
    let record = Reference::contents(theirs).expect("it spells a record");
    assert!(Rattle::contents(ours).as_ref() == Some(&record), "{name}: the contents differ");
    record
}
