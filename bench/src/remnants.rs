//! Part 8: remnants written, and restarts from them.

use std::hint::black_box;

use comparison::records::{contents, reached, spell};
use comparison::sides::Answer;
use comparison::vaults;
use reference::frame::{Frame, Report, PROOF, PROPOSAL, SUGGEST, VOTE_1, VOTE_4};
use reference::record::{decode, encode, Record, Settings};
use reference::remnant::{self, remnant_of, REMNANT_SIZE};

use crate::clock::{race, Clock, Contender, Group};
use crate::summary::{Aim, Summary};
use crate::table;

const ROUNDS: u32 = 100;
const SPACE: usize = 256;
/// What an output holds before a compared call.
const UNWRITTEN: u8 = 0xa5;

const ID: u8 = 1;
const PLAN: u64 = 7;
const OTHER_PLAN: u64 = 8;

type Write = fn(rec: &[u8], out: &mut [u8]) -> Answer;
type Restart = fn(rec: &mut [u8], remnant: &[u8], out: &mut [u8]) -> Answer;

/// The two calls of a side, and its layout.
#[derive(Clone, Copy)]
struct Side {
    write: Write,
    restart: Restart,
    spell: fn(&Record) -> Vec<u8>,
    contents: fn(&[u8]) -> Option<Record>,
}

const LIBRARY: Side =
    Side { write: vaults::write_remnant, restart: vaults::restart, spell, contents };
const IN_PLACE: Side =
    Side { write: inplace::write_remnant, restart: inplace::restart, spell, contents };
const REFERENCE: Side = Side {
    write: remnant::write_remnant,
    restart: remnant::restart,
    spell: encode,
    contents: decode,
};

/// What is timed.
enum Work {
    /// The remnant of a record.
    Write(Box<Record>),
    /// A restart from a remnant.
    Restart(Vec<u8>),
}

struct Case {
    name: String,
    work: Work,
    wanted: Answer,
}

impl Case {
    /// The output, and the contents of the record afterwards.
    fn outcome(&self, side: Side) -> (Vec<u8>, Option<Record>) {
        let mut out = vec![UNWRITTEN; SPACE];
        let (answer, rec) = match &self.work {
            Work::Write(record) => {
                let rec = (side.spell)(record);
                ((side.write)(&rec, &mut out), rec)
            }
            Work::Restart(remnant) => {
                let mut rec = (side.spell)(&Record::empty());
                ((side.restart)(&mut rec, remnant, &mut out), rec)
            }
        };
        assert_eq!(answer, self.wanted, "{}", self.name);
        (out, (side.contents)(&rec))
    }

    /// All sides answer as they should, and leave the same.
    fn check(&self) {
        let library = self.outcome(LIBRARY);
        assert!(library == self.outcome(IN_PLACE), "{}: the in-place vault differs", self.name);
        assert!(library == self.outcome(REFERENCE), "{}: the reference differs", self.name);
    }

    /// A restart is lent the record that the one before it left, with 0 as its n: that is blank.
    fn contender<'a>(&'a self, clock: &'a Clock, side: Side) -> Contender<'a> {
        match &self.work {
            Work::Write(record) => {
                let rec = (side.spell)(record);
                clock.repeated([0; SPACE], move |out| {
                    let _ = black_box((side.write)(black_box(&rec), black_box(out)));
                })
            }
            Work::Restart(remnant) => {
                let state = ((side.spell)(&Record::empty()), [0; SPACE]);
                let blank = |(rec, _): &mut (Vec<u8>, [u8; SPACE])| rec[0] = 0;
                clock.fresh(state, blank, move |(rec, out)| {
                    let restart = side.restart;
                    let _ = black_box(restart(black_box(rec), black_box(remnant), black_box(out)));
                })
            }
        }
    }

    fn group<'a>(&'a self, clock: &'a Clock) -> Group<'a> {
        Group {
            library: self.contender(clock, LIBRARY),
            in_place: self.contender(clock, IN_PLACE),
            reference: self.contender(clock, REFERENCE),
        }
    }
}

fn report(view: u32, plan: u64) -> Option<Report> {
    Some(Report { view, plan })
}

fn started(n: u8, f: u8) -> Record {
    Record::new(Settings { n, f, id: ID, class: 2 }, PLAN)
}

/// A record in a view that its vault leads, with every kind of frame and report from every vault
/// that may send one, previous votes and a decision.
fn full(n: u8, f: u8) -> Record {
    let view = 2 * u32::from(n) + u32::from(ID);
    let mut record = started(n, f);
    record.view = view;
    let reports = [report(view - 1, PLAN), report(view - 2, OTHER_PLAN), report(view - 1, PLAN)];
    record.keep(Frame::with_plan(PROPOSAL, ID, view, PLAN));
    for sender in 0..n {
        for kind in VOTE_1..=VOTE_4 {
            record.keep(Frame::with_plan(kind, sender, view, PLAN));
        }
        record.keep(Frame::view_change(sender, view + 1 + u32::from(sender)));
        record.keep(Frame::with_reports(SUGGEST, sender, view, reports));
        record.keep(Frame::with_reports(PROOF, sender, view, reports));
    }
    record.previous_vote1 = report(view - 1, OTHER_PLAN);
    record.previous_vote2 = report(view - 1, OTHER_PLAN);
    record.decision = report(view, PLAN);
    assert!(record.sound());
    record
}

/// The last thing that is asked of a record: a previous vote-2 for the plan of its highest.
fn unsound(mut record: Record) -> Record {
    record.previous_vote2 = report(record.view - 1, PLAN);
    assert!(!record.sound());
    record
}

fn cases(n: u8, f: u8) -> Vec<Case> {
    let case = |name: &str, work, wanted| Case { name: format!("n = {n}: {name}"), work, wanted };
    let write = |name, record, wanted| case(name, Work::Write(Box::new(record)), wanted);
    let restart = |name, record: Record, wanted| {
        case(name, Work::Restart(remnant_of(&record).to_vec()), wanted)
    };
    vec![
        write("remnant, nothing kept", started(n, f), Ok(REMNANT_SIZE)),
        write("remnant, all kept", full(n, f), Ok(REMNANT_SIZE)),
        write("remnant refused 3, all kept", unsound(full(n, f)), Err(3)),
        restart("restart, nothing sent", started(n, f), Ok(10)),
        restart("restart, all sent", full(n, f), Ok(10)),
        restart("restart refused 26, all sent", unsound(full(n, f)), Err(26)),
    ]
}

/// The sides agree on records that scripts reach.
fn compare() {
    for record in reached(7, 10) {
        let name = String::from("a record that scripts reach");
        let remnant = remnant_of(&record).to_vec();
        Case { name: name.clone(), work: Work::Restart(remnant), wanted: Ok(10) }.check();
        let work = Work::Write(Box::new(record));
        Case { name, work, wanted: Ok(REMNANT_SIZE) }.check();
    }
}

pub fn print(clock: &Clock, summary: &mut Summary, sizes: &[(u8, u8)]) {
    compare();
    table::head(
        "8. Remnants written, and restarts from them
   The library tests what a remnant says, and then makes the record, once, where it is lent; the
   in-place vault makes one apart, tests it for soundness and copies it there",
        "nanoseconds a call",
    );
    for &(n, f) in sizes {
        let cases = cases(n, f);
        cases.iter().for_each(Case::check);
        let times = race(ROUNDS, cases.iter().map(|case| case.group(clock)).collect());
        for (case, times) in cases.iter().zip(times) {
            summary.row(Aim::Remnant, "", &case.name, times);
        }
    }
}
