//! Shared by the reference's own tests: a vault over lent bytes that checks every call, and
//! generators of frames and reports.
#![allow(dead_code)]

use reference::calls;
use reference::entry::{parse_entries, Entry};
use reference::frame::{
    self, Frame, Report, PROOF, PROPOSAL, SUGGEST, VIEW_CHANGE, VOTE_1, VOTE_2, VOTE_3, VOTE_4,
};
use reference::record::{classify, decode, encode, Lent, Record, Settings, RECORD_LEN};
use reference::rng::Rng;
use reference::rules::{Clause, Question, Reports, Rule};
use reference::vault::{self, Done};
use reference::{literal, rules};

pub fn rep(view: u32, plan: u64) -> Option<Report> {
    Some(Report { view, plan })
}

pub fn proposal(sender: u8, view: u32, plan: u64) -> Frame {
    Frame::with_plan(PROPOSAL, sender, view, plan)
}

/// vote(1, ...) is vote-1.
pub fn vote(number: u8, sender: u8, view: u32, plan: u64) -> Frame {
    Frame::with_plan(number + 1, sender, view, plan)
}

pub fn view_change(sender: u8, view: u32) -> Frame {
    Frame::view_change(sender, view)
}

pub fn suggest(sender: u8, view: u32, reports: [Option<Report>; 3]) -> Frame {
    Frame::with_reports(SUGGEST, sender, view, reports)
}

pub fn proof(sender: u8, view: u32, reports: [Option<Report>; 3]) -> Frame {
    Frame::with_reports(PROOF, sender, view, reports)
}

pub const NONE: [Option<Report>; 3] = [None; 3];

/// A question about four vaults of which one may lie.
pub fn of_four(v: u32, reports: &[Option<Reports>; 4]) -> Question<'_> {
    Question { n: 4, f: 1, v, reports }
}

/// Whether the plan is safe, by both readings of the rules; the clause by which counting found it.
pub fn safe_by_both(rule: Rule, question: &Question, plan: u64) -> Option<Clause> {
    let clause = rules::safe(rule, question, plan);
    let literally = literal::safe(rule, question, plan);
    assert_eq!(clause.is_some(), literally, "{rule:?} plan {plan} {question:?}");
    clause
}

/// A leader's choice, by both readings of the rules.
pub fn chosen_by_both(question: &Question, start: u64) -> Option<u64> {
    let chosen = rules::choose(question, start);
    assert_eq!(chosen, literal::choose(question, start), "start {start} {question:?}");
    chosen
}

/// A vault over lent bytes. Every call is checked: a refusal leaves record and output byte for
/// byte; an accepted call leaves a sound record and the output beyond the count.
pub struct Vault {
    pub rec: Vec<u8>,
}

impl Vault {
    pub fn blank() -> Vault {
        Vault { rec: vec![0; RECORD_LEN] }
    }

    pub fn of(record: &Record) -> Vault {
        assert!(record.sound(), "a test's record is sound");
        Vault { rec: encode(record) }
    }

    pub fn started(n: u8, f: u8, id: u8, plan: u64) -> Vault {
        let mut vault = Vault::blank();
        vault.start(n, f, id, 2, plan).expect("start");
        vault
    }

    pub fn record(&self) -> Record {
        decode(&self.rec).expect("a record")
    }

    pub fn start(&mut self, n: u8, f: u8, id: u8, class: u8, plan: u64) -> Result<Vec<Entry>, u8> {
        let by_contents = vault::start(n, f, id, class, plan);
        self.checked(by_contents, |rec, out| calls::start(rec, n, f, id, class, plan, out))
    }

    pub fn bytes(&mut self, link: u8, bytes: &[u8]) -> Result<Vec<Entry>, u8> {
        let by_contents = match classify(&self.rec) {
            Lent::Blank => Err(2),
            Lent::Unsound => Err(3),
            Lent::Sound(record) => vault::frame(&record, link, bytes),
        };
        self.checked(by_contents, |rec, out| calls::frame(rec, link, bytes, out))
    }

    pub fn frame(&mut self, frame: &Frame) -> Result<Vec<Entry>, u8> {
        self.bytes(frame.sender, &frame::write(frame))
    }

    pub fn timer(&mut self, view: u32) -> Result<Vec<Entry>, u8> {
        let by_contents = match classify(&self.rec) {
            Lent::Blank => Err(2),
            Lent::Unsound => Err(3),
            Lent::Sound(record) => vault::timer(&record, view),
        };
        self.checked(by_contents, |rec, out| calls::timer(rec, view, out))
    }

    /// An accepted frame, and its entries.
    pub fn take(&mut self, frame: &Frame) -> Vec<Entry> {
        self.frame(frame).unwrap_or_else(|number| panic!("{frame:?} refused with {number}"))
    }

    fn checked(
        &mut self,
        by_contents: Result<Done, u8>,
        call: impl Fn(&mut [u8], &mut [u8]) -> Result<usize, u8>,
    ) -> Result<Vec<Entry>, u8> {
        let mut out = [0; 300];
        Rng(0x5eed).fill(&mut out);
        let before = (self.rec.clone(), out);
        match call(&mut self.rec, &mut out) {
            Ok(count) => {
                let done = by_contents.expect("accepted over bytes, refused by contents");
                assert!(count <= 256, "256 bytes always do");
                assert_eq!(out[count..], before.1[count..], "bytes beyond the count");
                assert!(matches!(classify(&self.rec), Lent::Sound(_)), "sound afterwards");
                assert_eq!(self.record(), done.record);
                let entries = parse_entries(&out[..count]).expect("entries end to end");
                assert_eq!(entries, done.entries);
                Ok(entries)
            }
            Err(number) => {
                assert!(self.rec == before.0, "refusal {number} changed the record");
                assert!(out == before.1, "refusal {number} changed the output");
                if number != 4 {
                    assert_eq!(by_contents.err(), Some(number));
                }
                Err(number)
            }
        }
    }
}

/// A vault brought to view w by view-changes of the other vaults.
pub fn in_view(n: u8, f: u8, id: u8, plan: u64, w: u32) -> Vault {
    let mut vault = Vault::started(n, f, id, plan);
    go_to(&mut vault, w);
    assert_eq!(vault.record().view, w);
    vault
}

/// View-changes for w from the other vaults until w is entered; the entries of the last call.
pub fn go_to(vault: &mut Vault, w: u32) -> Vec<Entry> {
    let Settings { n, id, .. } = vault.record().settings;
    let mut last = Vec::new();
    for sender in (0..n).filter(|&sender| sender != id) {
        if vault.record().view < w {
            last = vault.take(&view_change(sender, w));
        }
    }
    assert_eq!(vault.record().view, w);
    last
}

/// A record built by hand: started, in a view, with frames kept in their places.
pub fn record_with(n: u8, f: u8, id: u8, plan: u64, view: u32, frames: &[Frame]) -> Record {
    let mut record = Record::new(Settings { n, f, id, class: 2 }, plan);
    record.view = view;
    for &frame in frames {
        record.keep(frame);
    }
    record
}

/// Three reports that pass refusals 14, 21 and 22 in a frame of view v (v above 0), with views below
/// v and a few plans.
pub fn valid_reports(rng: &mut Rng, v: u32, plans: u64) -> [Option<Report>; 3] {
    let views = u64::from(v).min(5);
    let view = |rng: &mut Rng| v - 1 - rng.below(views) as u32;
    let some = |rng: &mut Rng| Some(Report { view: view(rng), plan: rng.below(plans) });
    let highest = if rng.one_in(4) { None } else { some(rng) };
    let previous = if rng.one_in(2) { None } else { some(rng) };
    let lock = if rng.one_in(3) { None } else { some(rng) };
    let previous = previous.filter(|previous| {
        highest.is_some_and(|highest| previous.view < highest.view && previous.plan != highest.plan)
    });
    [highest, previous, lock]
}

/// Kinds, each as often as it is to come.
const LIKELY_KINDS: [u8; 17] = [
    PROPOSAL,
    PROPOSAL,
    VOTE_1,
    VOTE_1,
    VOTE_2,
    VOTE_2,
    VOTE_3,
    VOTE_3,
    VOTE_4,
    VOTE_4,
    VIEW_CHANGE,
    VIEW_CHANGE,
    VIEW_CHANGE,
    SUGGEST,
    SUGGEST,
    PROOF,
    PROOF,
];

/// A frame as another vault might send it to this one, mostly acceptable.
pub fn likely_frame(rng: &mut Rng, record: &Record) -> Frame {
    let Settings { n, id, .. } = record.settings;
    let sender = loop {
        let sender = rng.below(u64::from(n)) as u8;
        if sender != id {
            break sender;
        }
    };
    let mut view = record.view.saturating_add(rng.pick(&[0, 0, 0, 0, 0, 0, 1, 1, 2, 3]));
    let kind = rng.pick(&LIKELY_KINDS);
    let plan = rng.pick(&[5, 5, 5, 5, 6, 7]);
    match kind {
        PROPOSAL if rng.below(8) > 0 && frame::leader(view, n) != id => {
            Frame::with_plan(kind, frame::leader(view, n), view, plan)
        }
        PROPOSAL..=VOTE_4 => Frame::with_plan(kind, sender, view, plan),
        VIEW_CHANGE => {
            Frame::view_change(sender, record.view.saturating_add(rng.pick(&[1, 1, 1, 2, 3, 5])))
        }
        _ => {
            if kind == SUGGEST && rng.below(8) > 0 {
                for _ in 0..n {
                    if frame::leader(view, n) != id {
                        view = view.saturating_add(1);
                    }
                }
            }
            view = view.max(1);
            Frame::with_reports(kind, sender, view, valid_reports(rng, view, 8))
        }
    }
}

/// Random settings that start.
pub fn likely_settings(rng: &mut Rng) -> Settings {
    let n = rng.pick(&[4, 4, 4, 4, 5, 6, 7, 7, 10, 13, 64]);
    let f = 1 + rng.below((u64::from(n) - 1) / 3) as u8;
    let id = rng.below(u64::from(n)) as u8;
    Settings { n, f, id, class: rng.below(8) as u8 }
}

/// A started vault after so many random calls.
pub fn wandered(rng: &mut Rng, calls: u64) -> Vault {
    let Settings { n, f, id, class } = likely_settings(rng);
    let mut vault = Vault::blank();
    vault.start(n, f, id, class, rng.below(8)).expect("start");
    for _ in 0..calls {
        let _ = wander(rng, &mut vault);
    }
    vault
}

/// One random call, accepted or refused; its entries.
pub fn wander(rng: &mut Rng, vault: &mut Vault) -> Result<Vec<Entry>, u8> {
    let record = vault.record();
    if rng.one_in(12) {
        vault.timer(record.view.wrapping_add(u32::from(rng.one_in(8))))
    } else {
        let frame = likely_frame(rng, &record);
        vault.frame(&frame)
    }
}

pub fn hex(bytes: &[u8]) -> String {
    bytes.iter().map(|byte| format!("{byte:02x}")).collect()
}

/// The line program on a whole input.
pub fn run_lines(input: &[u8]) -> String {
    let mut output = Vec::new();
    reference::lines::run(input, &mut output).expect("runs");
    String::from_utf8(output).expect("text")
}

/// The lines of a worked script, each with what it prints.
pub fn worked(script: &str) -> Vec<(&str, String)> {
    let mut lines: Vec<(&str, String)> = Vec::new();
    for row in script.lines() {
        let (line, answer) = row.split_once(' ').unwrap_or((row, ""));
        if !line.is_empty() {
            lines.push((line, String::new()));
        }
        if !answer.is_empty() {
            let (_, printed) = lines.last_mut().expect("a script begins with a line");
            *printed += &format!("{}\n", answer.trim());
        }
    }
    lines
}
