//! What scripts for the rehearsal reach. Each thing to be met has a name; `missing` lists the names
//! that no script met.
//!
//! No name stands for what no script can reach:
//! - 1: the rehearsal's output array has 256 bytes for every call.
//! - 3: records begin blank, and accepted calls leave only sound ones.
//! - 5, 6 and 7: n is 4 and f is 1, and a vault above 3 has 23 before the call.
//! - 18: the timer names the vault's current view.
//! - 19: a view is entered by three view-changes for it or for later ones, and the vaults that do
//!   not lie ask for one view more at a time. The last view is billions of lines away.
//! - A and B at different views in one pass, an entry by view-changes for three views, a timer that
//!   repeats a view-change beyond the next view: f + 1 others that make a vault ask for a view are,
//!   with the vault itself, n - f of 4, so it enters that view in the same pass.
//! - 10 of a line 04 that is longer: 48 bytes are 96 digits, which 20 refuses.
//! - 10 of a suggest or a proof that is longer: a made-up frame has at most 45 bytes.
//! - 11 by a link's sender of n or more: every writer is one of the four vaults.
//! - 9, 10, 12, 13, 14, 21, 22 and, of a proposal, 15 on a frame that a vault's step wrote: these
//!   frames are well formed.
//! - fc and fb of lines 02 and 03: they send nothing.
//! - A second liar that is accepted; two plans decided by vaults that are not declared.

use std::collections::BTreeMap;

use crate::entry::ALL;
use crate::frame::{self, Frame, PROOF, PROPOSAL, SUGGEST, VIEW_CHANGE};
use crate::record::Record;
use crate::rehearsal::{Decision, Outcome, Rehearsal, Waiting, MAX_DIGITS, N, PLACES};
use crate::report_faults::{faults_of, ReportFault};
use crate::scripts::{from_hex, split_lines};
use crate::vault::{self, Done, Fault};

/// What scripts reached when they were rehearsed.
#[derive(Clone, Default, PartialEq, Eq, Debug)]
pub struct Coverage {
    pub scripts: u64,
    pub lines: u64,
    /// Scripts in which vaults that are not declared at the end decided two plans.
    pub disagreements: u64,
    /// How often each thing was met, by its name.
    pub met: BTreeMap<String, u64>,
}

impl Coverage {
    /// The names that were never met, and whether a script showed two plans decided.
    pub fn missing(&self) -> Vec<String> {
        let mut missing = wanted();
        missing.retain(|name| !self.met.contains_key(name));
        if self.disagreements > 0 {
            missing.push(format!("agreement in {} scripts", self.disagreements));
        }
        missing
    }

    /// The names that were met and should not have been.
    pub fn unexpected(&self) -> Vec<String> {
        let wanted = wanted();
        self.met.keys().filter(|name| !wanted.contains(name)).cloned().collect()
    }

    fn count(&mut self, name: impl Into<String>) {
        *self.met.entry(name.into()).or_default() += 1;
    }
}

/// Rehearses one script and counts what it reached.
pub fn cover(script: &[u8], coverage: &mut Coverage) {
    let mut walk = Walk {
        coverage,
        stage: Rehearsal::new(),
        made_up: [false; PLACES],
        freed: [false; PLACES],
        sent: [false; N as usize],
        lost: false,
        taken_in: Vec::new(),
        decisions: Vec::new(),
    };
    for text in split_lines(script) {
        walk.line(text);
    }
    walk.end(script);
}

// ---------------------------------------------------------------------------------------------
// The names.

/// The ways of 20, each alone, and more than one of them at once.
const TEXT_FAULTS: [&str; 6] = [
    "20 by an odd count",
    "20 by too many digits",
    "20 by an upper-case digit",
    "20 by a carriage return",
    "20 by another byte",
    "20 by several faults",
];

/// The other refusals before a call, but for the ways of 10.
const BEFORE_THE_CALL: [&str; 14] = [
    "9 by an empty line",
    "9 by a kind above 05",
    "23 of 00 by its vault",
    "23 of 01 by its vault",
    "23 of 01 by its frame",
    "23 of 01 by both",
    "23 of 02 by its frame",
    "23 of 03 by its vault",
    "23 of 03 by a second liar",
    "23 of 03 by both",
    "23 of 04 by its vault",
    "23 of 04 with no liar",
    "23 of 04 with another liar",
    "23 of 05 by its vault",
];

/// The calls' own refusals, but for the ways of 10, 14, 21 and 22.
const BY_THE_CALL: [&str; 19] = [
    "00: 4",
    "00: 8",
    "01: 2",
    "01: 9 empty",
    "01: 9 kind 0",
    "01: 9 kind above 8",
    "01: 11",
    "01: 12",
    "01: 13 of kind 6",
    "01: 13 of kind 7",
    "01: 13 of kind 8",
    "01: 15 of kind 1",
    "01: 15 of kind 7",
    "01: 16 of kind 6",
    "01: 16 of another kind",
    "01: 17 of the frame kept",
    "01: 17 of another frame for its view",
    "01: 17 below the frame kept",
    "05: 2",
];

/// What happens on the stage and in a whole script.
const EVENTS: [&str; 30] = [
    "suggest to its leader accepted",
    "suggest to another vault: 11",
    "suggest to another vault: 15",
    "suggest to another vault: 2",
    "number used again after a drop",
    "number 255 used",
    "fc after fb",
    "fc and fb of one line",
    "view entered while 256 wait",
    "decision while 256 wait",
    "view entered by view-changes for two views",
    "view entered where the old count would do nothing",
    "declared before it sent a frame",
    "declared after it had sent frames",
    "declared after it had decided",
    "declared again",
    "made-up frame of 0 bytes",
    "made-up frame of 45 bytes",
    "made-up frames for one view with two plans taken",
    "decision in view 0 without a liar",
    "decision in view 0 beside a liar",
    "decision in view 0 beside a liar believed",
    "decision in a later view without a liar",
    "decision in a later view beside a liar",
    "decision in a later view beside a liar believed",
    "script: all four decide, none declared",
    "script: all decide but for the liar",
    "script: the liar decides too",
    "script: a vault decides in view 0, another later",
    "script: no final line feed",
];

/// Everything that scripts are to meet.
fn wanted() -> Vec<String> {
    let fixed = [&TEXT_FAULTS[..], &BEFORE_THE_CALL, &BY_THE_CALL, &EVENTS].concat();
    let mut wanted: Vec<String> = fixed.into_iter().map(String::from).collect();
    for kind in 0..=5 {
        wanted.push(format!("{kind:02x} accepted"));
        wanted.push(wrong_length(kind, false));
        // Longer is 20 with line 04.
        wanted.extend((kind != 4).then(|| wrong_length(kind, true)));
    }
    for kind in [0, 1, 4, 5] {
        wanted.push(format!("fc of {kind:02x}"));
        wanted.push(format!("fb of {kind:02x}"));
    }
    for kind in PROPOSAL..=PROOF {
        wanted.push(format!("kind {kind} sent by a vault"));
        wanted.push(format!("kind {kind} made up and taken"));
        wanted.push(frame_length(kind, false));
        // A suggest or a proof has the most bytes that line 04 can bring.
        wanted.extend((kind < SUGGEST).then(|| frame_length(kind, true)));
    }
    wanted.extend((0..8).map(|class| format!("started with class {class}")));
    wanted.extend(ReportFault::ALL.map(|fault| format!("01: {fault}")));
    wanted
}

fn wrong_length(kind: u8, longer: bool) -> String {
    format!("10 of {kind:02x} {}", if longer { "longer" } else { "shorter" })
}

fn frame_length(kind: u8, longer: bool) -> String {
    format!("01: 10 kind {kind} {}", if longer { "longer" } else { "shorter" })
}

/// Which way of 20 a text shows. A carriage return counts as no part of the line's digits.
fn text_fault(text: &[u8]) -> &'static str {
    let returns = text.iter().filter(|&&byte| byte == b'\r').count();
    let digits = text.len() - returns;
    let faults = [
        digits % 2 == 1,
        digits > MAX_DIGITS,
        text.iter().any(|byte| byte.is_ascii_uppercase() && byte.is_ascii_hexdigit()),
        returns > 0,
        text.iter().any(|&byte| byte != b'\r' && !byte.is_ascii_hexdigit()),
    ];
    match faults.iter().filter(|&&fault| fault).count() {
        1 => TEXT_FAULTS[faults.iter().position(|&fault| fault).unwrap_or(0)],
        _ => TEXT_FAULTS[5],
    }
}

// ---------------------------------------------------------------------------------------------
// The walk through a script.

/// A call that may bring a vault into another view, with the record as it is before.
struct Move {
    record: Box<Record>,
    /// The view-change that is delivered; a timer expires where there is none.
    frame: Option<Waiting>,
}

impl Move {
    fn done(&self, fault: Fault) -> Result<Done, u8> {
        match &self.frame {
            Some(frame) => vault::frame_with(fault, &self.record, frame.writer, &frame.bytes),
            None => vault::timer_with(fault, &self.record, self.record.view),
        }
    }
}

struct Walk<'a> {
    coverage: &'a mut Coverage,
    stage: Rehearsal,
    /// Of each number: the frame there came from a line 04; the number was dropped and not used
    /// since.
    made_up: [bool; PLACES],
    freed: [bool; PLACES],
    /// Vaults whose own steps sent frames.
    sent: [bool; N as usize],
    /// A frame was lost.
    lost: bool,
    /// Made-up frames that vaults took, each with the vault.
    taken_in: Vec<(u8, Frame)>,
    decisions: Vec<Decision>,
}

impl Walk<'_> {
    fn line(&mut self, text: &[u8]) {
        self.coverage.lines += 1;
        let liar = self.stage.liar();
        let bytes = from_hex(text, MAX_DIGITS);
        let step = bytes.as_deref().and_then(|bytes| self.may_move(bytes));
        let outcome = self.stage.obey(text, &mut Vec::new());
        match (outcome.refusal, bytes) {
            // A refusal leaves the stage as it was, so it still shows why.
            (Some(20), _) | (_, None) => self.coverage.count(text_fault(text)),
            (Some(number), Some(bytes)) => self.refused(&bytes, number),
            (None, Some(bytes)) => {
                self.coverage.count(format!("{:02x} accepted", bytes[0]));
                self.accepted(&bytes, liar);
                self.count_frames(bytes[0], &outcome);
                self.count_host_entries(&outcome);
                self.count_decisions(&outcome);
                step.iter().for_each(|step| self.count_move(step));
            }
        }
    }

    /// What a line may do to a vault's view: it delivers a view-change, or a timer expires.
    fn may_move(&self, bytes: &[u8]) -> Option<Move> {
        let (vault, frame) = match *bytes {
            // Where no frame waits the line is refused, and nothing is counted.
            [1, place, vault] => (vault, self.stage.waiting(place)),
            [5, vault] => (vault, None),
            _ => return None,
        };
        let other_kind = frame.is_some_and(|frame| frame.bytes.first() != Some(&VIEW_CHANGE));
        if vault >= N || other_kind {
            return None;
        }
        let record = Box::new(self.stage.record(vault)?);
        Some(Move { record, frame: frame.cloned() })
    }

    fn count_move(&mut self, step: &Move) {
        let Some(moved) = step.done(Fault::None).ok().and_then(|done| done.moved()) else { return };
        if moved.entered_by(2) {
            self.coverage.count("view entered by view-changes for two views");
        }
        if moved.idle_before_wish_3(|| step.done(Fault::OwnViewOnly)) {
            self.coverage.count("view entered where the old count would do nothing");
        }
    }

    fn refused(&mut self, bytes: &[u8], number: u8) {
        let name = match (bytes, number) {
            ([], 9) => "9 by an empty line".into(),
            ([6..=255, ..], 9) => "9 by a kind above 05".into(),
            ([kind, ..], 10) if bytes.len() != right_length(bytes) => {
                wrong_length(*kind, bytes.len() > right_length(bytes))
            }
            ([_, ..], 23) => self.way_of_23(bytes),
            (&[1, place, vault], _) => match self.stage.waiting(place).cloned() {
                Some(waiting) => self.undelivered(&waiting, vault, number),
                None => format!("01: {number} without a frame"),
            },
            ([kind, ..], _) => format!("{kind:02x}: {number}"),
            ([], _) => format!("an empty line: {number}"),
        };
        self.coverage.count(name);
    }

    fn way_of_23(&self, bytes: &[u8]) -> String {
        let free = |place: u8| self.stage.waiting(place).is_none();
        let way = match (bytes[0], bytes[1], self.stage.liar()) {
            (1, place, _) if free(place) && bytes[2] >= N => "by both",
            (1 | 2, place, _) if free(place) => "by its frame",
            (1, ..) => "by its vault",
            (3, N.., Some(_)) => "by both",
            (3, ..N, _) => "by a second liar",
            (_, N.., _) => "by its vault",
            (_, _, None) => "with no liar",
            (_, _, Some(_)) => "with another liar",
        };
        format!("23 of {:02x} {way}", bytes[0])
    }

    /// The name of a frame call's refusal.
    fn undelivered(&mut self, waiting: &Waiting, vault: u8, number: u8) -> String {
        if waiting.recipient != ALL && waiting.recipient != vault {
            self.coverage.count(format!("suggest to another vault: {number}"));
        }
        let bytes = waiting.bytes.as_slice();
        match (number, bytes.first().copied().unwrap_or(0)) {
            (9, _) if bytes.is_empty() => "01: 9 empty".into(),
            (9, 0) => "01: 9 kind 0".into(),
            (9, _) => "01: 9 kind above 8".into(),
            (10, kind) => frame_length(kind, Some(bytes.len()) > frame::length(kind)),
            (13 | 15, kind) => format!("01: {number} of kind {kind}"),
            (14 | 21 | 22, _) => first_fault(bytes, number),
            (16, VIEW_CHANGE) => "01: 16 of kind 6".into(),
            (16, _) => "01: 16 of another kind".into(),
            (17, _) => self.way_of_17(vault, bytes),
            _ => format!("01: {number}"),
        }
    }

    fn way_of_17(&self, vault: u8, bytes: &[u8]) -> String {
        let kept = frame::parse(bytes).and_then(|frame| {
            let record = self.stage.record(vault)?;
            record.kept(frame.sender, frame.kind).map(|kept| (*kept, frame))
        });
        match kept {
            Some((kept, frame)) if kept == frame => "01: 17 of the frame kept".into(),
            Some((kept, frame)) if kept.view == frame.view => {
                "01: 17 of another frame for its view".into()
            }
            Some((kept, frame)) if kept.view > frame.view => "01: 17 below the frame kept".into(),
            _ => "01: 17 without a frame kept".into(),
        }
    }

    /// What an accepted line did; the liar is the one declared before it.
    fn accepted(&mut self, bytes: &[u8], liar: Option<u8>) {
        match *bytes {
            [0, _, class, ..] => self.coverage.count(format!("started with class {class}")),
            [1, place, vault] => self.delivered(place, vault),
            [2, place] => self.freed[usize::from(place)] = true,
            [3, vault] => self.declared(vault, liar),
            [4, _] => self.coverage.count("made-up frame of 0 bytes"),
            [4, ..] if bytes.len() == 47 => self.coverage.count("made-up frame of 45 bytes"),
            _ => {}
        }
    }

    /// A frame was taken; it still waits.
    fn delivered(&mut self, place: u8, vault: u8) {
        let Some(waiting) = self.stage.waiting(place).cloned() else { return };
        if waiting.recipient != ALL {
            self.coverage.count("suggest to its leader accepted");
        }
        let Some(frame) = frame::parse(&waiting.bytes) else { return };
        if self.made_up[usize::from(place)] {
            self.coverage.count(format!("kind {} made up and taken", frame.kind));
            let other_story = |&(other, told): &(u8, Frame)| {
                let same = (told.kind, told.view) == (frame.kind, frame.view);
                other != vault && same && told.plan() != frame.plan()
            };
            if self.taken_in.iter().any(other_story) {
                self.coverage.count("made-up frames for one view with two plans taken");
            }
            self.taken_in.push((vault, frame));
        }
    }

    fn declared(&mut self, vault: u8, liar: Option<u8>) {
        let decided = self.decisions.iter().any(|decision| decision.vault == vault);
        let name = match (liar, self.sent[usize::from(vault)]) {
            (Some(_), _) => "declared again",
            (None, false) => "declared before it sent a frame",
            (None, true) => "declared after it had sent frames",
        };
        self.coverage.count(name);
        if liar.is_none() && decided {
            self.coverage.count("declared after it had decided");
        }
    }

    /// Frames that a line sent, and their numbers.
    fn count_frames(&mut self, kind: u8, outcome: &Outcome) {
        for &number in &outcome.stored {
            let place = usize::from(number);
            self.coverage.count(format!("fc of {kind:02x}"));
            if std::mem::take(&mut self.freed[place]) {
                self.coverage.count("number used again after a drop");
            }
            if self.lost {
                self.coverage.count("fc after fb");
            }
            self.made_up[place] = kind == 4;
            let first = self.stage.waiting(number).and_then(|waiting| waiting.bytes.first());
            if let (Some(vault), Some(frame_kind)) = (outcome.called, first) {
                self.sent[usize::from(vault)] = true;
                self.coverage.count(format!("kind {frame_kind} sent by a vault"));
            }
        }
        for _ in 0..outcome.lost {
            self.coverage.count(format!("fb of {kind:02x}"));
            self.lost = true;
        }
        if outcome.lost > 0 && !outcome.stored.is_empty() {
            self.coverage.count("fc and fb of one line");
        }
        if outcome.stored.contains(&255) {
            self.coverage.count("number 255 used");
        }
    }

    /// Host entries are printed all the same where no place is left.
    fn count_host_entries(&mut self, outcome: &Outcome) {
        let full = (0..=255).all(|number| self.stage.waiting(number).is_some());
        if full && outcome.entered.is_some_and(|view| view > 0) {
            self.coverage.count("view entered while 256 wait");
        }
        if full && !outcome.decisions.is_empty() {
            self.coverage.count("decision while 256 wait");
        }
    }

    fn count_decisions(&mut self, outcome: &Outcome) {
        for &decision in &outcome.decisions {
            let view = if decision.view == 0 { "view 0" } else { "a later view" };
            let beside = match self.stage.liar() {
                None => "without a liar",
                Some(liar) if liar == decision.vault => continue,
                Some(_) if self.taken_in.is_empty() => "beside a liar",
                Some(_) => "beside a liar believed",
            };
            self.coverage.count(format!("decision in {view} {beside}"));
        }
        self.decisions.extend(&outcome.decisions);
    }

    /// What is to be said of the whole script.
    fn end(&mut self, script: &[u8]) {
        self.coverage.scripts += 1;
        if script.last().is_some_and(|&last| last != b'\n') {
            self.coverage.count("script: no final line feed");
        }
        let liar = self.stage.liar();
        // A vault decides at most once.
        let (lying, honest): (Vec<Decision>, Vec<Decision>) =
            self.decisions.iter().partition(|decision| Some(decision.vault) == liar);
        match liar {
            None if honest.len() == 4 => {
                self.coverage.count("script: all four decide, none declared");
            }
            Some(_) if honest.len() == 3 => {
                self.coverage.count("script: all decide but for the liar");
            }
            _ => {}
        }
        if !lying.is_empty() && !honest.is_empty() {
            self.coverage.count("script: the liar decides too");
        }
        let early = honest.iter().filter(|decision| decision.view == 0).count();
        if early > 0 && early < honest.len() {
            self.coverage.count("script: a vault decides in view 0, another later");
        }
        if honest.windows(2).any(|pair| pair[0].plan != pair[1].plan) {
            self.coverage.disagreements += 1;
        }
    }
}

/// The length of a line of this kind; a line 04 of any allowed length has its own.
fn right_length(bytes: &[u8]) -> usize {
    match bytes[0] {
        0 => 11,
        1 => 3,
        4 => bytes.len().max(2),
        _ => 2,
    }
}

/// The first fault of a frame's reports, where it is one of this number.
fn first_fault(bytes: &[u8], number: u8) -> String {
    match faults_of(bytes).first() {
        Some(fault) if fault.refusal() == number => format!("01: {fault}"),
        fault => format!("01: {number} where {fault:?} is first"),
    }
}
