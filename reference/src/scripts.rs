//! Random input scripts for the line program, and a count of what they reach.
//! The generator runs the vault alongside, so that it knows the state which it drives.

use std::collections::BTreeMap;

use crate::entry::Entry;
use crate::frame::{
    self, leader, Body, Frame, Report, PROOF, PROPOSAL, SUGGEST, VIEW_CHANGE, VOTE_1, VOTE_4,
};
use crate::record::Record;
use crate::report_faults::{faults_of, wanted_faults, Carrier, Place, ReportFault};
use crate::rng::Rng;
use crate::rules::{Clause, Reports};
use crate::sim::{below, chance, false_reports, kept_reports, lower_report, shuffle};
use crate::vault::{self, Done, Fault, Moved, Step};

/// The longest line that may be read, in digits.
const MOST_DIGITS: usize = 90;
/// How many frames with faults in their reports come one after the other. They are refused, so the
/// vault stays as it is and they cost little.
const DAMAGED_AT_ONCE: usize = 5;

// ---------------------------------------------------------------------------------------------
// Lines.

/// What a line asks for, once its text is taken in.
#[derive(Clone, PartialEq, Eq, Debug)]
enum Line {
    Refused(u8),
    Start { n: u8, f: u8, id: u8, class: u8, plan: u64 },
    Timer { view: u32 },
    Frame(Vec<u8>),
}

/// The lines of an input; after a final 0a there is no further one.
pub(crate) fn split_lines(input: &[u8]) -> Vec<&[u8]> {
    let mut lines: Vec<&[u8]> = input.split(|&byte| byte == b'\n').collect();
    if lines.last().is_some_and(|last| last.is_empty()) {
        lines.pop();
    }
    lines
}

fn read_line(text: &[u8]) -> Line {
    let Some(bytes) = from_hex(text, MOST_DIGITS) else { return Line::Refused(20) };
    match (bytes.first(), bytes.len()) {
        (Some(0), 13) => Line::Start {
            n: bytes[1],
            f: bytes[2],
            id: bytes[3],
            class: bytes[4],
            plan: big_endian(&bytes[5..]),
        },
        (Some(9), 5) => Line::Timer { view: big_endian(&bytes[1..]) as u32 },
        (Some(0 | 9), _) => Line::Refused(10),
        _ => Line::Frame(bytes),
    }
}

/// The bytes of a line of at most so many digits; None where 20 refuses it.
pub(crate) fn from_hex(text: &[u8], most: usize) -> Option<Vec<u8>> {
    if text.len() % 2 == 1 || text.len() > most {
        return None;
    }
    let digit = |byte: u8| match byte {
        b'0'..=b'9' => Some(byte - b'0'),
        b'a'..=b'f' => Some(byte - b'a' + 10),
        _ => None,
    };
    text.chunks(2).map(|pair| Some(digit(pair[0])? * 16 + digit(pair[1])?)).collect()
}

pub(crate) fn to_hex(bytes: &[u8]) -> Vec<u8> {
    bytes.iter().flat_map(|byte| format!("{byte:02x}").into_bytes()).collect()
}

fn big_endian(bytes: &[u8]) -> u64 {
    bytes.iter().fold(0, |number, &byte| number << 8 | u64::from(byte))
}

/// One vault as lines drive it; None while its record is blank.
#[derive(Default)]
struct Driven {
    record: Option<Box<Record>>,
}

impl Driven {
    /// What a line would do; the vault stays as it is.
    fn answer(&self, fault: Fault, line: &Line) -> Result<Done, u8> {
        match (line, self.record.as_deref()) {
            (&Line::Refused(refusal), _) => Err(refusal),
            (Line::Start { .. }, Some(_)) => Err(4),
            (&Line::Start { n, f, id, class, plan }, None) => {
                vault::start_with(fault, n, f, id, class, plan)
            }
            (_, None) => Err(2),
            (&Line::Timer { view }, Some(record)) => vault::timer_with(fault, record, view),
            // A line too short for a sender is refused for its length, whatever the link.
            (Line::Frame(bytes), Some(record)) => {
                vault::frame_with(fault, record, bytes.get(1).copied().unwrap_or(0), bytes)
            }
        }
    }

    fn apply(&mut self, line: &Line) {
        if let Ok(done) = self.answer(Fault::None, line) {
            self.keep(done);
        }
    }

    fn keep(&mut self, done: Done) {
        self.record = Some(Box::new(done.record));
    }
}

/// The vault's records by contents as a script goes on: after every eighth line, and at the end.
pub fn records(script: &[u8]) -> Vec<Record> {
    let mut vault = Driven::default();
    let mut records = Vec::new();
    for (number, text) in split_lines(script).into_iter().enumerate() {
        vault.apply(&read_line(text));
        if number % 8 == 7 {
            records.extend(vault.record.as_deref().cloned());
        }
    }
    records.extend(vault.record.as_deref().cloned());
    records
}

// ---------------------------------------------------------------------------------------------
// Coverage.

/// What scripts reached when run through the vault.
#[derive(Clone, Default, PartialEq, Eq, Debug)]
pub struct Coverage {
    pub scripts: u64,
    pub lines: u64,
    /// Steps A to H that acted.
    pub steps: [u64; 8],
    /// By refusal number; 0 is not used.
    pub refusals: [u64; 23],
    /// What made the proposal safe where step D voted.
    pub view_zero: u64,
    pub no_lock: u64,
    pub one_set: u64,
    pub two_sets: u64,
    /// Step C: the starting plan, another safe plan, or no proposal yet.
    pub proposed_start: u64,
    pub proposed_other: u64,
    pub waited: u64,
    /// Of those waits, the ones with a quorum of suggests.
    pub none_safe: u64,
    pub decisions: u64,
    pub late_decisions: u64,
    /// Timers that repeated the vault's own view-change, and those that repeated one for a view
    /// beyond the next.
    pub timer_repeats: u64,
    pub far_repeats: u64,
    /// Passes in which A asked for one view and B entered another.
    pub moves_apart: u64,
    /// Views entered by view-changes for three or more different views.
    pub mixed_entries: u64,
    /// Views entered below the vault's own view-change, and timers that repeated it there, beyond
    /// the next view.
    pub low_entries: u64,
    pub low_repeats: u64,
    /// Passes in which A or B acted and under the count before wish 3 neither would have.
    pub later_backed: u64,
    /// Times that the last view of all was entered.
    pub last_views: u64,
    /// Decisions among 64 vaults.
    pub decisions_of_64: u64,
    /// Suggests and proofs that were refused for the first of their reports' faults, by what they
    /// were and by all of these faults.
    pub report_faults: BTreeMap<(Carrier, Vec<ReportFault>), u64>,
    /// Suggests and proofs of which 14, 21 and 22 said something else than their bytes show.
    pub misjudged: u64,
}

impl Coverage {
    pub fn step(&self, step: Step) -> u64 {
        self.steps[step as usize]
    }

    /// What wish 3 of document 02 has brought, each with its count. Addition to the interface.
    pub fn wish_3(&self) -> [(&'static str, u64); 6] {
        [
            ("A and B in one pass at different views", self.moves_apart),
            ("an entry by view-changes for three different views", self.mixed_entries),
            ("a timer that repeats a view-change beyond the next view", self.far_repeats),
            ("a pass in which the old count would do nothing", self.later_backed),
            ("an entry below the own view-change", self.low_entries),
            ("a timer that repeats it there", self.low_repeats),
        ]
    }

    /// What scripts are to reach of wish 3 and of the faults in reports, each with its count.
    fn wanted(&self) -> Vec<(u64, String)> {
        let mut wanted: Vec<(u64, String)> =
            self.wish_3().map(|(name, count)| (count, name.to_string())).to_vec();
        for carrier in Carrier::ALL {
            wanted.extend(wanted_faults().into_iter().map(|faults| {
                let names: Vec<String> = faults.iter().map(ToString::to_string).collect();
                let count = self.report_faults.get(&(carrier, faults)).copied().unwrap_or(0);
                (count, format!("{carrier}: {}", names.join(", ")))
            }));
        }
        wanted
    }

    /// The counts of what may be rare, the lowest first. Addition to the interface.
    pub fn rarest(&self) -> Vec<(u64, String)> {
        let mut counts = self.wanted();
        let steps = ('A'..='H').zip(self.steps);
        counts.extend(steps.map(|(step, count)| (count, format!("step {step}"))));
        let others = [
            ("two sets", self.two_sets),
            ("another plan proposed", self.proposed_other),
            ("no plan safe", self.none_safe),
            ("late decision", self.late_decisions),
            ("last view", self.last_views),
            ("decision of 64", self.decisions_of_64),
        ];
        counts.extend(others.map(|(name, count)| (count, name.to_string())));
        counts.sort();
        counts
    }

    /// What wish 3 has brought and the faults in reports, where they were not reached, and whether
    /// any fault was refused with a wrong number.
    pub fn missing(&self) -> Vec<String> {
        let lacking = self.wanted().into_iter().filter(|&(count, _)| count == 0);
        let mut missing: Vec<String> = lacking.map(|(_, name)| name).collect();
        if self.misjudged > 0 {
            missing.push(format!("the right refusal of {} suggests or proofs", self.misjudged));
        }
        missing
    }

    /// Counts what A and B did in a pass; `idle_before` where they would not have before wish 3.
    fn count_moved(&mut self, moved: &Moved, idle_before: bool) {
        self.moves_apart += u64::from(moved.apart());
        self.mixed_entries += u64::from(moved.entered_by(3));
        self.low_entries += u64::from(moved.below_own);
        self.later_backed += u64::from(idle_before);
    }

    /// Counts a timer that repeats a view-change so far above the current view; `low` where that
    /// view was entered below the own view-change.
    fn count_repeat(&mut self, ahead: u32, low: bool) {
        self.timer_repeats += u64::from(ahead > 0);
        self.far_repeats += u64::from(ahead > 1);
        self.low_repeats += u64::from(ahead > 1 && low);
    }

    /// Counts the faults in a line's reports, given how the vault in this state answered.
    fn count_faults(&mut self, line: &Line, settled: Settled, refusal: Option<u8>) {
        let Line::Frame(bytes) = line else { return };
        let Some(carrier) = Carrier::of(bytes, settled.n, settled.id) else { return };
        let faults = faults_of(bytes);
        let called_for = faults.first().map(|fault| fault.refusal());
        if refusal.filter(|number| matches!(number, 14 | 21 | 22)) != called_for {
            self.misjudged += 1;
        } else if called_for.is_some() {
            *self.report_faults.entry((carrier, faults)).or_default() += 1;
        }
    }
}

/// Runs one script through the vault by contents and counts what it reached.
pub fn cover(script: &[u8], coverage: &mut Coverage) {
    let mut vault = Driven::default();
    // The current view was entered below the own view-change.
    let mut low = false;
    coverage.scripts += 1;
    for text in split_lines(script) {
        coverage.lines += 1;
        let line = read_line(text);
        let ahead = vault.record.as_deref().map_or(0, view_change_ahead);
        let settled = vault.record.as_deref().map(Settled::of);
        let result = vault.answer(Fault::None, &line);
        if let Some(settled) = settled {
            coverage.count_faults(&line, settled, result.as_ref().err().copied());
        }
        match result {
            Err(refusal) => coverage.refusals[usize::from(refusal)] += 1,
            Ok(done) => {
                if matches!(line, Line::Timer { .. }) {
                    coverage.count_repeat(ahead, low);
                }
                if let Some(moved) = done.moved() {
                    let idle = moved.idle_before_wish_3(|| vault.answer(Fault::OwnViewOnly, &line));
                    coverage.count_moved(&moved, idle);
                    low = if moved.entered.is_some() { moved.below_own } else { low };
                }
                count_done(&done, coverage);
                vault.keep(done);
            }
        }
    }
}

/// How far the vault's own view-change is above its current view.
fn view_change_ahead(record: &Record) -> u32 {
    own_view(record, VIEW_CHANGE).map_or(0, |view| view.saturating_sub(record.view))
}

fn own_view(record: &Record, kind: u8) -> Option<u32> {
    record.rows[usize::from(record.settings.id)][usize::from(kind - 1)].map(|frame| frame.view)
}

fn count_done(done: &Done, coverage: &mut Coverage) {
    for &step in &done.steps {
        coverage.steps[step as usize] += 1;
    }
    match done.clause {
        None => {}
        Some(Clause::ViewZero) => coverage.view_zero += 1,
        Some(Clause::NoLock) => coverage.no_lock += 1,
        Some(Clause::OneSet { .. }) => coverage.one_set += 1,
        Some(Clause::TwoSets { .. }) => coverage.two_sets += 1,
    }
    for entry in &done.entries {
        match *entry {
            Entry::All(Frame { kind: PROPOSAL, body: Body::Plan(plan), .. })
                if plan == done.record.start_plan =>
            {
                coverage.proposed_start += 1;
            }
            Entry::All(Frame { kind: PROPOSAL, .. }) => coverage.proposed_other += 1,
            Entry::Decision { view, .. } => {
                coverage.decisions += 1;
                coverage.late_decisions += u64::from(view > 0);
                coverage.decisions_of_64 += u64::from(done.record.settings.n == 64);
            }
            Entry::Timer { view: u32::MAX, .. } => coverage.last_views += 1,
            _ => {}
        }
    }
    count_wait(&done.record, coverage);
}

fn count_wait(record: &Record, coverage: &mut Coverage) {
    let Settled { n, quorum, id, .. } = Settled::of(record);
    if leader(record.view, n) != id || own_view(record, PROPOSAL) == Some(record.view) {
        return;
    }
    coverage.waited += 1;
    let suggests = kept_reports(record, SUGGEST).iter().flatten().count();
    coverage.none_safe += u64::from(suggests >= quorum);
}

// ---------------------------------------------------------------------------------------------
// The generator.

/// The settings of a started vault with the sizes that follow from them.
#[derive(Clone, Copy)]
struct Settled {
    n: u8,
    f: u8,
    id: u8,
    quorum: usize,
}

impl Settled {
    fn of(record: &Record) -> Settled {
        let settings = &record.settings;
        Settled {
            n: settings.n,
            f: settings.f,
            id: settings.id,
            quorum: usize::from(settings.n - settings.f),
        }
    }
}

/// A random script for one vault. The same seed gives the same script.
pub fn script(seed: u64) -> Vec<u8> {
    let mut writer =
        Writer { rng: Rng(seed), text: Vec::new(), vault: Driven::default(), plans: Vec::new() };
    writer.plans = plans(&mut writer.rng);
    writer.before_start();
    // Now and then nothing starts, and the input may even be empty.
    if !writer.rng.one_in(40) {
        writer.start();
        writer.moves();
    }
    writer.end();
    writer.text
}

/// Three or four plans, so that plans meet again; both ends of 64 bits are common.
pub(crate) fn plans(rng: &mut Rng) -> Vec<u64> {
    let mut all = vec![0, 1, 2, 3, u64::MAX, u64::MAX - 1, 1 << 63, rng.next()];
    shuffle(rng, &mut all);
    all.truncate(3 + rng.below(2) as usize);
    all
}

struct Writer {
    rng: Rng,
    text: Vec<u8>,
    vault: Driven,
    plans: Vec<u64>,
}

impl Writer {
    // ----- Lines out.

    fn text_line(&mut self, text: &[u8]) {
        self.text.extend_from_slice(text);
        self.text.push(b'\n');
        // A line feed inside the text would make it two lines.
        debug_assert!(!text.contains(&b'\n'));
        self.vault.apply(&read_line(text));
    }

    fn bytes_line(&mut self, bytes: &[u8]) {
        self.text_line(&to_hex(bytes));
    }

    fn frame(&mut self, kind: u8, sender: u8, view: u32, body: Body) {
        self.bytes_line(&frame::write(&Frame { kind, sender, view, body }));
    }

    fn timer(&mut self, view: u32) {
        let mut bytes = vec![9];
        bytes.extend(view.to_be_bytes());
        self.bytes_line(&bytes);
    }

    fn start_line(&mut self, settings: [u8; 4], plan: u64) {
        let mut bytes = vec![0];
        bytes.extend(settings);
        bytes.extend(plan.to_be_bytes());
        self.bytes_line(&bytes);
    }

    // ----- What is known of the vault.

    fn settled(&self) -> Settled {
        Settled::of(self.record())
    }

    fn record(&self) -> &Record {
        self.vault.record.as_deref().expect("started")
    }

    fn view(&self) -> u32 {
        self.record().view
    }

    fn plan(&mut self) -> u64 {
        self.rng.pick(&self.plans)
    }

    /// All vaults but this one, in random order.
    fn others(&mut self) -> Vec<u8> {
        let Settled { n, id, .. } = self.settled();
        let mut others: Vec<u8> = (0..n).filter(|&other| other != id).collect();
        shuffle(&mut self.rng, &mut others);
        others
    }

    fn other(&mut self) -> u8 {
        self.others()[0]
    }

    /// All vaults but this one, mostly without those whose frame would be refused as kept already.
    fn senders(&mut self, kind: u8, view: u32) -> Vec<u8> {
        let mut senders = self.others();
        if !self.rng.one_in(8) {
            let rows = &self.record().rows;
            let kept =
                |id: u8| rows[usize::from(id)][usize::from(kind - 1)].map(|frame| frame.view);
            senders.retain(|&id| kept(id).is_none_or(|kept| kept < view));
        }
        senders
    }

    /// How many views from this one on are led by others, before this vault leads.
    fn until_led(&self, view: u32) -> u32 {
        let Settled { n, id, .. } = self.settled();
        (u32::from(id) + u32::from(n) - view % u32::from(n)) % u32::from(n)
    }

    /// A view around the current one, or one from the ends of 32 bits.
    fn any_view(&mut self) -> u32 {
        let view = self.view();
        match self.rng.below(12) {
            0 => 0,
            1 => u32::MAX,
            2 => self.rng.next() as u32,
            3 => view.saturating_sub(1 + self.rng.below(3) as u32),
            4..=6 => view.saturating_add(1 + self.rng.below(4) as u32),
            _ => view,
        }
    }

    // ----- Before and at the start.

    fn before_start(&mut self) {
        while self.rng.one_in(2) {
            match self.rng.below(8) {
                0 => self.timer(0),
                1 => self.frame(VOTE_1, 1, 0, Body::Plan(7)),
                2 => self.odd_text(),
                3 => self.wrong_length(),
                4 => self.text_line(b""),
                _ => self.wrong_start(),
            }
        }
    }

    /// One or two settings out of range, so that the order of 5 to 8 matters.
    fn wrong_start(&mut self) {
        let mut settings = self.settings();
        for _ in 0..1 + self.rng.below(2) {
            let [n, _, _, _] = settings;
            match self.rng.below(5) {
                0 => settings[0] = self.rng.pick(&[0, 1, 3, 3, 65, 65, 128, 255]),
                1 => settings[1] = self.rng.pick(&[0, n.div_ceil(3), n, 22, 85, 86, 255]),
                2 => settings[2] = self.rng.pick(&[n, n.saturating_add(1), 64, 255]),
                // Three times f just reaches n, or is as little above it as it can be.
                3 => settings[..2].copy_from_slice(&self.rng.pick(&[
                    [6, 2],
                    [9, 3],
                    [12, 4],
                    [63, 21],
                    [64, 22],
                    [5, 2],
                ])),
                _ => settings[3] = self.rng.pick(&[8, 8, 9, 255]),
            }
        }
        let plan = self.plan();
        // Some of these pass after all; the script then goes on with that start.
        self.start_line(settings, plan);
    }

    fn settings(&mut self) -> [u8; 4] {
        let n = match self.rng.below(16) {
            0 => 64,
            1 => 4 + self.rng.below(61) as u8,
            2..=4 => 7,
            5 => self.rng.pick(&[5, 6, 8, 9, 10]),
            _ => 4,
        };
        let most = (n - 1) / 3;
        let f = if self.rng.one_in(6) { 1 + self.rng.below(u64::from(most)) as u8 } else { most };
        [n, f, self.rng.below(u64::from(n)) as u8, self.rng.below(8) as u8]
    }

    fn start(&mut self) {
        if self.vault.record.is_none() {
            let settings = self.settings();
            let plan = self.plan();
            self.start_line(settings, plan);
        }
    }

    // ----- Moves.

    fn moves(&mut self) {
        // A quorum of 64 vaults takes many lines, so such scripts get fewer moves.
        let moves =
            if self.settled().n > 16 { 6 + self.rng.below(6) } else { 10 + self.rng.below(30) };
        for _ in 0..moves {
            match self.rng.below(23) {
                0..=3 => self.whole_view(),
                4 | 5 => self.vote_round(),
                6 => self.some_view_changes(),
                7 => self.some_reports(),
                8 => self.any_proposal(),
                9 | 10 => self.any_timer(),
                11..=13 => self.any_frame(),
                14 | 15 => self.damaged(),
                16 => self.odd_text(),
                17 => self.wrong_length(),
                18 => self.again(),
                19 => self.damaged_reports(),
                20 | 21 => self.scattered_view_changes(),
                _ => self.text_line(b""),
            }
        }
    }

    /// Enters a view and goes through it as far as chance has it.
    fn whole_view(&mut self) {
        let next = self.next_view();
        if next > self.view() {
            self.enter(next);
        }
        let view = self.view();
        let Settled { n, id, .. } = self.settled();
        if view > 0 {
            let shape = Shape::draw(&mut self.rng, view, &self.plans);
            if leader(view, n) == id {
                self.reports(SUGGEST, view, &shape);
            }
            let proposal_first = self.rng.one_in(3);
            if proposal_first {
                self.proposal(view, shape.plan);
            }
            self.reports(PROOF, view, &shape);
            if !proposal_first {
                self.proposal(view, shape.plan);
            }
        } else {
            let plan = self.plan();
            self.proposal(view, plan);
        }
        self.votes_up_to(view);
    }

    /// The next views mostly; now and then one that this vault leads, or one of the last of all.
    fn next_view(&mut self) -> u32 {
        let view = self.view();
        match self.rng.below(48) {
            0 => u32::MAX - self.rng.below(6) as u32,
            1 => u32::MAX,
            2 => (1 << 31) - 2 + self.rng.below(4) as u32,
            3..=8 => view.saturating_add(1 + self.until_led(view.wrapping_add(1))),
            9..=14 => view.saturating_add(1 + self.rng.below(5) as u32),
            15..=17 => view,
            // The two-set clause wants at least three views below.
            18..=28 if view < 3 => 3 + self.rng.below(3) as u32,
            _ => view.saturating_add(1),
        }
    }

    /// The vault's own view-change counts too, once f + 1 others made it join. Now and then some ask
    /// for later views, which back this one as well.
    fn enter(&mut self, view: u32) {
        let needed = self.settled().quorum - usize::from(self.rng.one_in(2));
        let spread = self.rng.pick(&[1, 1, 1, 4]);
        for sender in self.senders(VIEW_CHANGE, view).into_iter().take(needed) {
            let asked = view.saturating_add(self.rng.below(spread) as u32);
            self.frame(VIEW_CHANGE, sender, asked, Body::Empty);
        }
    }

    /// Several vaults ask for several views at once, in any order, and the vault's own timer may
    /// expire in between; one afterwards repeats what the vault has asked for.
    fn scattered_view_changes(&mut self) {
        let others = self.others();
        let count = 1 + self.rng.below(others.len() as u64) as usize;
        let spread = 2 + self.rng.below(5);
        let timer = self.rng.below(2 * count as u64) as usize;
        for (turn, &sender) in others.iter().take(count).enumerate() {
            if turn == timer {
                self.own_timer();
            }
            let asked = self.view().saturating_add(1 + self.rng.below(spread) as u32);
            self.frame(VIEW_CHANGE, sender, asked, Body::Empty);
        }
        if self.rng.one_in(2) {
            self.own_timer();
        }
    }

    fn own_timer(&mut self) {
        let view = self.view();
        self.timer(view);
    }

    /// Few view-changes, enough to join or not; a timer afterwards repeats what was joined.
    fn some_view_changes(&mut self) {
        let view = self.view().saturating_add(1 + self.rng.below(3) as u32);
        let count = self.rng.below(u64::from(self.settled().f) + 3) as usize;
        for sender in self.senders(VIEW_CHANGE, view).into_iter().take(count) {
            self.frame(VIEW_CHANGE, sender, view, Body::Empty);
        }
        if self.rng.one_in(2) {
            self.own_timer();
        }
    }

    /// About a quorum of reporters, this vault's own report counted.
    fn reports(&mut self, kind: u8, view: u32, shape: &Shape) {
        let Settled { f, quorum, .. } = self.settled();
        let count = quorum - 1 + self.rng.below(u64::from(f) + 1) as usize;
        for (turn, sender) in self.senders(kind, view).into_iter().take(count).enumerate() {
            let reports = shape.reports(&mut self.rng, turn, view, &self.plans);
            self.frame(kind, sender, view, Body::Reports(reports));
        }
    }

    fn some_reports(&mut self) {
        let view = self.view().saturating_add(self.rng.below(2) as u32).max(1);
        let Settled { n, id, .. } = self.settled();
        // One suggest for a view led by another shows the refusal; more show nothing new.
        let leads = leader(view, n) == id || self.rng.one_in(16);
        let kind = if leads { self.rng.pick(&[SUGGEST, PROOF]) } else { PROOF };
        let shape = Shape::draw(&mut self.rng, view, &self.plans);
        self.reports(kind, view, &shape);
    }

    fn proposal(&mut self, view: u32, wanted: u64) {
        let plan = if chance(&mut self.rng, 3, 4) { wanted } else { self.plan() };
        let Settled { n, id, .. } = self.settled();
        if leader(view, n) != id {
            self.frame(PROPOSAL, leader(view, n), view, Body::Plan(plan));
        }
    }

    fn any_proposal(&mut self) {
        let view = self.any_view();
        let plan = self.plan();
        self.proposal(view, plan);
    }

    /// Votes for one plan, kind after kind, as far as chance has it.
    fn votes_up_to(&mut self, view: u32) {
        let kept = self.record().rows[usize::from(leader(view, self.settled().n))][0];
        let plan = match kept.map(|frame| (frame.view == view, frame.body)) {
            Some((true, Body::Plan(plan))) if chance(&mut self.rng, 7, 8) => plan,
            _ => self.plan(),
        };
        for kind in VOTE_1..=VOTE_4 {
            if self.rng.one_in(6) {
                return;
            }
            // Now and then one kind is left out; the later ones must act all the same.
            if !self.rng.one_in(6) {
                self.votes(kind, view, plan);
            }
        }
    }

    /// Around a quorum of votes: one too few, just enough, or more. Now and then one is astray.
    fn votes(&mut self, kind: u8, view: u32, plan: u64) {
        let quorum = self.settled().quorum;
        let count = quorum - 1 + self.rng.below(2) as usize - usize::from(self.rng.one_in(6));
        let astray = self.rng.one_in(5).then(|| self.rng.below(quorum as u64) as usize);
        let repeated = self.rng.one_in(4).then(|| self.rng.below(quorum as u64) as usize);
        for (turn, sender) in self.senders(kind, view).into_iter().take(count).enumerate() {
            let plan = if astray == Some(turn) { self.plan() } else { plan };
            self.frame(kind, sender, view, Body::Plan(plan));
            // A repeat must not count as another voter.
            if repeated == Some(turn) {
                self.frame(kind, sender, view, Body::Plan(plan));
            }
        }
    }

    fn vote_round(&mut self) {
        let kind = VOTE_1 + self.rng.below(4) as u8;
        let view = if self.rng.one_in(4) { self.any_view() } else { self.view() };
        let plan = self.plan();
        self.votes(kind, view, plan);
    }

    fn any_timer(&mut self) {
        let view = if self.rng.one_in(3) { self.any_view() } else { self.view() };
        self.timer(view);
        // A second timer in the same view repeats the view-change.
        if self.rng.one_in(3) {
            self.timer(view);
        }
    }

    fn any_frame(&mut self) {
        let frame = self.draw_frame();
        self.bytes_line(&frame::write(&frame));
    }

    /// Any frame of another vault, right in form more often than not.
    fn draw_frame(&mut self) -> Frame {
        let Settled { n, id, .. } = self.settled();
        let kind = 1 + self.rng.below(8) as u8;
        let view = self.any_view();
        let body = match kind {
            VIEW_CHANGE => Body::Empty,
            SUGGEST | PROOF => {
                Body::Reports(false_reports(&mut self.rng, view, self.plans[0], &self.plans))
            }
            _ => Body::Plan(self.plan()),
        };
        let led = leader(view, n);
        let sender =
            if kind == PROPOSAL && led != id && !self.rng.one_in(8) { led } else { self.other() };
        Frame { kind, sender, view, body }
    }

    /// A start on a record that is not blank.
    fn again(&mut self) {
        if self.rng.one_in(2) {
            return self.wrong_start();
        }
        let settings = self.settings();
        let plan = self.plan();
        self.start_line(settings, plan);
    }

    // ----- Damage.

    /// One frame with one or two faults in its bytes, so that the order of 9 to 15, with 21 and 22
    /// before 15, matters.
    fn damaged(&mut self) {
        let mut frame = self.draw_frame();
        // Frames that would pass otherwise show best what the damage does.
        frame.view = if self.rng.one_in(2) { self.view().max(1) } else { frame.view.max(1) };
        if matches!(frame.body, Body::Reports(_)) {
            frame.body =
                Body::Reports(false_reports(&mut self.rng, frame.view, self.plans[0], &self.plans));
        }
        let mut bytes = frame::write(&frame);
        for _ in 0..1 + self.rng.below(2) {
            self.damage(&mut bytes);
        }
        bytes.truncate(MOST_DIGITS / 2);
        // A damaged kind may turn the line into a start or a timer; that is a case of its own.
        self.bytes_line(&bytes);
    }

    /// Suggests and proofs that are right but for the faults in their reports.
    fn damaged_reports(&mut self) {
        let wanted = wanted_faults();
        for _ in 0..DAMAGED_AT_ONCE {
            let carrier = self.rng.pick(&Carrier::ALL);
            let faults = &wanted[self.rng.below(wanted.len() as u64) as usize];
            let bytes = self.faulty_reports(carrier, faults);
            self.bytes_line(&bytes);
        }
    }

    /// A frame whose reports have these faults and no others, drawn until it is found. Not every
    /// view has room for all of them, so in the end any faults will do.
    fn faulty_reports(&mut self, carrier: Carrier, faults: &[ReportFault]) -> Vec<u8> {
        let (kind, sender) = (carrier.kind(), self.other());
        let mut bytes = Vec::new();
        for _ in 0..20 {
            let view = self.report_view(carrier);
            let reports = false_reports(&mut self.rng, view, self.plans[0], &self.plans);
            let frame = Frame::with_reports(kind, sender, view, reports);
            bytes = spoiled(&mut self.rng, &frame, faults);
            if faults_of(&bytes) == faults {
                break;
            }
        }
        bytes
    }

    /// A view for such a frame, mostly one in which it would be kept; led by this vault or not.
    fn report_view(&mut self, carrier: Carrier) -> u32 {
        let near = self.view().saturating_add(self.rng.below(3) as u32);
        let view = if self.rng.one_in(4) { self.any_view() } else { near }.max(1);
        let n = u32::from(self.settled().n);
        let until_led = self.until_led(view);
        match carrier {
            // Near the last view of all there may be none ahead that it leads.
            Carrier::Suggest => {
                view.checked_add(until_led).unwrap_or_else(|| view - (n - until_led))
            }
            Carrier::StraySuggest if until_led == 0 => view.checked_add(1).unwrap_or(view - 1),
            Carrier::StraySuggest | Carrier::Proof => view,
        }
    }

    fn damage(&mut self, bytes: &mut Vec<u8>) {
        if bytes.len() < 6 {
            return;
        }
        if bytes.len() == 45 && self.rng.one_in(2) {
            return self.damage_report(bytes);
        }
        let Settled { n, id, .. } = self.settled();
        match self.rng.below(7) {
            0 => bytes[0] = self.rng.pick(&[0, 9, 10, 11, 16, 128, 253, 255]),
            1 => bytes[0] = 1 + self.rng.below(8) as u8,
            2 => bytes[1] = self.rng.pick(&[id, n, n + 1, 64, 254, 255]),
            3 => bytes[2..6].fill(0),
            4 => {
                let cut = self.rng.below(bytes.len() as u64) as usize;
                bytes.truncate(cut);
            }
            5 => bytes.push(self.rng.next() as u8),
            _ => {
                let at = self.rng.below(bytes.len() as u64) as usize;
                bytes[at] ^= 1 << self.rng.below(8);
            }
        }
    }

    /// One fault of any kind, in a frame with reports.
    fn damage_report(&mut self, bytes: &mut [u8]) {
        let fault = self.rng.pick(&ReportFault::ALL);
        spoil(&mut self.rng, bytes, fault);
    }

    // ----- Lines that are no frames.

    fn odd_text(&mut self) {
        let mut text = to_hex(&[2, 1, 0, 0, 0, 0, 0, 0, 0, 0, 0, 0, 0xab, 0xcd]);
        match self.rng.below(9) {
            // An odd count of digits.
            0 => text.truncate(1 + 2 * self.rng.below(14) as usize),
            // Upper case.
            1 => text.make_ascii_uppercase(),
            // No digit at all in one place, first or second of its pair.
            2 => {
                let at = self.rng.below(text.len() as u64) as usize;
                text[at] = self.rng.pick(b"gG/:@`x .-\t\0\x7f\x80\xff");
            }
            3 => text.push(b'\r'),
            4 => text = b"\r".to_vec(),
            // Over-long by one digit, by one byte, or by far.
            5 => text = vec![b'0'; self.rng.pick(&[91, 92, 93, 180, 256, 300, 5000])],
            // The longest line that is still read.
            6 => text = to_hex(&[1 + self.rng.below(8) as u8; 45]),
            7 => text = b"0x0201".to_vec(),
            // Two digits of one letter case each.
            _ => text = b"fF".to_vec(),
        }
        self.text_line(&text);
    }

    fn wrong_length(&mut self) {
        let kind = self.rng.pick(&[0, 9]);
        let length = match kind {
            0 => self.rng.pick(&[1, 2, 5, 12, 14, 45]),
            _ => self.rng.pick(&[1, 4, 6, 13, 45]),
        };
        let mut bytes = vec![0; length];
        self.rng.fill(&mut bytes);
        bytes[0] = kind;
        self.bytes_line(&bytes);
    }

    /// The input's end: with a newline, without one, inside a line, or after a carriage return.
    fn end(&mut self) {
        match self.rng.below(8) {
            0 | 1 => {
                self.text.pop();
            }
            2 => self.text.extend_from_slice(b"0"),
            3 => self.text.extend_from_slice(b"\r"),
            4 => self.text.extend_from_slice(b"\n\n"),
            5 => self.text.extend_from_slice(b"0900000000\r\n"),
            _ => {}
        }
    }
}

// ---------------------------------------------------------------------------------------------
// Faults in reports.

/// The bytes of a frame with reports, with these faults brought into them.
pub(crate) fn spoiled(rng: &mut Rng, frame: &Frame, faults: &[ReportFault]) -> Vec<u8> {
    let mut bytes = frame::write(frame);
    // The ways of 22 may bring other views and marks, so they come first.
    for &fault in faults.iter().rev() {
        spoil(rng, &mut bytes, fault);
    }
    bytes
}

/// Brings a fault into a frame with reports.
fn spoil(rng: &mut Rng, bytes: &mut [u8], fault: ReportFault) {
    let (highest, previous) = (Place::Highest.start(), Place::Previous.start());
    match fault {
        ReportFault::Mark(place) => bytes[place.start()] = rng.pick(&[2, 128, 255]),
        ReportFault::Nonzero(place) => {
            let at = place.start();
            bytes[at..at + 13].fill(0);
            bytes[at + 1 + rng.below(12) as usize] = 1 << rng.below(8);
        }
        ReportFault::View(place) => raise(rng, bytes, place.start()),
        ReportFault::WithoutHighest => {
            bytes[previous] = 1;
            bytes[highest..highest + 13].fill(0);
        }
        ReportFault::NotBelow => lift_previous(rng, bytes),
        // A previous vote that is there already keeps its view.
        ReportFault::SamePlan => {
            bytes[highest] = 1;
            bytes[previous] = 1;
            bytes.copy_within(highest + 5..highest + 13, previous + 5);
        }
    }
}

/// A report of the frame's own view or of a higher one.
fn raise(rng: &mut Rng, bytes: &mut [u8], at: usize) {
    let ahead = rng.pick(&[0, 0, 0, 1, 2, u32::MAX]);
    let view = frame::number4(&bytes[2..6]).saturating_add(ahead);
    bytes[at] = 1;
    bytes[at + 1..at + 5].copy_from_slice(&view.to_be_bytes());
}

/// A previous vote at the highest one's view, or the views of the two exchanged.
fn lift_previous(rng: &mut Rng, bytes: &mut [u8]) {
    let (highest, previous) = (Place::Highest.start(), Place::Previous.start());
    if bytes[previous] == 0 {
        bytes[previous + 12] = !bytes[highest + 12];
    } else if rng.one_in(2) {
        let (one, other) = bytes.split_at_mut(previous);
        one[highest + 1..highest + 5].swap_with_slice(&mut other[1..5]);
        return;
    }
    bytes[highest] = 1;
    bytes[previous] = 1;
    bytes.copy_within(highest + 1..highest + 5, previous + 1);
}

// ---------------------------------------------------------------------------------------------
// Reports that belong together.

/// What the reporters of one view say between them.
struct Shape {
    /// The plan that the reports are made for.
    plan: u64,
    /// The view of the lock on that plan, and the two views of the two-set clause.
    lock_at: u32,
    first: Report,
    second: Report,
    form: Form,
}

#[derive(Clone, Copy, PartialEq, Eq)]
enum Form {
    /// No lock anywhere.
    Fresh,
    /// Locks on the plan, and votes for it.
    OneSet,
    /// Locks on the plan, and votes for two others.
    TwoSets,
    /// Locks on the plan with votes for it, and later votes for another: both plans are safe.
    Choice,
    /// Locks on two plans.
    Split,
    Any,
}

impl Shape {
    fn draw(rng: &mut Rng, view: u32, plans: &[u64]) -> Shape {
        let mut plans = plans.to_vec();
        shuffle(rng, &mut plans);
        let form = rng.pick(&[
            Form::Fresh,
            Form::OneSet,
            Form::OneSet,
            Form::TwoSets,
            Form::TwoSets,
            Form::Choice,
            Form::Split,
            Form::Any,
        ]);
        // lock_at <= first < second < view, where the view leaves room for them; now and then
        // first = second, which the two-set clause must not take.
        let second = back(rng, view, 1);
        let first = if rng.one_in(5) { second } else { back(rng, second, 1) };
        let lock_at = back(rng, first, 0);
        Shape {
            plan: plans[0],
            lock_at,
            first: Report { view: first, plan: plans[1] },
            second: Report { view: second, plan: plans[2] },
            form,
        }
    }

    /// What the reporter whose turn it is says.
    fn reports(&self, rng: &mut Rng, turn: usize, view: u32, plans: &[u64]) -> Reports {
        let lock = Report { view: self.lock_at, plan: self.plan };
        match self.form {
            Form::Fresh => {
                let highest = below(rng, view, plans);
                [rng.one_in(2).then_some(highest), None, None]
            }
            Form::OneSet => {
                let claim = Report { view: between(rng, self.lock_at, view), plan: self.plan };
                let highest = rng.pick(&[claim, claim, self.first]);
                [Some(highest), lower_report(rng, highest, plans), self.some_lock(rng, lock)]
            }
            Form::TwoSets if self.lock_at > 0 => {
                let (highest, previous) = self.two_votes(rng, turn, self.first);
                [Some(highest), previous, self.some_lock(rng, lock)]
            }
            Form::Choice => {
                let (highest, previous) = self.two_votes(rng, turn, lock);
                [Some(highest), previous, Some(lock).filter(|_| chance(rng, 3, 4))]
            }
            Form::Split => {
                let other = Report { view: self.first.view, plan: self.first.plan };
                let lock = rng.pick(&[lock, other]);
                [Some(lock), lower_report(rng, lock, plans), Some(lock)]
            }
            _ => false_reports(rng, view, self.plan, plans),
        }
    }

    /// A lower and the second vote by turns. Four vaults are too few for two whole sets, so one of
    /// them reports both; it claims any plan at the lower view, so there must be few such.
    fn two_votes(&self, rng: &mut Rng, turn: usize, lower: Report) -> (Report, Option<Report>) {
        let turn = if rng.one_in(6) { rng.below(3) as usize } else { turn };
        let both = turn == 2 && lower.view < self.second.view && !rng.one_in(3);
        match turn % 2 {
            _ if both => (self.second, Some(lower)),
            0 => (lower, None),
            _ => (self.second, None),
        }
    }

    /// The lock, none, or now and then one at a lower view for another plan.
    fn some_lock(&self, rng: &mut Rng, lock: Report) -> Option<Report> {
        match rng.below(6) {
            0 if lock.view > 0 => {
                Some(Report { view: back(rng, lock.view, 1), plan: self.first.plan })
            }
            1 | 2 => None,
            _ => Some(lock),
        }
    }
}

/// A view a little below this one, by `least` or more where there is room.
fn back(rng: &mut Rng, view: u32, least: u32) -> u32 {
    view.saturating_sub(least + rng.pick(&[0, 0, 0, 1, 2]))
}

/// A view from the first to just below the second.
fn between(rng: &mut Rng, low: u32, view: u32) -> u32 {
    low + rng.below(u64::from(view - low).clamp(1, 4)) as u32
}
