//! What a round's process leaves behind, however it ends: its counts, what it was about to do, and what it said last.
use std::sync::atomic::{AtomicPtr, Ordering};

use reference::cuts::Item;

use crate::compared::{add_each, Seen};
use crate::lists::Named;
use crate::pages::{self, Edge};
use crate::reaches::Reached;
use crate::sides::Call;
use crate::text::words_of;

/// Lines of a script beyond this are not kept.
const MOST_NOTED: usize = 64 << 20;
const MOST_SAID: usize = 4096;
/// A call's words and its record.
const MOST_CALLED: usize = 1 << 16;

#[repr(C)]
pub struct Counts {
    pub seen: Seen,
    pub scripts: u64,
    pub lines: u64,
    /// Scripts of the rehearsal, their lines, and the decisions of vaults that were not declared then.
    pub rehearsals: u64,
    pub rehearsed: u64,
    pub rehearsed_decisions: u64,
    /// Lists of records, the records in them, the lists that are refused, and the vaults named.
    pub lists: u64,
    pub listed: u64,
    pub lists_refused: u64,
    pub names: u64,
    /// Questions of how high a claim reaches, those answered with a view above 0, and those refused.
    pub reaches: u64,
    pub reaches_above: u64,
    pub reaches_refused: u64,
    /// Networks with power cuts, the items in them, the cuts, the restarts accepted and refused, and decisions.
    pub cut_runs: u64,
    pub cut_items: u64,
    pub cuts: u64,
    pub restarts: u64,
    pub restarts_refused: u64,
    pub cut_decisions: u64,
    /// By n: runs, those in which some vault decided, those in which all that were started did, and decisions.
    pub runs: [u64; 65],
    pub some_decided: [u64; 65],
    pub all_decided: [u64; 65],
    pub decisions: [u64; 65],
    /// What made a proposal safe: view 0, no lock, one set, two sets.
    pub clauses: [u64; 4],
}

impl Counts {
    pub fn add_scripts(&mut self, covered: &reference::scripts::Coverage) {
        self.scripts += covered.scripts;
        self.lines += covered.lines;
        add_each(&mut self.seen.steps, &covered.steps);
        add_each(&mut self.seen.refusals, &covered.refusals);
        add_each(&mut self.clauses, &[covered.view_zero, covered.no_lock, covered.one_set, covered.two_sets]);
    }

    pub fn add_rehearsal(&mut self, covered: &reference::rehearsals::Coverage) {
        self.rehearsals += covered.scripts;
        self.rehearsed += covered.lines;
        let decisions = covered.met.iter().filter(|(name, _)| name.starts_with("decision in "));
        self.rehearsed_decisions += decisions.map(|(_, count)| count).sum::<u64>();
    }

    pub fn add_list(&mut self, records: usize, named: &Named) {
        self.lists += 1;
        self.listed += records as u64;
        match named {
            Ok(names) => self.names += names.len() as u64,
            Err(_) => self.lists_refused += 1,
        }
    }

    pub fn add_reach(&mut self, answer: Reached) {
        self.reaches += 1;
        self.reaches_above += u64::from(answer.is_ok_and(|view| view > 0));
        self.reaches_refused += u64::from(answer.is_err());
    }

    pub fn add_item(&mut self, item: &Item, accepted: bool) {
        self.cut_items += 1;
        match item {
            Item::Cut { .. } | Item::CallCut { .. } => self.cuts += 1,
            Item::Restart { .. } if accepted => self.restarts += 1,
            Item::Restart { .. } => self.restarts_refused += 1,
            Item::Made { .. } | Item::Write { .. } => {}
        }
    }
}

#[repr(C)]
struct Text<const MOST: usize> {
    len: usize,
    bytes: [u8; MOST],
}

impl<const MOST: usize> Text<MOST> {
    fn bytes(&self) -> &[u8] {
        &self.bytes[..self.len]
    }

    fn push(&mut self, bytes: &[u8]) {
        let count = bytes.len().min(MOST - self.len);
        self.bytes[self.len..][..count].copy_from_slice(&bytes[..count]);
        self.len += count;
    }
}

#[repr(C)]
struct Stage {
    counts: Counts,
    said: Text<MOST_SAID>,
    called: Text<MOST_CALLED>,
    noted: Text<MOST_NOTED>,
}

static STAGE: AtomicPtr<Stage> = AtomicPtr::new(std::ptr::null_mut());

/// The stage, where there is one: tests that compare calls have none.
fn stage() -> Option<&'static mut Stage> {
    // SAFETY: all zeros is a stage; a soak has one thread, and its process waits while a round's runs.
    unsafe { STAGE.load(Ordering::Relaxed).as_mut() }
}

/// Once, before the first round. From then on a panic's words are kept, and not printed.
pub fn set_up() {
    STAGE.store(pages::shared(), Ordering::Relaxed);
    std::panic::set_hook(Box::new(|panic| {
        let words = panic.payload_as_str().unwrap_or("a panic without words");
        let place = panic.location().map_or(String::new(), |place| format!(" ({}:{})", place.file(), place.line()));
        if let Some(stage) = stage() {
            stage.said.push(words.as_bytes());
            stage.said.push(place.as_bytes());
        }
    }));
}

pub fn counts() -> &'static mut Counts {
    &mut stage().expect("set up").counts
}

/// A new script begins with these bytes.
pub fn begin(bytes: &[u8]) {
    if let Some(stage) = stage() {
        (stage.said.len, stage.called.len, stage.noted.len) = (0, 0, 0);
        stage.noted.push(bytes);
    }
}

/// The call that is made next: a line with its edge, the output's length and first byte, the record's length and the call; then the record.
pub fn calling(edge: Edge, rec: &[u8], call: &Call, out: &[u8]) {
    if let Some(stage) = stage() {
        let head = format!("call {edge:?} {} {} {} {}\n", out.len(), out.first().unwrap_or(&0), rec.len(), words_of(call));
        stage.called.len = 0;
        stage.called.push(head.as_bytes());
        stage.called.push(rec);
    }
}

/// More of the script, before it is done.
pub fn note(bytes: &[u8]) {
    stage().into_iter().for_each(|stage| stage.noted.push(bytes));
}

pub fn noted() -> Vec<u8> {
    stage().expect("set up").noted.bytes().to_vec()
}

pub fn called() -> Vec<u8> {
    stage().expect("set up").called.bytes().to_vec()
}

pub fn said() -> String {
    String::from_utf8_lossy(stage().expect("set up").said.bytes()).into_owned()
}
