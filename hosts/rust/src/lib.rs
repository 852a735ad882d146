//! A TetraBFT vault for Rust hosts: a safe wrapper over the proved library `libvault_c.a`.
//!
//! A [`Vault`] holds one vault's [`Record`] and the entries that its calls wrote: frames to send, timers to set, and the decision. They are
//! handed out by [`Vault::store_remnant`], since the vault's [`Remnant`] must be on stable storage before anything is sent: a vault that comes
//! back ([`Vault::restart`]) with an older one could vote twice. [`Vault::store`] is for a host that stores the whole record in its place.
//!
//! ```
//! use std::time::Duration;
//! use vault::{Entry, Kind, Record, Refusal, Remnant, Settings, Vault};
//!
//! # fn on_disk(_: &Remnant) -> std::io::Result<()> { Ok(()) }
//! # fn main() -> Result<(), Box<dyn std::error::Error>> {
//! // Vault 0 of 4, of which one may lie; link class 2 is for a delay of 100 ms. It would have plan 700.
//! let mut vault = Vault::new(Record::blank());
//! vault.start(Settings { n: 4, f: 1, id: 0, class: 2 }, 700)?;
//!
//! // `on_disk` writes the bytes of the remnant, and returns once they are safe: `Vault::restart` has one.
//! let mut frames = Vec::new();
//! for entry in vault.store_remnant(on_disk)? {
//!     match entry {
//!         Entry::Timer { view, after } => assert_eq!((view, after), (0, Duration::from_millis(900))),
//!         Entry::All(frame) => frames.push(frame),
//!         Entry::To(_, _) | Entry::Decision(_) => unreachable!("not at a start"),
//!     }
//! }
//! // It leads view 0, so it proposes its plan, and votes for it.
//! assert_eq!(frames.iter().map(|frame| frame.kind()).collect::<Vec<_>>(), [Kind::Proposal, Kind::Vote1]);
//!
//! // A frame comes with the sender that the link stands for. A refusal changes nothing, and most are harmless.
//! assert_eq!(vault.frame(1, &frames[1]), Err(Refusal::Sender));
//! # Ok(())
//! # }
//! ```
//!
//! # A host's duty
//!
//! - **Store**, then send. A power cut must leave the old remnant or the new one: write a new file, sync it, and rename it over the old one.
//!   Frames that others sent need not be stored.
//! - **Send** each frame as it is. Tell [`Vault::frame`] the sender that the link stands for, and not a byte of the frame.
//! - **Repeat**: the vault writes each frame once. Over a link that may lose frames, keep the latest frame of each kind with its recipient, and
//!   send it again once a delay until its view ([`Frame::view`]) is below the current one. By itself only a view-change is repeated, by
//!   [`Vault::timer`]. A frame that comes again is refused ([`Refusal::Over`], [`Refusal::Kept`]) and does no harm. After a power cut the frames
//!   to repeat are gone, and those that others sent: they repeat theirs, the timer goes on, and the next view brings new ones.
//! - **Timer**: an [`Entry::Timer`] replaces the timer of any earlier view. When it runs out call [`Vault::timer`] with its view, and again after
//!   the same time for as long as the view lasts, also after the decision.
//! - **Restart** with the stored remnant ([`Vault::restart`]): set its timer, and act on its decision ([`Record::decision`]), which may have been
//!   stored just before the power failed. [`Record::blank`] is for a vault of which nothing was ever stored: never take it in place of a file that
//!   is missing or empty. A host that stores the whole record takes that again ([`Vault::new`]), and sets the timer of its view
//!   ([`Record::current`]).
//!
//! # What is needed
//!
//! Linux on x86-64, and the archive: `bash scripts/build vault_c` at the repository's top writes it where this crate looks for it; an installed one is
//! named by its folder in the variable `VAULT_LIB_DIR`. A call needs less than 16 KB of stack, and allocates nothing.
#![warn(missing_docs)]

mod entry;
mod refusal;
mod sys;

use std::convert::Infallible;
use std::time::Duration;

pub use entry::{Entries, Entry, Frame, Kind};
pub use refusal::Refusal;

/// The bytes of a record.
pub const RECORD_SIZE: usize = 11_703;
/// The bytes of a remnant.
pub const REMNANT_SIZE: usize = 237;
/// The bytes of the three reports of a suggest or proof.
pub const REPORTS_SIZE: usize = 39;
/// No frame is longer.
pub const LONGEST_FRAME: usize = 45;
/// The bytes of output that a call is lent.
const OUTPUT_SIZE: usize = 256;
/// The answer of an accepted call, less the bytes written.
const ACCEPTED: u32 = 256;
/// The answer where a record has a decision.
const DECIDED: u32 = ACCEPTED + 1;
/// Records and frames of another major version are not understood.
const MAJOR: u32 = 1;

/// The archive's version: major * 10000 + minor * 100 + patch.
pub fn version() -> u32 {
    sys::version()
}

fn refusal(answer: u32) -> Refusal {
    Refusal::from_number(answer).expect("an answer is a refusal or 256 and more")
}

/// The view that a vault is in, and how long its timer takes.
#[derive(Debug, Clone, Copy, PartialEq, Eq)]
pub struct Current {
    /// The view: what [`Vault::timer`] is to be told.
    pub view: u32,
    /// Nine delays of the link class.
    pub after: Duration,
}

/// What the vaults have agreed.
#[derive(Debug, Clone, Copy, PartialEq, Eq)]
pub struct Decision {
    /// The view in which the plan was agreed.
    pub view: u32,
    /// The plan.
    pub plan: u64,
}

/// All that a vault keeps. Its [`Remnant`] is what must be stored.
#[derive(Clone, PartialEq, Eq)]
pub struct Record(Box<[u8; RECORD_SIZE]>);

impl Record {
    /// The record of a vault that was never started.
    pub fn blank() -> Record {
        Record(Box::new([0; RECORD_SIZE]))
    }

    /// Its bytes, for a desk that asks for them, or to be stored whole.
    pub fn as_bytes(&self) -> &[u8; RECORD_SIZE] {
        &self.0
    }

    /// What must be stored of it. Refusals: `Blank` and `Unsound`.
    pub fn remnant(&self) -> Result<Remnant, Refusal> {
        let mut bytes = [0; REMNANT_SIZE];
        let answer = sys::write_remnant(&self.0[..], &mut bytes);
        if answer >= ACCEPTED {
            Ok(Remnant(bytes))
        } else {
            Err(refusal(answer))
        }
    }

    /// The current view, and its timer: what a host that comes back with a whole record sets again. Refusals: `Blank` and `Unsound`.
    pub fn current(&self) -> Result<Current, Refusal> {
        let mut out = [0; 2];
        match sys::current(&self.0[..], &mut out) {
            ACCEPTED => Ok(Current { view: out[0], after: Duration::from_millis(out[1].into()) }),
            answer => Err(refusal(answer)),
        }
    }

    /// The decision, where there is one. Refusals: `Blank` and `Unsound`.
    pub fn decision(&self) -> Result<Option<Decision>, Refusal> {
        let mut out = [0; 2];
        match sys::decision(&self.0[..], &mut out) {
            ACCEPTED => Ok(None),
            DECIDED => Ok(Some(Decision { view: out[0] as u32, plan: out[1] })),
            answer => Err(refusal(answer)),
        }
    }
}

impl AsRef<[u8]> for Record {
    fn as_ref(&self) -> &[u8] {
        &self.0[..]
    }
}

impl From<[u8; RECORD_SIZE]> for Record {
    fn from(bytes: [u8; RECORD_SIZE]) -> Record {
        Record(Box::new(bytes))
    }
}

/// Stored bytes. They must be as many as a record has; whether they are a sound record is told by the first call.
impl TryFrom<&[u8]> for Record {
    type Error = std::array::TryFromSliceError;

    fn try_from(bytes: &[u8]) -> Result<Record, Self::Error> {
        <[u8; RECORD_SIZE]>::try_from(bytes).map(Record::from)
    }
}

impl std::fmt::Debug for Record {
    fn fmt(&self, f: &mut std::fmt::Formatter<'_>) -> std::fmt::Result {
        f.debug_struct("Record").finish_non_exhaustive()
    }
}

/// What a vault must not lose: its settings, starting plan and current view, what it said itself, and its decision. A host stores it, and
/// comes back with it ([`Vault::restart`]).
#[derive(Clone, PartialEq, Eq)]
pub struct Remnant([u8; REMNANT_SIZE]);

impl Remnant {
    /// What is to be stored.
    pub fn as_bytes(&self) -> &[u8; REMNANT_SIZE] {
        &self.0
    }
}

impl AsRef<[u8]> for Remnant {
    fn as_ref(&self) -> &[u8] {
        &self.0
    }
}

/// Stored bytes. Whether they make a sound record is told by [`Vault::restart`].
impl From<[u8; REMNANT_SIZE]> for Remnant {
    fn from(bytes: [u8; REMNANT_SIZE]) -> Remnant {
        Remnant(bytes)
    }
}

impl std::fmt::Debug for Remnant {
    fn fmt(&self, f: &mut std::fmt::Formatter<'_>) -> std::fmt::Result {
        f.debug_struct("Remnant").finish_non_exhaustive()
    }
}

/// For the desk: the vaults that spoke twice, by rising number. Each of them has, in its row of two of the records, votes of one kind and one
/// view for different plans, and nobody who has is missed. The records are those of one agreement, 2 to 64 of them, of any of its vaults and of any
/// moments, in any order; bytes of any length may be given. Refusal: `Records`.
///
/// ```
/// use vault::{equivocators, Record, Settings, Vault};
///
/// // Vault 1 told vault 0 that it votes for plan 7, and vault 3 that it votes for plan 8.
/// let heard = |id, plan: u8| -> Result<Record, vault::Refusal> {
///     let mut vault = Vault::new(Record::blank());
///     vault.start(Settings { n: 4, f: 1, id, class: 0 }, 7)?;
///     vault.frame(1, &[2, 1, 0, 0, 0, 0, 0, 0, 0, 0, 0, 0, 0, plan])?;
///     Ok(vault.record().clone())
/// };
/// assert_eq!(equivocators(&[heard(0, 7)?, heard(3, 8)?])?, [1]);
/// # Ok::<(), vault::Refusal>(())
/// ```
pub fn equivocators(records: &[impl AsRef<[u8]>]) -> Result<Vec<u8>, Refusal> {
    let bytes: Vec<u8> = records.iter().flat_map(|record| record.as_ref()).copied().collect();
    // A length that does not fit is no record's: it is refused either way.
    let lengths: Vec<u32> = records.iter().map(|record| u32::try_from(record.as_ref().len()).unwrap_or(u32::MAX)).collect();
    let mut output = [0; OUTPUT_SIZE];
    let answer = sys::equivocators(&bytes, &lengths, &mut output);
    match answer.checked_sub(ACCEPTED) {
        Some(count) => Ok(output[..count as usize].to_vec()),
        None => Err(refusal(answer)),
    }
}

/// For the desk: how high a claim reaches, the highest view at which the sender of a suggest or proof claims a plan. The reports are the frame's
/// bytes from 6 on, [`Frame::reports`]: highest, previous, lock. It is the highest vote's view if that vote is for the plan, else the previous
/// vote's view, else 0; the plan is claimed at every view up to that one, and at no later one. Refusals: `Length`, then `Report`, then `Previous`.
///
/// ```
/// // Highest vote in view 4 for plan 5, previous in view 2 for plan 6, and no lock.
/// let vote = |view, plan| [1, 0, 0, 0, view, 0, 0, 0, 0, 0, 0, 0, plan];
/// let reports = [vote(4, 5), vote(2, 6), [0; 13]].concat();
/// assert_eq!(vault::claim_reach(&reports, 5), Ok(4));
/// assert_eq!(vault::claim_reach(&reports, 8), Ok(2));
/// assert_eq!(vault::claim_reach(&reports[1..], 5), Err(vault::Refusal::Length));
/// ```
pub fn claim_reach(reports: &[u8], plan: u64) -> Result<u32, Refusal> {
    let answer = sys::claim_reach(reports, plan);
    match answer.checked_sub(u64::from(ACCEPTED)) {
        Some(view) => Ok(u32::try_from(view).expect("a view has 32 bits")),
        None => Err(refusal(answer as u32)),
    }
}

/// What a vault is started with. All vaults of one agreement have the same `n` and `f`.
#[derive(Debug, Clone, Copy, PartialEq, Eq)]
pub struct Settings {
    /// How many vaults there are: 4 to 64.
    pub n: u8,
    /// How many of them may lie: at least 1, and 3f below n.
    pub f: u8,
    /// This vault's number: 0 to n - 1.
    pub id: u8,
    /// The link class, 0 to 7, for a delay of 20, 50, 100, 200, 500, 1000, 2000 or 5000 milliseconds. A timer is nine delays.
    pub class: u8,
}

/// A vault: its record, and the entries of its accepted calls that wait until it is stored.
#[derive(Debug, Clone)]
pub struct Vault {
    record: Record,
    waiting: Vec<u8>,
    changed: bool,
}

impl Vault {
    /// A vault with a blank record before its first start, or with the whole record that was stored last.
    ///
    /// # Panics
    /// Where the archive is of another major version than this crate.
    pub fn new(record: Record) -> Vault {
        let library = (version() / 10_000, sys::record_size(), sys::remnant_size());
        assert_eq!(library, (MAJOR, RECORD_SIZE, REMNANT_SIZE), "libvault_c.a is of another version than this crate");
        Vault { record, waiting: Vec::new(), changed: false }
    }

    /// A vault that comes back after a power cut, at any moment and any number of times, and the timer to set. `remnant` is what was stored last: an
    /// older one, or another vault's, cannot be told by the library, and the vault would count as a liar.
    ///
    /// The vault goes on with its own votes and without the others' frames, and has nothing to store or send. A decision that was stored is not
    /// handed out again: [`Record::decision`] tells it.
    ///
    /// Refusals: `RemnantLength` and `RemnantUnsound`. The vault must not be started anew then: restore what it stored.
    ///
    /// ```
    /// use std::fs::{self, File};
    /// use std::io::{self, Write};
    /// use std::path::Path;
    /// use std::time::Duration;
    /// use vault::{Entry, Record, Remnant, Settings, Vault};
    ///
    /// /// Either the old remnant or the new one is in the file, whenever the power fails; once this returns, the new one.
    /// fn on_disk(folder: &Path, remnant: &Remnant) -> io::Result<()> {
    ///     let (new, file) = (folder.join("remnant.new"), folder.join("remnant"));
    ///     let mut written = File::create(&new)?;
    ///     written.write_all(remnant.as_bytes())?;
    ///     written.sync_all()?;
    ///     fs::rename(new, file)?;
    ///     File::open(folder)?.sync_all()
    /// }
    ///
    /// # fn main() -> Result<(), Box<dyn std::error::Error>> {
    /// # let folder = &std::env::temp_dir().join(format!("vault-restart-{}", std::process::id()));
    /// # fs::create_dir_all(folder)?;
    /// // The vault leads view 0. It stores, then sends its proposal and its first vote.
    /// let mut vault = Vault::new(Record::blank());
    /// vault.start(Settings { n: 4, f: 1, id: 0, class: 2 }, 700)?;
    /// let sent = vault.store_remnant(|remnant| on_disk(folder, remnant))?;
    /// assert_eq!(sent.filter(|entry| matches!(entry, Entry::All(_))).count(), 2);
    ///
    /// // The power fails, and comes back.
    /// drop(vault);
    /// let (mut vault, mut entries) = Vault::restart(&fs::read(folder.join("remnant"))?)?;
    /// assert_eq!(entries.next(), Some(Entry::Timer { view: 0, after: Duration::from_millis(900) }));
    /// assert_eq!(vault.record().decision()?, None);
    ///
    /// // What it has said it does not say again, and it goes on from there.
    /// vault.timer(0)?;
    /// let sent = vault.store_remnant(|remnant| on_disk(folder, remnant))?;
    /// assert_eq!(sent.count(), 1);
    /// # fs::remove_dir_all(folder)?;
    /// # Ok(())
    /// # }
    /// ```
    pub fn restart(remnant: &[u8]) -> Result<(Vault, Entries), Refusal> {
        let mut vault = Vault::new(Record::blank());
        vault.call(|record, output| sys::restart(record, remnant, output))?;
        // The vault's remnant is still the one that was stored.
        let Ok(entries) = vault.store(|_| Ok::<(), Infallible>(()));
        Ok((vault, entries))
    }

    /// The record as the last call left it. Entries that belong to it may still wait.
    pub fn record(&self) -> &Record {
        &self.record
    }

    /// The remnant as the last call left it. Entries that belong to it may still wait. Refusals: `Blank` and `Unsound`.
    pub fn remnant(&self) -> Result<Remnant, Refusal> {
        self.record.remnant()
    }

    /// Starts the vault of a blank record with a plan of its own. Refusals: `Started`, and `N` to `Class`.
    pub fn start(&mut self, settings: Settings, plan: u64) -> Result<(), Refusal> {
        self.call(|record, output| sys::start(record, settings, plan, output))
    }

    /// Takes one frame that came from vault `sender`. Refusals: `Blank` and `Unsound`, and `Kind` to `Kept`.
    pub fn frame(&mut self, sender: u8, frame: &[u8]) -> Result<(), Refusal> {
        self.call(|record, output| sys::frame(record, sender, frame, output))
    }

    /// The timer of a view has run out. Refusals: `Blank` and `Unsound`, `Timer` and `LastView`.
    pub fn timer(&mut self, view: u32) -> Result<(), Refusal> {
        self.call(|record, output| sys::timer(record, view, output))
    }

    /// Stores the remnant, and hands out the entries of all accepted calls since it was stored last. `write` returns once the remnant is on
    /// stable storage; it is not called where no call was accepted. Where it fails the entries go on waiting.
    pub fn store_remnant<E>(&mut self, write: impl FnOnce(&Remnant) -> Result<(), E>) -> Result<Entries, E> {
        self.store(|record| write(&record.remnant().expect("an accepted call leaves a sound record")))
    }

    /// The same with the whole record in the remnant's place. A host does one or the other: a vault must come back with what was stored last.
    pub fn store<E>(&mut self, write: impl FnOnce(&Record) -> Result<(), E>) -> Result<Entries, E> {
        if self.changed {
            write(&self.record)?;
            self.changed = false;
        }
        Ok(Entries::new(std::mem::take(&mut self.waiting)))
    }

    fn call(&mut self, call: impl FnOnce(&mut [u8], &mut [u8]) -> u32) -> Result<(), Refusal> {
        let mut output = [0; OUTPUT_SIZE];
        let answer = call(&mut self.record.0[..], &mut output);
        match answer.checked_sub(ACCEPTED) {
            Some(count) => {
                self.waiting.extend_from_slice(&output[..count as usize]);
                self.changed = true;
                Ok(())
            }
            None => Err(refusal(answer)),
        }
    }
}
