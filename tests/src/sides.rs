//! The vaults behind one interface: the same calls, each over records in its own layout.
use crate::{records, vaults};
use reference::calls;
use reference::record::{self, Record, Settings};

/// The byte count written, or a refusal's number.
pub type Answer = Result<usize, u8>;

pub type Start = fn(rec: &mut [u8], settings: Settings, plan: u64, out: &mut [u8]) -> Answer;
pub type Frame = fn(rec: &mut [u8], link: u8, bytes: &[u8], out: &mut [u8]) -> Answer;
pub type Timer = fn(rec: &mut [u8], view: u32, out: &mut [u8]) -> Answer;

/// The calls of a vault, and its layout: the Rattle vault's where it has none of its own.
pub trait Side {
    const START: Start;
    const FRAME: Frame;
    const TIMER: Timer;

    const RECORD_LEN: usize = records::LEN;

    /// What a record of the right length holds, to compare records of two layouts.
    fn contents(rec: &[u8]) -> Option<Record> {
        records::contents(rec)
    }

    /// The bytes of contents that no calls leave: calls make all other records.
    fn spell(record: &Record) -> Vec<u8> {
        records::spell(record)
    }
}

/// The proved vault, through its C functions.
pub struct Rattle;

impl Side for Rattle {
    const START: Start = |rec, Settings { n, f, id, class }, plan, out| vaults::start(rec, n, f, id, class, plan, out);
    const FRAME: Frame = vaults::frame;
    const TIMER: Timer = vaults::timer;
}

/// The vault in plain Rust, in place on the Rattle vault's records.
pub struct InPlace;

impl Side for InPlace {
    const START: Start = |rec, Settings { n, f, id, class }, plan, out| inplace::start(rec, [n, f, id, class], plan, out);
    const FRAME: Frame = inplace::frame;
    const TIMER: Timer = inplace::timer;
}

/// The independent vault in Rust.
pub struct Reference;

impl Side for Reference {
    const START: Start = |rec, Settings { n, f, id, class }, plan, out| calls::start(rec, n, f, id, class, plan, out);
    const FRAME: Frame = calls::frame;
    const TIMER: Timer = calls::timer;

    const RECORD_LEN: usize = record::RECORD_LEN;

    fn contents(rec: &[u8]) -> Option<Record> {
        record::decode(rec)
    }

    fn spell(record: &Record) -> Vec<u8> {
        record::encode(record)
    }
}

pub use crate::sim::Call;

/// One call is the same for all sides.
impl Call {
    pub fn on<S: Side>(&self, rec: &mut [u8], out: &mut [u8]) -> Answer {
        match self {
            Call::Start { settings, plan } => (S::START)(rec, *settings, *plan, out),
            Call::Frame { link, bytes } => (S::FRAME)(rec, *link, bytes, out),
            Call::Timer { view } => (S::TIMER)(rec, *view, out),
        }
    }
}
