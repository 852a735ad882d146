//! The rehearsal (document 02, wish 2, with its readings in document 03): four vaults, up to 256
//! frames on their way, at most one liar, and a script of lines that moves them. Each step is the
//! vault's own call over its record.

use std::io::{self, Read, Write};

use crate::calls::{self, OUTPUT_LEN};
use crate::entry::{self, Entry};
use crate::frame::number8;
use crate::lines::{self, Line, Program};
use crate::record::{self, Lent, Record, RECORD_LEN};

/// "Vaults 0 to 3, n = 4, f = 1"
pub const N: u8 = 4;
pub const F: u8 = 1;
/// "256 places for waiting frames, numbered from 0"
pub const PLACES: usize = 256;
/// "Here 20 allows 94 digits"
pub const MAX_DIGITS: usize = lines::MOST_DIGITS;
/// The longest line 04: its kind, the vault, and the longest frame.
const MADE_UP_MAX: usize = 2 + crate::frame::MAX_LEN;

/// "It obeys a script of hexadecimal lines"; "Lines end as in `vaultlines`."
pub fn run<R: Read, W: Write>(input: R, output: W) -> io::Result<()> {
    lines::run_program(Rehearsal::new(), input, output)
}

/// A frame on its way. "A broadcast waits once; a delivered frame stays".
#[derive(Clone, PartialEq, Eq, Debug)]
pub struct Waiting {
    /// The link's sender when it is delivered.
    pub writer: u8,
    /// The recipient byte of its entry. It binds nobody: the frame may be delivered to any vault.
    pub recipient: u8,
    pub bytes: Vec<u8>,
}

/// A decision that a vault's call wrote.
#[derive(Clone, Copy, PartialEq, Eq, Debug)]
pub struct Decision {
    pub vault: u8,
    pub view: u32,
    pub plan: u64,
}

/// What came of one line.
#[derive(Clone, Default, PartialEq, Eq, Debug)]
pub struct Outcome {
    pub refusal: Option<u8>,
    /// The vault whose call was accepted.
    pub called: Option<u8>,
    /// The numbers that new frames took, in order.
    pub stored: Vec<u8>,
    /// How many new frames found no place.
    pub lost: usize,
    /// The view of a timer entry.
    pub entered: Option<u32>,
    pub decisions: Vec<Decision>,
}

/// What a line asks for, once 20, 9 and 10 are past.
enum Order<'a> {
    Start { vault: u8, class: u8, plan: u64 },
    Deliver { number: u8, vault: u8 },
    Drop { number: u8 },
    Declare { vault: u8 },
    MakeUp { vault: u8, bytes: &'a [u8] },
    Timer { vault: u8 },
}

impl Order<'_> {
    /// "9: empty line, or kind above 05"; "10: wrong length"
    fn read(bytes: &[u8]) -> Result<Order<'_>, u8> {
        let &kind = bytes.first().ok_or(9)?;
        match (kind, bytes.len()) {
            (0x00, 11) => {
                Ok(Order::Start { vault: bytes[1], class: bytes[2], plan: number8(&bytes[3..]) })
            }
            (0x01, 3) => Ok(Order::Deliver { number: bytes[1], vault: bytes[2] }),
            (0x02, 2) => Ok(Order::Drop { number: bytes[1] }),
            (0x03, 2) => Ok(Order::Declare { vault: bytes[1] }),
            (0x04, 2..=MADE_UP_MAX) => Ok(Order::MakeUp { vault: bytes[1], bytes: &bytes[2..] }),
            (0x05, 2) => Ok(Order::Timer { vault: bytes[1] }),
            (0x00..=0x05, _) => Err(10),
            _ => Err(9),
        }
    }
}

pub struct Rehearsal {
    /// "records blank at first"
    records: Vec<[u8; RECORD_LEN]>,
    places: Vec<Option<Waiting>>,
    liar: Option<u8>,
}

impl Default for Rehearsal {
    fn default() -> Rehearsal {
        Rehearsal::new()
    }
}

impl Rehearsal {
    pub fn new() -> Rehearsal {
        Rehearsal {
            records: vec![[0; RECORD_LEN]; usize::from(N)],
            places: vec![None; PLACES],
            liar: None,
        }
    }

    /// The frame that waits under a number.
    pub fn waiting(&self, number: u8) -> Option<&Waiting> {
        self.places[usize::from(number)].as_ref()
    }

    /// The vault declared lying.
    pub fn liar(&self) -> Option<u8> {
        self.liar
    }

    /// A vault's record by its contents; None while it is blank.
    pub fn record(&self, vault: u8) -> Option<Record> {
        match record::classify(&self.records[usize::from(vault)]) {
            Lent::Sound(record) => Some(record),
            Lent::Blank | Lent::Unsound => None,
        }
    }

    /// Obeys a line, given without its end, and appends what it prints.
    pub fn obey(&mut self, text: &[u8], printed: &mut Vec<u8>) -> Outcome {
        let mut line = Line::new(MAX_DIGITS);
        for &byte in text {
            line.push(byte);
        }
        self.obey_line(&line, printed)
    }

    fn obey_line(&mut self, line: &Line, printed: &mut Vec<u8>) -> Outcome {
        let mut told = Told { printed, outcome: Outcome::default() };
        if let Err(number) = self.try_line(line, &mut told) {
            told.print(&[0xfd, number]);
            told.outcome.refusal = Some(number);
        }
        told.outcome
    }

    /// "Refusals, in this order": 20, 9, 10, 23, "then the call's own".
    fn try_line(&mut self, line: &Line, told: &mut Told) -> Result<(), u8> {
        let (bytes, count) = line.bytes()?;
        match Order::read(&bytes[..count])? {
            Order::Start { vault, class, plan } => self.start(vault, class, plan, told),
            Order::Deliver { number, vault } => self.deliver(number, vault, told),
            Order::Drop { number } => self.drop_frame(number),
            Order::Declare { vault } => self.declare(vault),
            Order::MakeUp { vault, bytes } => self.make_up(vault, bytes, told),
            Order::Timer { vault } => self.timer(vault, told),
        }
    }

    /// "start call, id = vault"
    fn start(&mut self, vault: u8, class: u8, plan: u64, told: &mut Told) -> Result<(), u8> {
        let rec = self.record_of(vault)?;
        let mut out = [0; OUTPUT_LEN];
        let count = calls::start(rec, N, F, vault, class, plan, &mut out)?;
        self.take_entries(vault, &out[..count], told);
        Ok(())
    }

    /// "frame call with the waiting bytes; link's sender = its writer". The frame stays.
    fn deliver(&mut self, number: u8, vault: u8, told: &mut Told) -> Result<(), u8> {
        // 23: "no frame waits there"
        let Waiting { writer, bytes, .. } = self.waiting(number).ok_or(23)?.clone();
        let rec = self.record_of(vault)?;
        let mut out = [0; OUTPUT_LEN];
        let count = calls::frame(rec, writer, &bytes, &mut out)?;
        self.take_entries(vault, &out[..count], told);
        Ok(())
    }

    /// "drops it: the number is free"
    fn drop_frame(&mut self, number: u8) -> Result<(), u8> {
        self.places[usize::from(number)].take().map(drop).ok_or(23)
    }

    /// "declares the liar"
    fn declare(&mut self, vault: u8) -> Result<(), u8> {
        // 23: a vault above 3; "03 while another vault is declared". "Declaring the declared vault
        // again is accepted."
        if vault >= N || self.liar.is_some_and(|liar| liar != vault) {
            return Err(23);
        }
        self.liar = Some(vault);
        Ok(())
    }

    /// "these bytes wait as one frame for all; writer = the liar"
    fn make_up(&mut self, vault: u8, bytes: &[u8], told: &mut Told) -> Result<(), u8> {
        // 23: "04 for a vault not declared"; a vault above 3 never is.
        if self.liar != Some(vault) {
            return Err(23);
        }
        self.store(Waiting { writer: vault, recipient: entry::ALL, bytes: bytes.to_vec() }, told);
        Ok(())
    }

    /// "timer call for its current view"
    fn timer(&mut self, vault: u8, told: &mut Told) -> Result<(), u8> {
        let rec = self.record_of(vault)?;
        // A blank record gives 2, whatever view is named.
        let view = record::decode(rec).map_or(0, |record| record.view);
        let mut out = [0; OUTPUT_LEN];
        let count = calls::timer(rec, view, &mut out)?;
        self.take_entries(vault, &out[..count], told);
        Ok(())
    }

    /// A vault's record. 23: "vault above 3"
    fn record_of(&mut self, vault: u8) -> Result<&mut [u8], u8> {
        self.records.get_mut(usize::from(vault)).map(|rec| &mut rec[..]).ok_or(23)
    }

    /// The entries of an accepted call. "A host entry prints as in `vaultlines`. Any other entry, in
    /// order, takes the smallest number free at that moment".
    fn take_entries(&mut self, vault: u8, mut bytes: &[u8], told: &mut Told) {
        told.outcome.called = Some(vault);
        while let Some((entry, count)) = entry::parse_first(bytes) {
            let (first, rest) = bytes.split_at(count);
            match entry {
                Entry::Timer { view, .. } => {
                    told.print(first);
                    told.outcome.entered = Some(view);
                }
                Entry::Decision { view, plan } => {
                    told.print(first);
                    told.outcome.decisions.push(Decision { vault, view, plan });
                }
                Entry::All(_) | Entry::To(..) => {
                    let (recipient, frame) = (first[0], first[1..].to_vec());
                    self.store(Waiting { writer: vault, recipient, bytes: frame }, told);
                }
            }
            bytes = rest;
        }
    }

    /// "prints `fc`, number, recipient byte, frame. Where 256 wait it prints `fb`, recipient byte,
    /// frame, and is lost".
    fn store(&mut self, frame: Waiting, told: &mut Told) {
        let entry = [&[frame.recipient], frame.bytes.as_slice()].concat();
        match self.places.iter().position(Option::is_none) {
            Some(place) => {
                let number = place as u8;
                told.print(&[&[0xfc, number], entry.as_slice()].concat());
                told.outcome.stored.push(number);
                self.places[place] = Some(frame);
            }
            None => {
                told.print(&[&[0xfb], entry.as_slice()].concat());
                told.outcome.lost += 1;
            }
        }
    }
}

impl Program for Rehearsal {
    const MAX_DIGITS: usize = MAX_DIGITS;

    fn end_line<W: Write>(&mut self, line: &Line, output: &mut W) -> io::Result<()> {
        let mut printed = Vec::new();
        self.obey_line(line, &mut printed);
        output.write_all(&printed)
    }
}

/// What a line prints, and what came of it.
struct Told<'a> {
    printed: &'a mut Vec<u8>,
    outcome: Outcome,
}

impl Told<'_> {
    fn print(&mut self, bytes: &[u8]) {
        self.printed.extend(lines::digits(bytes));
        self.printed.push(b'\n');
    }
}
