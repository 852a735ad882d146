//! Random scripts for the rehearsal: four vaults that start, pass frames on, lose some, go from view
//! to view and mostly come to decide, with or without a liar among them; stages that fill up; and
//! lines that are refused. The generator rehearses alongside, so that it knows which frames wait and
//! where the vaults are.

pub use crate::rehearsal_cover::{cover, Coverage};

use crate::frame::{
    self, leader, Frame, KINDS, PROOF, PROPOSAL, SUGGEST, VIEW_CHANGE, VOTE_1, VOTE_4,
};
use crate::record::Record;
use crate::rehearsal::{Outcome, Rehearsal, Waiting, MAX_DIGITS, N, PLACES};
use crate::report_faults::{faults_of, wanted_faults, Carrier};
use crate::rng::Rng;
use crate::scripts::{plans, spoiled, to_hex};
use crate::sim::{chance, false_reports, shuffle, some_of};
use crate::vault::check_frame;

const VAULTS: [u8; N as usize] = [0, 1, 2, 3];
/// Enough lines for a view in which every frame reaches every vault.
const WHOLE_VIEW: u64 = 100;
/// The bytes of each line, its kind included; a line 04 has 2 or more.
const LENGTHS: [usize; 6] = [11, 3, 2, 2, 2, 2];

/// A random script for the rehearsal. The same seed gives the same script.
pub fn script(seed: u64) -> Vec<u8> {
    let mut writer = Writer::new(seed);
    while writer.rng.one_in(3) {
        writer.bad_line();
    }
    match writer.rng.below(24) {
        0 => writer.bad_lines(),
        1 | 2 => writer.full_stage(),
        _ => writer.network(),
    }
    writer.end();
    writer.text
}

/// A delivery that the vault would accept.
#[derive(Clone, Copy)]
struct Useful {
    number: u8,
    vault: u8,
    frame: Frame,
}

/// Which useful delivery comes first.
#[derive(Clone, Copy)]
enum Order {
    Any,
    /// A frame of the lowest view: fewest frames come too late.
    LowestView,
    LowestNumber,
    HighestNumber,
}

/// Which deliveries are made in a view.
struct Gate {
    /// Votes of this kind and later ones are held back from some vaults.
    held: u8,
    held_from: Vec<u8>,
    /// A vault that nothing comes from or gets to.
    cut_off: Option<u8>,
    lines: u64,
}

impl Gate {
    fn open(&self, useful: &Useful) -> bool {
        let Useful { vault, frame, .. } = *useful;
        let held = (self.held..=VOTE_4).contains(&frame.kind) && self.held_from.contains(&vault);
        !held && self.cut_off != Some(vault) && self.cut_off != Some(frame.sender)
    }
}

struct Writer {
    rng: Rng,
    text: Vec<u8>,
    stage: Rehearsal,
    /// The vaults' records by contents; None while blank.
    records: [Option<Box<Record>>; N as usize],
    plans: Vec<u64>,
    order: Order,
    /// The vault that is declared sooner or later.
    suspect: Option<u8>,
    /// Once in so many deliveries something else happens.
    calm: u64,
}

impl Writer {
    fn new(seed: u64) -> Writer {
        let mut rng = Rng(seed);
        let plans = plans(&mut rng);
        let low = Order::LowestView;
        let order =
            rng.pick(&[low, low, low, Order::Any, Order::LowestNumber, Order::HighestNumber]);
        let suspect = (!rng.one_in(3)).then(|| rng.below(u64::from(N)) as u8);
        let calm = rng.pick(&[4, 8, 8, 16, 1000]);
        let (text, stage, records) = (Vec::new(), Rehearsal::new(), [const { None }; N as usize]);
        Writer { rng, text, stage, records, plans, order, suspect, calm }
    }

    // ----- Lines out.

    fn text_line(&mut self, text: &[u8]) -> Outcome {
        // A line feed inside the text would make it two lines.
        debug_assert!(!text.contains(&b'\n'));
        self.text.extend_from_slice(text);
        self.text.push(b'\n');
        let outcome = self.stage.obey(text, &mut Vec::new());
        if let Some(vault) = outcome.called {
            self.records[usize::from(vault)] = self.stage.record(vault).map(Box::new);
        }
        outcome
    }

    fn bytes_line(&mut self, bytes: &[u8]) -> Outcome {
        self.text_line(&to_hex(bytes))
    }

    fn start_line(&mut self, vault: u8, class: u8, plan: u64) {
        self.bytes_line(&[&[0, vault, class], &plan.to_be_bytes()[..]].concat());
    }

    fn deliver(&mut self, number: u8, vault: u8) {
        self.bytes_line(&[1, number, vault]);
    }

    fn expire(&mut self, vault: u8) {
        self.bytes_line(&[5, vault]);
    }

    /// The liar, where there is one, sends these bytes, and these vaults get them at once.
    fn tell(&mut self, bytes: &[u8], to: &[u8]) {
        let Some(liar) = self.stage.liar() else { return };
        let outcome = self.bytes_line(&[&[4, liar], bytes].concat());
        if let Some(&number) = outcome.stored.first() {
            to.iter().for_each(|&vault| self.deliver(number, vault));
        }
    }

    // ----- What is known of the stage.

    fn plan(&mut self) -> u64 {
        self.rng.pick(&self.plans)
    }

    fn vault(&mut self) -> u8 {
        self.rng.pick(&VAULTS)
    }

    fn some_vaults(&mut self) -> Vec<u8> {
        some_of(&mut self.rng, &VAULTS, 1, 2)
    }

    fn record(&self, vault: u8) -> Option<&Record> {
        self.records[usize::from(vault)].as_deref()
    }

    /// Vaults that were started, or those that were not, in random order.
    fn vaults(&mut self, started: bool) -> Vec<u8> {
        let mut vaults = VAULTS.to_vec();
        vaults.retain(|&vault| self.record(vault).is_some() == started);
        shuffle(&mut self.rng, &mut vaults);
        vaults
    }

    /// The waiting frames that a test picks out, by number.
    fn numbers(&self, test: impl Fn(&Waiting) -> bool) -> Vec<u8> {
        (0..=255).filter(|&number| self.stage.waiting(number).is_some_and(&test)).collect()
    }

    /// A number under which a frame waits, or any number where none does.
    fn waiting_number(&mut self) -> u8 {
        match self.numbers(|_| true).as_slice() {
            [] => self.rng.next() as u8,
            numbers => self.rng.pick(numbers),
        }
    }

    /// A number under which no frame waits, if there is one: the first, the last, or any.
    fn free_number(&mut self) -> u8 {
        let taken = self.numbers(|_| true);
        let free: Vec<u8> = (0..=255).filter(|number| !taken.contains(number)).collect();
        match free.as_slice() {
            [] => self.rng.next() as u8,
            [first, .., last] if self.rng.one_in(2) => self.rng.pick(&[*first, *last]),
            free => self.rng.pick(free),
        }
    }

    /// All deliveries that would be accepted now.
    fn useful(&self) -> Vec<Useful> {
        let mut useful = Vec::new();
        for number in 0..=255 {
            let Some(waiting) = self.stage.waiting(number) else { continue };
            for vault in VAULTS {
                let taken = self
                    .record(vault)
                    .and_then(|record| check_frame(record, waiting.writer, &waiting.bytes).ok());
                useful.extend(taken.map(|frame| Useful { number, vault, frame }));
            }
        }
        useful
    }

    fn choose(&mut self, useful: &[Useful]) -> Option<Useful> {
        match self.order {
            Order::LowestNumber => useful.first().copied(),
            Order::HighestNumber => useful.last().copied(),
            Order::Any => (!useful.is_empty()).then(|| self.rng.pick(useful)),
            Order::LowestView => {
                let lowest = useful.iter().map(|useful| useful.frame.view).min()?;
                let mut useful = useful.to_vec();
                useful.retain(|useful| useful.frame.view == lowest);
                Some(self.rng.pick(&useful))
            }
        }
    }

    /// A view in which some vault is, or one soon after.
    fn near_view(&mut self) -> u32 {
        let started = self.vaults(true);
        let view = started.first().and_then(|&vault| self.record(vault)).map_or(0, |r| r.view);
        view + self.rng.pick(&[0, 0, 0, 0, 1, 1, 2])
    }

    /// A plan that some vault keeps a proposal for in this view, else any.
    fn proposed(&mut self, view: u32) -> u64 {
        let kept = VAULTS.iter().find_map(|&vault| {
            let frame = self.record(vault)?.kept(leader(view, N), PROPOSAL)?;
            frame.plan().filter(|_| frame.view == view)
        });
        match kept {
            Some(plan) if chance(&mut self.rng, 3, 4) => plan,
            _ => self.plan(),
        }
    }

    // ----- A network.

    fn network(&mut self) {
        // Before the starts, before one of the views, or when all is over.
        let views = 1 + self.rng.below(4);
        let declared = self.rng.below(views + 2);
        if declared == 0 {
            self.declare_suspect();
        }
        self.starts();
        for turn in 1..=views {
            if turn == declared {
                self.declare_suspect();
            }
            let gate = self.gate(turn == views);
            self.play(&gate);
            if turn < views {
                self.change_view();
            }
        }
        if declared > views {
            self.declare_suspect();
            self.lie();
        }
        self.afterwards();
    }

    fn declare_suspect(&mut self) {
        if let Some(suspect) = self.suspect {
            self.bytes_line(&[3, suspect]);
        }
    }

    /// Starts the vaults that are still blank; one may be left out, seldom more.
    fn starts(&mut self) {
        let vaults = self.vaults(false);
        let count = self.rng.pick(&[4, 4, 4, 4, 4, 3, 3, 3, 2, 0]);
        let one_plan = self.rng.one_in(2).then(|| self.plan());
        for &vault in vaults.iter().take(count) {
            self.start(vault, one_plan);
            if self.rng.one_in(4) {
                let gate = Gate { lines: self.rng.below(5), ..self.gate(true) };
                self.play(&gate);
            }
        }
    }

    fn start(&mut self, vault: u8, plan: Option<u64>) {
        let class = self.rng.below(8) as u8;
        let plan = plan.unwrap_or_else(|| self.plan());
        self.start_line(vault, class, plan);
    }

    /// The last view of a script is mostly played to its end, the others only in part.
    fn gate(&mut self, last: bool) -> Gate {
        let whole = last || self.rng.one_in(4);
        let held = VOTE_1 + self.rng.below(4) as u8;
        let held_from = if whole { Vec::new() } else { some_of(&mut self.rng, &VAULTS, 3, 4) };
        let cut_off = self.rng.one_in(if whole { 6 } else { 3 }).then(|| self.vault());
        let lines = if whole || self.rng.one_in(2) { WHOLE_VIEW } else { 10 + self.rng.below(40) };
        Gate { held, held_from, cut_off, lines }
    }

    /// Delivers what the gate lets through, with something else in between now and then.
    fn play(&mut self, gate: &Gate) {
        for _ in 0..gate.lines {
            if self.rng.one_in(self.calm) {
                self.disturb();
            }
            let mut useful = self.useful();
            useful.retain(|useful| gate.open(useful));
            let Some(Useful { number, vault, .. }) = self.choose(&useful) else { return };
            if self.rng.one_in(12) {
                self.deliver_to_all(number);
            } else {
                self.deliver(number, vault);
            }
        }
    }

    /// To every vault, its writer and those that have it included.
    fn deliver_to_all(&mut self, number: u8) {
        VAULTS.iter().for_each(|&vault| {
            self.deliver(number, vault);
        });
    }

    /// Timers expire, at enough vaults or not, and their view-changes get round.
    fn change_view(&mut self) {
        let count = self.rng.pick(&[1, 2, 2, 3, 3, 3, 4, 4]);
        for vault in self.vaults(true).into_iter().take(count) {
            self.expire(vault);
            // A second timer repeats the view-change.
            if self.rng.one_in(8) {
                self.expire(vault);
            }
        }
        if self.rng.one_in(2) {
            self.lie_view_change();
        }
        if self.rng.one_in(3) {
            self.move_on_alone();
        }
        let lines = 4 + self.rng.below(20);
        self.give_view_changes(lines, &VAULTS);
        if let Some(liar) = self.stage.liar().filter(|_| self.rng.one_in(2)) {
            self.lie_throughout(liar);
        }
        // A vault that was left out may come late.
        let blank = self.vaults(false);
        if let Some(&late) = blank.first().filter(|_| self.rng.one_in(3)) {
            self.start(late, None);
        }
    }

    fn give_view_changes(&mut self, lines: u64, to: &[u8]) {
        for _ in 0..lines {
            let mut useful = self.useful();
            useful.retain(|useful| useful.frame.kind == VIEW_CHANGE && to.contains(&useful.vault));
            let Some(Useful { number, vault, .. }) = self.choose(&useful) else { return };
            self.deliver(number, vault);
        }
    }

    /// One vault hears the others and moves on. Its own view-change is lost, and its timer asks for
    /// the view after it before the others have heard of it: they hung before wish 3.
    fn move_on_alone(&mut self) {
        let Some(&ahead) = self.vaults(true).first() else { return };
        self.give_view_changes(4, &[ahead]);
        let asks = |waiting: &Waiting| waiting.bytes.first() == Some(&VIEW_CHANGE);
        for number in self.numbers(|waiting| waiting.writer == ahead && asks(waiting)) {
            self.bytes_line(&[2, number]);
        }
        self.expire(ahead);
    }

    fn afterwards(&mut self) {
        for _ in 0..self.rng.below(8) {
            self.disturb();
        }
    }

    /// Something that does not help the vaults to decide.
    fn disturb(&mut self) {
        match self.rng.below(16) {
            0..=2 => self.bad_line(),
            3 => self.repeat(),
            4 | 5 => self.stray(),
            6 => self.drop_one(),
            7 => {
                let vault = self.vault();
                self.expire(vault);
            }
            8 => self.declare_again(),
            _ => self.lie(),
        }
    }

    /// Any waiting frame to any vault.
    fn repeat(&mut self) {
        let (number, vault) = (self.waiting_number(), self.vault());
        self.deliver(number, vault);
    }

    /// A frame for one vault, to any of them.
    fn stray(&mut self) {
        let numbers = self.numbers(|waiting| waiting.recipient < N);
        if !numbers.is_empty() {
            let blank = self.vaults(false);
            let any = self.vault();
            let vault = blank.first().copied().filter(|_| self.rng.one_in(2)).unwrap_or(any);
            let number = self.rng.pick(&numbers);
            self.deliver(number, vault);
        }
    }

    /// Mostly a frame that is no use to anybody any more; else it is lost on its way.
    fn drop_one(&mut self) {
        let mut numbers = self.numbers(|_| true);
        if !self.rng.one_in(4) {
            let useful = self.useful();
            numbers.retain(|&number| useful.iter().all(|useful| useful.number != number));
        }
        if !numbers.is_empty() {
            let number = self.rng.pick(&numbers);
            self.bytes_line(&[2, number]);
        }
    }

    /// The declared vault once more, or another one.
    fn declare_again(&mut self) {
        if let Some(liar) = self.stage.liar() {
            let vault = if self.rng.one_in(2) { liar } else { self.vault() };
            self.bytes_line(&[3, vault]);
        }
    }

    // ----- The liar.

    fn lie(&mut self) {
        let Some(liar) = self.stage.liar() else { return };
        match self.rng.below(13) {
            0..=2 => self.lie_vote(liar),
            3 | 4 => self.lie_twice(liar),
            5 => self.lie_view_change(),
            6 | 7 => self.lie_reports(liar),
            8 => self.lie_proposal(liar),
            9 => self.faulty_reports(liar),
            10 => self.forged(liar),
            11 => self.lie_throughout(liar),
            _ => self.junk(),
        }
    }

    fn lie_vote(&mut self, liar: u8) {
        let view = self.near_view();
        let (kind, plan) = (VOTE_1 + self.rng.below(4) as u8, self.proposed(view));
        let to = self.some_vaults();
        self.tell(&frame::write(&Frame::with_plan(kind, liar, view, plan)), &to);
    }

    /// Two stories for one view: some vaults get the one, the others the other.
    fn lie_twice(&mut self, liar: u8) {
        let mut view = self.near_view();
        let kind = PROPOSAL + self.rng.below(5) as u8;
        if kind == PROPOSAL {
            view = led_from(view, liar);
        }
        let mut vaults = VAULTS.to_vec();
        shuffle(&mut self.rng, &mut vaults);
        let (one, other) = vaults.split_at(2);
        for to in [one, other] {
            let plan = self.plan();
            self.tell(&frame::write(&Frame::with_plan(kind, liar, view, plan)), to);
        }
    }

    /// All that the liar could send for one plan in a view, which it mostly leads. The frames wait
    /// with the others.
    fn lie_throughout(&mut self, liar: u8) {
        let near = self.near_view();
        let view = if self.rng.one_in(4) { near } else { led_from(near, liar) };
        let leads = leader(view, N) == liar;
        let (first, plan) =
            if leads { (PROPOSAL, self.plan()) } else { (VOTE_1, self.proposed(view)) };
        for kind in first..=VOTE_4 {
            self.tell(&frame::write(&Frame::with_plan(kind, liar, view, plan)), &[]);
        }
    }

    fn lie_view_change(&mut self) {
        let Some(liar) = self.stage.liar() else { return };
        let near = self.near_view() + self.rng.below(2) as u32;
        let view = if self.rng.one_in(8) { u32::MAX } else { near };
        let to = self.some_vaults();
        self.tell(&frame::write(&Frame::view_change(liar, view)), &to);
    }

    /// A suggest to a leader, or a proof, with reports as they could be.
    fn lie_reports(&mut self, liar: u8) {
        let view = self.near_view().max(1);
        let backed = self.proposed(view);
        let reports = false_reports(&mut self.rng, view, backed, &self.plans);
        let (kind, to) = if self.rng.one_in(2) {
            (SUGGEST, vec![leader(view, N)])
        } else {
            (PROOF, self.some_vaults())
        };
        self.tell(&frame::write(&Frame::with_reports(kind, liar, view, reports)), &to);
    }

    /// Mostly for a view that the liar leads.
    fn lie_proposal(&mut self, liar: u8) {
        let near = self.near_view();
        let view = if self.rng.one_in(4) { near } else { led_from(near, liar) };
        let (plan, to) = (self.plan(), self.some_vaults());
        self.tell(&frame::write(&Frame::with_plan(PROPOSAL, liar, view, plan)), &to);
    }

    /// Reports with faults, as `wanted_faults` has them. Not every view has room for all of them,
    /// so in the end any faults will do.
    fn faulty_reports(&mut self, liar: u8) {
        let wanted = wanted_faults();
        for _ in 0..3 {
            let faults = &wanted[self.rng.below(wanted.len() as u64) as usize];
            let kind = self.rng.pick(&Carrier::ALL).kind();
            let mut bytes = Vec::new();
            for _ in 0..20 {
                let view = self.near_view().max(1) + self.rng.below(3) as u32;
                let reports = false_reports(&mut self.rng, view, self.plans[0], &self.plans);
                let frame = Frame::with_reports(kind, liar, view, reports);
                bytes = spoiled(&mut self.rng, &frame, faults);
                if faults_of(&bytes) == *faults {
                    break;
                }
            }
            let to = self.some_vaults();
            self.tell(&bytes, &to);
        }
    }

    /// Frames with something wrong before their reports.
    fn forged(&mut self, liar: u8) {
        for _ in 0..3 {
            let bytes = self.forgery(liar);
            let to = self.some_vaults();
            self.tell(&bytes, &to);
        }
    }

    /// Another's name, a view 0, a wrong kind or length, or what another vault sent.
    fn forgery(&mut self, liar: u8) -> Vec<u8> {
        let number = self.waiting_number();
        let kind = PROPOSAL + self.rng.below(KINDS as u64) as u8;
        let mut bytes = vec![0; frame::length(kind).unwrap_or(0)];
        bytes[..2].copy_from_slice(&[kind, liar]);
        bytes[5] = self.near_view().max(1) as u8;
        match (self.rng.below(8), self.stage.waiting(number)) {
            (0, Some(waiting)) => bytes.clone_from(&waiting.bytes),
            (0 | 1, _) => bytes[1] = self.rng.pick(&[(liar + 1) % N, (liar + 3) % N, N, 255]),
            (2, _) => {
                bytes[0] = self.rng.pick(&[VIEW_CHANGE, SUGGEST, PROOF]);
                bytes.resize(frame::length(bytes[0]).unwrap_or(0), 0);
                bytes[5] = 0;
            }
            (3, _) => bytes[0] = self.rng.pick(&[0, 9, 10, 255]),
            (4 | 5, _) => {
                let cut = 1 + self.rng.below(bytes.len() as u64 - 1) as usize;
                bytes.truncate(cut);
            }
            _ => {
                let longer = bytes.len() + self.rng.pick(&[1, 1, 2, 31]);
                bytes.resize(longer.min(frame::MAX_LEN), 0);
            }
        }
        bytes
    }

    /// 0 to 45 bytes of anything.
    fn junk(&mut self) {
        let length = self.rng.pick(&[0, 1, 2, 6, 14, 44, 45, 46]);
        let length = if length == 46 { self.rng.below(46) as usize } else { length };
        let mut bytes = vec![0; length];
        self.rng.fill(&mut bytes);
        if let Some(kind) = bytes.first_mut().filter(|_| self.rng.one_in(2)) {
            *kind = 1 + *kind % 8;
        }
        let to = self.some_vaults();
        self.tell(&bytes, &to);
    }

    // ----- A full stage.

    /// Fills the places, goes on while frames are lost, makes room again and comes to an end.
    fn full_stage(&mut self) {
        if self.rng.one_in(2) {
            self.starts();
            let lines = self.rng.pick(&[0, 10, 30, 40, 45]);
            let gate = Gate { lines, ..self.gate(true) };
            self.play(&gate);
        }
        if self.rng.one_in(2) {
            self.declare_suspect();
        }
        let room = self.rng.pick(&[0, 0, 1, 2, 9]);
        self.fill(PLACES - room);
        self.starts();
        self.overflow();
        for _ in 0..self.rng.pick(&[1, 5, 40, 120]) {
            self.drop_one();
        }
        self.change_view();
        let gate = self.gate(true);
        self.play(&gate);
        self.afterwards();
    }

    /// Until so many frames wait: the liar makes them up, or a vault repeats its view-change.
    fn fill(&mut self, enough: usize) {
        if self.stage.liar().is_none() && self.vaults(true).is_empty() {
            let vault = self.vault();
            self.start(vault, None);
        }
        let started = self.vaults(true).first().copied();
        while self.numbers(|_| true).len() < enough {
            match (self.stage.liar(), started) {
                (Some(_), _) if self.rng.one_in(30) => self.lie(),
                (Some(liar), None) => {
                    self.bytes_line(&[4, liar]);
                }
                (Some(liar), Some(_)) if self.rng.one_in(2) => {
                    let byte = self.rng.next() as u8;
                    self.bytes_line(&[4, liar, byte]);
                }
                (_, Some(vault)) => self.expire(vault),
                (None, None) => return,
            }
        }
    }

    /// Lines of every kind that sends frames, a few of them while there is no place left.
    fn overflow(&mut self) {
        for _ in 0..20 + self.rng.below(30) {
            match self.rng.below(12) {
                0 => self.lie(),
                1 => self.disturb(),
                2 => {
                    let vault = self.vault();
                    self.expire(vault);
                }
                _ => {
                    let useful = self.useful();
                    if let Some(Useful { number, vault, .. }) = self.choose(&useful) {
                        self.deliver(number, vault);
                    }
                }
            }
        }
    }

    // ----- Lines that are refused.

    fn bad_lines(&mut self) {
        for _ in 0..self.rng.below(30) {
            self.bad_line();
        }
    }

    fn bad_line(&mut self) {
        match self.rng.below(10) {
            0 | 1 => self.odd_text(),
            2 => {
                self.text_line(b"");
            }
            3 => self.unknown_kind(),
            4 | 5 => self.wrong_length(),
            6 | 7 => self.wrong_name(),
            8 => self.wrong_start(),
            // A timer or a frame at a blank vault.
            _ => {
                if let Some(&vault) = self.vaults(false).first() {
                    self.expire(vault);
                    let number = self.waiting_number();
                    self.deliver(number, vault);
                }
            }
        }
    }

    /// Text that spells no bytes, or just so.
    fn odd_text(&mut self) {
        let mut text = to_hex(&[4, self.suspect.unwrap_or(0), 0xab, 0xcd, 0xef]);
        let at = self.rng.below(text.len() as u64) as usize;
        match self.rng.below(8) {
            0 => text.truncate(at | 1),
            1 => text.make_ascii_uppercase(),
            2 => text[at] = self.rng.pick(b"gG/:@` -\t\0\x7f\x80\xff"),
            3 => text.insert(at, self.rng.pick(b"gx \r")),
            4 => text.push(b'\r'),
            // Over-long by one digit, by one byte, or by far.
            5 => text.resize(MAX_DIGITS + self.rng.pick(&[1, 2, 2, 3, 94, 2000]), b'0'),
            // The longest line that is still read: a made-up frame, or a wrong length.
            6 => text.resize(MAX_DIGITS, b'0'),
            _ => text = vec![b'0'; MAX_DIGITS - self.rng.below(2) as usize],
        }
        self.text_line(&text);
    }

    /// A kind above 05, whatever the length.
    fn unknown_kind(&mut self) {
        let length = self.rng.pick(&[1, 2, 3, 6, 11, 14, 47]);
        let kind = self.rng.pick(&[6, 6, 7, 8, 9, 0x0a, 0x10, 0x7f, 0x80, 0xfb, 0xff]);
        self.filled_line(kind, length);
    }

    fn wrong_length(&mut self) {
        let kind = self.rng.below(6) as u8;
        let right = LENGTHS[usize::from(kind)];
        let length = if kind == 4 || self.rng.one_in(2) {
            right - 1 - self.rng.below(right as u64 - 1) as usize
        } else {
            self.rng.pick(&[right + 1, right + 1, right + 2, MAX_DIGITS / 2])
        };
        self.filled_line(kind, length);
    }

    /// A line of this kind and length; its other bytes are anything, mostly small.
    fn filled_line(&mut self, kind: u8, length: usize) {
        let mut bytes = vec![0; length];
        self.rng.fill(&mut bytes);
        if self.rng.one_in(2) {
            bytes.iter_mut().for_each(|byte| *byte %= 5);
        }
        bytes[0] = kind;
        self.bytes_line(&bytes);
    }

    /// Lines that name a vault or a frame that there is not, or that only the liar's lines may name.
    fn wrong_name(&mut self) {
        let above = self.rng.pick(&[4, 4, 5, 63, 128, 254, 255]);
        let vault = self.vault();
        match self.rng.below(10) {
            0 => {
                let (class, plan) = (self.rng.pick(&[2, 2, 8]), self.plan());
                self.start_line(above, class, plan);
            }
            1 => {
                let number = self.waiting_number();
                self.deliver(number, above);
            }
            2 | 3 => {
                let number = self.free_number();
                let vault = self.rng.pick(&[vault, vault, above]);
                self.deliver(number, vault);
            }
            4 => {
                let number = self.free_number();
                self.bytes_line(&[2, number]);
            }
            5 => drop(self.bytes_line(&[3, above])),
            6 if self.stage.liar().is_some() => drop(self.bytes_line(&[3, vault])),
            7 => drop(self.bytes_line(&[4, above, 6])),
            8 => drop(self.bytes_line(&[5, above])),
            _ => drop(self.bytes_line(&[4, vault, 6, vault, 0, 0, 0, 1])),
        }
    }

    /// A start of a vault that was started, or of one that was not with a class above 7.
    fn wrong_start(&mut self) {
        let (vault, plan) = (self.vault(), self.plan());
        let class = match self.record(vault) {
            Some(_) => self.rng.pick(&[0, 7, 8]),
            None => self.rng.pick(&[8, 8, 9, 128, 255]),
        };
        self.start_line(vault, class, plan);
    }

    /// The input's end: with a line feed, without one, inside a line, or after a carriage return.
    fn end(&mut self) {
        match self.rng.below(8) {
            0 | 1 => {
                self.text.pop();
            }
            2 => self.text.extend_from_slice(b"050"),
            3 => self.text.extend_from_slice(b"\r"),
            4 => self.text.extend_from_slice(b"\n"),
            5 => self.text.extend_from_slice(b"0500\r\n"),
            _ => {}
        }
    }
}

/// The first view from this one on that a vault leads.
fn led_from(view: u32, vault: u8) -> u32 {
    let ahead = (N + vault - leader(view, N)) % N;
    view + u32::from(ahead)
}
