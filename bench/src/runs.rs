//! Part 4: whole networks to a decision.

use std::collections::VecDeque;
use std::hint::black_box;
use std::time::Instant;

use reference::entry::{parse_entries, Entry};
use reference::frame::write;
use reference::record::Settings;

use comparison::case::SPACE;
use comparison::sides::{Answer, Call, InPlace, Rattle, Reference, Side};

use crate::clock::Times;
use crate::summary::{Aim, Summary};
use crate::table;

const ROUNDS: usize = 5;
/// A short run has more rounds.
const LEAST_CALLS: usize = 10_000;
/// Calls that are timed together. The best round of each piece counts: a whole run is long enough
/// to meet other processes in every round.
const PIECE: usize = 50;

/// A call at one of the vaults.
struct Item {
    vault: u8,
    call: Call,
}

/// A network whose frames arrive in the order in which they were sent.
struct Network {
    n: u8,
    /// The first vault that takes part: those below are silent.
    first: u8,
    records: Vec<Vec<u8>>,
    timers: Vec<u32>,
    decided: usize,
    /// Calls still to make, and those made.
    queue: VecDeque<Item>,
    made: Vec<Item>,
}

impl Network {
    /// All calls of a run until every vault has decided and no frame is on its way. Timers run out
    /// where no frame is on its way before.
    fn run(n: u8, f: u8, first: u8) -> Vec<Item> {
        let size = usize::from(n);
        let mut network = Network {
            n,
            first,
            records: vec![vec![0; Reference::RECORD_LEN]; size],
            timers: vec![0; size],
            decided: 0,
            queue: VecDeque::new(),
            made: Vec::new(),
        };
        for id in first..n {
            let settings = Settings { n, f, id, class: 2 };
            network.push(id, Call::Start { settings, plan: 700 + u64::from(id) });
        }
        network.drain();
        while network.decided < usize::from(n - first) {
            for vault in first..n {
                network.push(vault, Call::Timer { view: network.timers[usize::from(vault)] });
            }
            network.drain();
        }
        network.made
    }

    fn push(&mut self, vault: u8, call: Call) {
        self.queue.push_back(Item { vault, call });
    }

    fn drain(&mut self) {
        while let Some(item) = self.queue.pop_front() {
            let mut out = [0; SPACE];
            let record = &mut self.records[usize::from(item.vault)];
            if let Ok(count) = item.call.on::<Reference>(record, &mut out) {
                self.act(item.vault, &out[..count]);
            }
            self.made.push(item);
        }
    }

    fn act(&mut self, from: u8, out: &[u8]) {
        for entry in parse_entries(out).expect("entries") {
            match entry {
                Entry::Timer { view, .. } => self.timers[usize::from(from)] = view,
                Entry::Decision { .. } => self.decided += 1,
                Entry::To(to, frame) => self.send(from, to, write(&frame)),
                Entry::All(frame) => {
                    for to in (0..self.n).filter(|&to| to != from) {
                        self.send(from, to, write(&frame));
                    }
                }
            }
        }
    }

    fn send(&mut self, from: u8, to: u8, bytes: Vec<u8>) {
        if to >= self.first {
            self.push(to, Call::Frame { link: from, bytes });
        }
    }
}

/// Makes all calls on blank records, and hands each answer and output to `see`. The nanoseconds of
/// each piece of the run.
fn replay<S: Side>(n: u8, run: &[Item], mut see: impl FnMut(Answer, &[u8])) -> Vec<f64> {
    let mut records = vec![vec![0; S::RECORD_LEN]; usize::from(n)];
    let mut out = [0; SPACE];
    let mut piece_nanos = |piece: &[Item]| {
        let begin = Instant::now();
        for Item { vault, call } in piece {
            let answer = call.on::<S>(&mut records[usize::from(*vault)], &mut out);
            see(answer, &out);
        }
        begin.elapsed().as_nanos() as f64
    };
    run.chunks(PIECE).map(&mut piece_nanos).collect()
}

/// Every answer, with the bytes written.
fn answers<S: Side>(n: u8, run: &[Item]) -> Vec<Result<Vec<u8>, u8>> {
    let mut answers = Vec::new();
    replay::<S>(n, run, |answer, out| answers.push(answer.map(|count| out[..count].to_vec())));
    answers
}

/// The best rounds of the pieces of a run so far.
struct Best(Vec<f64>);

impl Best {
    fn round<S: Side>(&mut self, n: u8, run: &[Item]) {
        let nanos = replay::<S>(n, run, |answer, out| {
            black_box((answer.is_ok(), out[0]));
        });
        self.0.iter_mut().zip(nanos).for_each(|(best, nanos)| *best = best.min(nanos));
    }
}

fn print_run(summary: &mut Summary, name: &str, n: u8, f: u8, first: u8) {
    let run = Network::run(n, f, first);
    let expected = answers::<Reference>(n, &run);
    assert!(answers::<Rattle>(n, &run) == expected, "{name}: the answers differ");
    assert!(answers::<InPlace>(n, &run) == expected, "{name}: the answers differ");
    let accepted = expected.iter().filter(|answer| answer.is_ok()).count();
    let best = || Best(vec![f64::INFINITY; run.chunks(PIECE).count()]);
    let (mut library, mut in_place, mut reference) = (best(), best(), best());
    let rounds = ROUNDS.max(LEAST_CALLS / run.len());
    for _ in 0..rounds {
        library.round::<Rattle>(n, &run);
        in_place.round::<InPlace>(n, &run);
        reference.round::<Reference>(n, &run);
    }
    let a_call = |best: &Best| best.0.iter().sum::<f64>() / run.len() as f64;
    let [library, in_place, reference] = [&library, &in_place, &reference].map(a_call);
    let times = Times { library, in_place, reference };
    summary.row(Aim::Run, "", &format!("{name}: {} calls, {accepted} accepted", run.len()), times);
}

pub fn print(summary: &mut Summary, sizes: &[(u8, u8)]) {
    let title = "4. Whole runs to a decision of every vault; frames arrive in the order of sending
   A run to view 1 has a silent vault 0";
    let unit = format!("nanoseconds a call, the best of each {PIECE} calls");
    table::head(title, &unit);
    for &(n, f) in sizes {
        print_run(summary, &format!("n = {n}, view 0"), n, f, 0);
        print_run(summary, &format!("n = {n}, view 1"), n, f, 1);
    }
}
