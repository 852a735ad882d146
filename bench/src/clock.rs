//! Timed sections, and races between the library, the in-place vault and the reference.

use std::time::Instant;

/// A round lasts about this long: most rounds then meet no other process.
const ROUND_NANOS: f64 = 300_000.0;
/// Rounds that only tell slow from fast.
const QUICK_ROUND_NANOS: f64 = 20_000.0;
/// A timed section of repeated calls lasts at least about this long: the clock tells it well.
const SECTION_NANOS: f64 = 4_000.0;
const MOST_CALLS: f64 = 256.0;
const MOST_SECTIONS: f64 = 1000.0;

/// The clock, with the time that two readings of it take, and the length of a round.
pub struct Clock {
    own_nanos: f64,
    round_nanos: f64,
}

impl Clock {
    pub fn new() -> Clock {
        let nanos = || {
            let begin = Instant::now();
            begin.elapsed().as_nanos() as f64
        };
        let own_nanos = (0..10_000).map(|_| nanos()).fold(f64::INFINITY, f64::min);
        Clock { own_nanos, round_nanos: ROUND_NANOS }
    }

    /// The same clock with short rounds.
    pub fn quick(&self) -> Clock {
        Clock { own_nanos: self.own_nanos, round_nanos: QUICK_ROUND_NANOS }
    }

    pub fn own_nanos(&self) -> f64 {
        self.own_nanos
    }

    /// Nanoseconds of one timed section, without the clock's own.
    fn time(&self, section: impl FnOnce()) -> f64 {
        let begin = Instant::now();
        section();
        (begin.elapsed().as_nanos() as f64 - self.own_nanos).max(0.0)
    }

    /// One call in a timed section. `fresh` comes before each, and is not timed.
    pub fn fresh<'a, T: 'a>(
        &'a self,
        mut state: T,
        fresh: impl Fn(&mut T) + 'a,
        call: impl Fn(&mut T) + 'a,
    ) -> Contender<'a> {
        let section = move || {
            fresh(&mut state);
            self.time(|| call(&mut state))
        };
        self.contender(1, section)
    }

    /// As many calls in a timed section as it takes to time them well.
    pub fn repeated<'a, T: 'a>(
        &'a self,
        mut state: T,
        call: impl Fn(&mut T) + 'a,
    ) -> Contender<'a> {
        let once = (0..2).map(|_| self.time(|| call(&mut state))).fold(f64::INFINITY, f64::min);
        let calls = (SECTION_NANOS / once.max(1.0)).clamp(1.0, MOST_CALLS) as u32;
        let section = move || self.time(|| (0..calls).for_each(|_| call(&mut state)));
        self.contender(calls, section)
    }

    fn contender<'a>(&self, calls: u32, mut section: impl FnMut() -> f64 + 'a) -> Contender<'a> {
        let sections = (self.round_nanos / section().max(1.0)).clamp(1.0, MOST_SECTIONS) as u32;
        Contender { calls, sections, section: Box::new(section), best: f64::INFINITY }
    }
}

/// One of those that race.
pub struct Contender<'a> {
    /// Calls in a timed section, and timed sections in a round.
    calls: u32,
    sections: u32,
    /// Runs one timed section, and gives its nanoseconds.
    section: Box<dyn FnMut() -> f64 + 'a>,
    /// The best round so far, in nanoseconds a call.
    best: f64,
}

impl Contender<'_> {
    fn round(&mut self) {
        let total: f64 = (0..self.sections).map(|_| (self.section)()).sum();
        self.best = self.best.min(total / f64::from(self.sections * self.calls));
    }
}

/// Who does the same work.
pub struct Group<'a> {
    pub library: Contender<'a>,
    pub in_place: Contender<'a>,
    pub reference: Contender<'a>,
}

impl Group<'_> {
    fn round(&mut self) {
        self.library.round();
        self.in_place.round();
        self.reference.round();
    }

    fn times(&self) -> Times {
        let Group { library, in_place, reference } = self;
        Times { library: library.best, in_place: in_place.best, reference: reference.best }
    }
}

/// The best round of each, in nanoseconds a call.
#[derive(Clone, Copy)]
pub struct Times {
    pub library: f64,
    pub in_place: f64,
    pub reference: f64,
}

/// Below this a time can't be told well, and no ratio to it is given.
const LEAST_NANOS: f64 = 5.0;

impl Times {
    pub fn to_in_place(self) -> Option<f64> {
        (self.in_place >= LEAST_NANOS).then(|| self.library / self.in_place)
    }

    pub fn to_reference(self) -> Option<f64> {
        (self.reference >= LEAST_NANOS).then(|| self.library / self.reference)
    }
}

/// Rounds take turns, so that a busy time of the machine hits all alike, and all have rounds in its
/// quiet times.
pub fn race(rounds: u32, mut groups: Vec<Group>) -> Vec<Times> {
    for _ in 0..rounds {
        groups.iter_mut().for_each(Group::round);
    }
    groups.iter().map(Group::times).collect()
}
