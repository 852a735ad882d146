//! Safe plans, by one selection: u is the lowest view above which some quorum of reporters has no
//! lock. Below u no plan is allowed, at u only plans of locks at u (where not a quorum is free of
//! locks), above u every plan; and claims fall with the view. So only the claims at u and at the
//! next view count (docs/DECISIONS.md, 'The search for safe plans').

use crate::layout::*;
use crate::scan::{at_view, Ones};
use crate::sound::Present;

/// Up to 64 numbers.
struct Few<T>([T; 64], usize);

impl<T: Copy + Default + Ord> Few<T> {
    fn none() -> Few<T> {
        Few([T::default(); 64], 0)
    }

    #[inline(always)]
    fn add_if(&mut self, x: T, wanted: bool) {
        self.0[self.1 & 63] = x;
        self.1 += usize::from(wanted);
    }

    fn all(&self) -> &[T] {
        &self.0[..self.1]
    }

    fn count(&self, x: T) -> usize {
        self.all().iter().filter(|&&y| y == x).count()
    }

    /// Those that are there `least` times or more, smallest first.
    fn frequent(&mut self, least: usize) -> impl Iterator<Item = T> + '_ {
        let all: &mut [T] = if self.1 < least { &mut [] } else { &mut self.0[..self.1] };
        all.sort_unstable();
        let same = all.chunk_by(|a, b| a == b);
        same.filter(move |same| same.len() >= least).map(|same| same[0])
    }
}

/// Who claims what at a view: how many claim every plan, and the plans of those that claim only
/// their highest vote's.
struct Claims {
    every: usize,
    one: Few<u64>,
}

/// The suggests or proofs of a view.
pub struct Reports<'a> {
    n: usize,
    f: usize,
    view: u32,
    reporters: u64,
    locked: u64,
    highs: &'a Row,
    previous: &'a Row,
    locks: &'a Row,
}

impl<'a> Reports<'a> {
    /// Those of the current view in row 0 (suggests) or 1 (proofs).
    #[inline(always)]
    pub fn of(rec: &'a Record, present: &Present, row: usize) -> Reports<'a> {
        let first = reports_of(row);
        let n = usize::from(rec.n);
        let reporters = present.rows[row] & at_view(&rec.rows[row], n, rec.view());
        Reports {
            n,
            f: usize::from(rec.f),
            view: rec.view(),
            reporters,
            locked: reporters & present.rows[first + 2],
            highs: &rec.rows[first],
            previous: &rec.rows[first + 1],
            locks: &rec.rows[first + 2],
        }
    }

    /// 'some quorum q of reporters has no lock at all'; in view 0 every plan is safe.
    fn free(&self) -> bool {
        self.view == 0 || (self.reporters & !self.locked).count_ones() as usize >= self.n - self.f
    }

    /// The lowest view above which a quorum of reporters has no lock, where there are enough and no
    /// quorum is free of locks.
    fn lowest(&self) -> Option<u32> {
        let silent = self.n - self.reporters.count_ones() as usize;
        let place = self.f.checked_sub(silent)?;
        let mut locks = Few::none();
        for s in Ones(self.locked) {
            locks.add_if(self.locks[s].view(), true);
        }
        let locks = &mut locks.0[..locks.1];
        Some(*locks.select_nth_unstable_by(place, |a, b| b.cmp(a)).1)
    }

    fn claims(&self, at: u32) -> Claims {
        let mut claims = Claims { every: 0, one: Few::none() };
        for s in Ones(self.reporters) {
            let every = self.previous[s].view() >= at;
            claims.every += usize::from(every);
            claims.one.add_if(self.highs[s].plan(), !every & (self.highs[s].view() >= at));
        }
        claims
    }

    /// The claims at the next view, where that is below the reports' own.
    fn next(&self, at: u32) -> Option<Claims> {
        (at + 1 < self.view).then(|| self.claims(at + 1))
    }

    /// How many reporters have no lock at u, and the plans of the others that have none above it.
    fn locks_at(&self, u: u32) -> (usize, Few<u64>) {
        let mut below = (self.reporters & !self.locked).count_ones() as usize;
        let mut plans = Few::none();
        for s in Ones(self.locked) {
            let at = self.locks[s].view();
            below += usize::from(at < u);
            plans.add_if(self.locks[s].plan(), at == u);
        }
        (below, plans)
    }

    /// Step C.
    pub fn choose(&self, start: u64) -> Option<u64> {
        if self.free() {
            return Some(start);
        }
        let u = self.lowest()?;
        let (blocking, quorum) = (self.f + 1, self.n - self.f);
        let mut next = self.next(u);
        if next.as_ref().is_some_and(|next| next.every + next.one.count(start) >= blocking) {
            return Some(start);
        }
        let (below, mut locks) = self.locks_at(u);
        let here = self.claims(u);
        let backed = |p| here.every + here.one.count(p) >= blocking;
        if below + locks.count(start) >= quorum && backed(start) {
            return Some(start);
        }
        let later = next.as_mut().and_then(|next| next.one.frequent(blocking - next.every).next());
        let limit = |p: &u64| later.is_none_or(|later| *p < later);
        let locked = locks.frequent(quorum - below).take_while(limit).find(|&p| backed(p));
        locked.or(later)
    }

    /// Rule 3.
    pub fn safe(&self, p: u64) -> bool {
        if self.free() {
            return true;
        }
        let Some(u) = self.lowest() else {
            return false;
        };
        let (blocking, quorum) = (self.f + 1, self.n - self.f);
        let backs = |claims: &Claims| claims.every + claims.one.count(p) >= blocking;
        let Some(next) = self.next(u) else {
            let (below, locks) = self.locks_at(u);
            return below + locks.count(p) >= quorum && backs(&self.claims(u));
        };
        if backs(&next) {
            return true;
        }
        let (below, locks) = self.locks_at(u);
        if below + locks.count(p) >= quorum {
            let here = self.claims(u);
            return backs(&here) || two_sets(here, next, blocking);
        }
        self.next(u + 1).is_some_and(|later| two_sets(next, later, blocking))
    }
}

/// The two-set clause: a plan claimed at the later view, and another at the earlier one.
fn two_sets(mut here: Claims, mut later: Claims, blocking: usize) -> bool {
    if later.every >= blocking {
        return true;
    }
    later.one.frequent(blocking - later.every).next().is_some()
        && (here.every >= blocking || here.one.frequent(blocking - here.every).nth(1).is_some())
}
