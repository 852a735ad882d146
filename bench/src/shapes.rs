//! Report sets that are bad for one search or the other.

use comparison::rows::Reports;
use reference::frame::Report;

/// The view of the reports, above all views that they name.
pub const VIEW: u32 = 1_000_000;
const VOTED: u64 = 10_000;
const LOCKED: u64 = 30_000;
/// The plans that are worth asking for, and whose they are.
pub const ASKED: [(u64, &str); 3] =
    [(7, "nobody's plan"), (VOTED, "first vote's plan"), (LOCKED, "first lock's plan")];

/// The highest votes. Their views are all different.
#[derive(Clone, Copy, Debug)]
enum Votes {
    None,
    OnePlan,
    /// No plan has f + 1 votes, but each has f.
    PlanOfF,
    OwnPlan,
}

impl Votes {
    const ALL: [Votes; 4] = [Votes::None, Votes::OnePlan, Votes::PlanOfF, Votes::OwnPlan];
}

#[derive(Clone, Copy, Debug)]
enum Previous {
    None,
    /// Below all other views.
    Low,
    /// In the view before the highest.
    High,
}

impl Previous {
    const ALL: [Previous; 3] = [Previous::None, Previous::Low, Previous::High];
}

#[derive(Clone, Copy, Debug)]
enum Locks {
    None,
    /// Every second reporter has one.
    Half,
    OneView,
    OnePlan,
    BelowVotes,
    AboveVotes,
}

impl Locks {
    const ALL: [Locks; 6] = [
        Locks::None,
        Locks::Half,
        Locks::OneView,
        Locks::OnePlan,
        Locks::BelowVotes,
        Locks::AboveVotes,
    ];
}

/// Of the views, from vault 0 on.
#[derive(Clone, Copy, Debug)]
enum Order {
    Rising,
    Falling,
}

impl Order {
    const ALL: [Order; 2] = [Order::Rising, Order::Falling];
}

#[derive(Clone, Copy)]
pub struct Shape {
    votes: Votes,
    previous: Previous,
    locks: Locks,
    order: Order,
    /// All vaults report, or no more than a quorum.
    all: bool,
}

impl Shape {
    pub fn every() -> Vec<Shape> {
        let mut shapes = Vec::new();
        for votes in Votes::ALL {
            for previous in Previous::ALL {
                for locks in Locks::ALL {
                    for order in Order::ALL {
                        let shape = |all| Shape { votes, previous, locks, order, all };
                        shapes.extend([shape(true), shape(false)]);
                    }
                }
            }
        }
        shapes
    }

    pub fn name(self) -> String {
        let Shape { votes, previous, locks, order, all } = self;
        let who = if all { "n" } else { "n - f" };
        format!("{who} reports, votes {votes:?}, previous {previous:?}, locks {locks:?}, {order:?}")
    }

    pub fn reports(self, n: usize, f: usize) -> Reports {
        let count = if self.all { n } else { n - f };
        (0..n).map(|i| (i < count).then(|| self.report(i, n, f))).collect()
    }

    /// The reports of vault i. Views are all different where the shape does not say otherwise.
    fn report(self, i: usize, n: usize, f: usize) -> [Option<Report>; 3] {
        let place = match self.order {
            Order::Rising => i,
            Order::Falling => n - 1 - i,
        } as u32;
        let own = i as u64;
        let vote = |plan| Some(Report { view: 500_000 + 2 * place, plan });
        let highest = match self.votes {
            Votes::None => None,
            Votes::OnePlan => vote(VOTED),
            Votes::PlanOfF => vote(VOTED + own / f as u64),
            Votes::OwnPlan => vote(VOTED + own),
        };
        let previous = highest.and_then(|highest| match self.previous {
            Previous::None => None,
            Previous::Low => Some(Report { view: place, plan: 20_000 + own }),
            Previous::High => Some(Report { view: highest.view - 1, plan: 20_000 + own }),
        });
        let lock = |view, plan| Some(Report { view, plan });
        let lock = match self.locks {
            Locks::None => None,
            Locks::Half if i % 2 == 1 => None,
            Locks::OneView => lock(300_000, LOCKED + own),
            Locks::OnePlan => lock(300_000 + 2 * place, LOCKED),
            Locks::Half | Locks::BelowVotes => lock(300_000 + 2 * place, LOCKED + own),
            Locks::AboveVotes => lock(700_000 + 2 * place, LOCKED + own),
        };
        [highest, previous, lock]
    }
}
