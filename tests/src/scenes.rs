//! What a vault goes through before a timed call.

use reference::frame::{self, leader, Frame, Report, PROOF, PROPOSAL, SUGGEST, VIEW_CHANGE, VOTE_1};
use reference::record::Settings;

use crate::case::{Before, Case, Expected, Harm, SPACE};
use crate::sides::Call;

const CLASS: u8 = 2;
const START_PLAN: u64 = 7;

/// The calls at one vault from its start on, all accepted.
pub struct Scene {
    n: u8,
    f: u8,
    id: u8,
    calls: Vec<Call>,
}

impl Scene {
    pub fn blank(n: u8, f: u8, id: u8) -> Scene {
        Scene { n, f, id, calls: Vec::new() }
    }

    pub fn started(n: u8, f: u8, id: u8) -> Scene {
        let mut scene = Scene::blank(n, f, id);
        scene.calls.push(scene.start());
        scene
    }

    /// A vault that has entered a view by view-changes of n - f - 1 others and its own.
    pub fn entered(n: u8, f: u8, id: u8, view: u32) -> Scene {
        let scene = Scene::started(n, f, id);
        let count = scene.quorum() - 1;
        scene.hear_some(count, |sender, _| Frame::view_change(sender, view))
    }

    pub fn start(&self) -> Call {
        let &Scene { n, f, id, .. } = self;
        Call::Start { settings: Settings { n, f, id, class: CLASS }, plan: START_PLAN }
    }

    pub fn quorum(&self) -> usize {
        usize::from(self.n - self.f)
    }

    /// The other vaults, lowest first.
    fn others(&self) -> Vec<u8> {
        (0..self.n).filter(|&vault| vault != self.id).collect()
    }

    pub fn timer(mut self, view: u32) -> Scene {
        self.calls.push(Call::Timer { view });
        self
    }

    pub fn hear(mut self, frame: Frame) -> Scene {
        self.calls.push(heard(frame));
        self
    }

    /// One frame each from the first others; `frame` gets the sender and its place among them.
    pub fn hear_some(self, count: usize, frame: impl Fn(u8, u32) -> Frame) -> Scene {
        let senders = self.others();
        (0..).zip(&senders[..count]).fold(self, |scene, (i, &sender)| scene.hear(frame(sender, i)))
    }

    pub fn case(self, name: &str, call: Call, expected: Expected) -> Case {
        let before = Before::Calls(self.calls);
        Case { name: name.into(), before, searches: false, harm: Harm::None, call, space: SPACE, expected }
    }

    /// The last of the calls is the one to time.
    pub fn last(mut self, name: &str, expected: Expected) -> Case {
        let call = self.calls.pop().expect("there is a call");
        self.case(name, call, expected)
    }
}

/// A frame over the link from the sender that it names.
pub fn heard(frame: Frame) -> Call {
    Call::Frame { link: frame.sender, bytes: frame::write(&frame) }
}

pub fn report(view: u32, plan: u64) -> Option<Report> {
    Some(Report { view, plan })
}

/// Three reports whose views and plans no other place has. The lock lies between the votes.
pub fn lone(i: u32) -> [Option<Report>; 3] {
    let own = u64::from(i);
    [report(2000 + i, 2000 + own), report(10 + i, 3000 + own), report(1000 + i, 1000 + own)]
}

/// A view above all those that `lone` names, led by vault 1.
pub fn contested_view(n: u8) -> u32 {
    1 + 10_000 * u32::from(n)
}

/// The plan that the contested cases are about: the largest, so that every other is tried first.
pub const BACKED_PLAN: u64 = u64::MAX;

/// A vault that has heard reports from n - f - 1 others: with its own they are a quorum from the
/// last one on. `reports` gets a sender's place among them.
pub fn quorum_reports(scene: Scene, kind: u8, view: u32, reports: impl Fn(u32) -> [Option<Report>; 3]) -> Scene {
    let count = scene.quorum() - 1;
    scene.hear_some(count, |sender, i| Frame::with_reports(kind, sender, view, reports(i)))
}

/// All others have locks, and the last f + 1 voted for one plan in the view before. That plan is
/// safe from the last report on.
pub fn one_set(scene: Scene, kind: u8, view: u32) -> Scene {
    let alone = scene.quorum() - 1 - (usize::from(scene.f) + 1);
    quorum_reports(scene, kind, view, |i| {
        let [highest, previous, lock] = lone(i);
        let backs = i as usize >= alone;
        [if backs { report(view - 1, BACKED_PLAN) } else { highest }, previous, lock]
    })
}

/// Locks everywhere, and no f + 1 vaults for the proposal's plan. The two-set clause makes it safe
/// from the last report on: f vaults have a late previous vote, one more claims plan 1 in the view
/// before theirs, and the last one claims plan 2 with them.
pub fn two_sets(scene: Scene, view: u32) -> Scene {
    let f = usize::from(scene.f);
    let count = (scene.quorum() - 1).max(f + 2);
    scene.hear_some(count, |sender, i| {
        let [_, _, lock] = lone(i);
        let reports = match count - 1 - i as usize {
            0 => [report(view - 1, 2), None, lock],
            1 => [report(view - 2, 1), None, lock],
            k if k < f + 2 => [report(view - 1, 2), report(view - 2, 3), lock],
            _ => lone(i),
        };
        Frame::with_reports(PROOF, sender, view, reports)
    })
}

/// A vault in view 2 that keeps a frame of every kind from every other vault, all of later views
/// and with different plans and reports; of the view-changes f are for later views, and the others
/// for this one. No step acts.
pub fn full(n: u8, f: u8) -> Scene {
    let id = 1;
    let later = |scene: Scene| {
        let ahead = scene.others().split_off(scene.quorum() - 1);
        (10_000..).zip(ahead).fold(scene, |scene, (view, sender)| scene.hear(Frame::view_change(sender, view)))
    };
    let kinds = (PROPOSAL..=PROOF).filter(|&kind| kind != VIEW_CHANGE);
    kinds.fold(later(Scene::entered(n, f, id, 2)), |scene, kind| {
        let count = usize::from(n) - 1;
        scene.hear_some(count, |sender, i| {
            let (view, plan) = (10_000 + i, 100 * u64::from(kind) + u64::from(i));
            match kind {
                PROPOSAL => Frame::with_plan(kind, sender, led_by(sender, n), plan),
                SUGGEST => Frame::with_reports(kind, sender, led_by(id, n), lone(i)),
                PROOF => Frame::with_reports(kind, sender, view, lone(i)),
                _ => Frame::with_plan(kind, sender, view, plan),
            }
        })
    })
}

/// A view far up that a vault leads.
fn led_by(vault: u8, n: u8) -> u32 {
    let view = 10_000 * u32::from(n) + u32::from(vault);
    assert_eq!(leader(view, n), vault);
    view
}

/// A vault that voted for the leader's plan in view 0 and has heard n - f - 1 votes of each kind
/// up to `kind` for it: with its own they are a quorum from the last one on.
pub fn voting(n: u8, f: u8, kind: u8) -> Scene {
    let proposal = Frame::with_plan(PROPOSAL, 0, 0, START_PLAN);
    let scene = Scene::started(n, f, 1).hear(proposal);
    let count = scene.quorum() - 1;
    (VOTE_1..=kind).fold(scene, |scene, kind| scene.hear_some(count, |sender, _| Frame::with_plan(kind, sender, 0, START_PLAN)))
}
