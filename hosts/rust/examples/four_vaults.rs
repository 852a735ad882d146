//! Four vaults in one process (n = 4, f = 1) with one vault's frames lost in view 0: the timers run out, and the vaults decide in a later view.
//! Meanwhile the power fails at another vault, and it comes back with what was stored.
//! At the repository's top: bash scripts/build vault_c && cargo run --release --offline --manifest-path hosts/rust/Cargo.toml --example four_vaults
use std::collections::VecDeque;
use std::convert::Infallible;

use vault::{Decision, Entries, Entry, Frame, Record, Remnant, Settings, Vault};

const VAULTS: u8 = 4;

/// What a host keeps for one vault: what is stored of it, the view of its timer, and the decision.
struct Host {
    vault: Vault,
    stored: Option<Remnant>,
    timer: u32,
    decision: Option<u64>,
}

struct Message {
    from: u8,
    to: u8,
    frame: Frame,
}

impl Host {
    fn start(id: u8) -> Host {
        let mut vault = Vault::new(Record::blank());
        vault.start(Settings { n: VAULTS, f: 1, id, class: 2 }, 700 + u64::from(id)).expect("right settings");
        Host { vault, stored: None, timer: 0, decision: None }
    }

    /// Stores the remnant of vault `id`, then acts on the entries.
    fn store_and_act(&mut self, id: u8, links: &mut VecDeque<Message>) {
        // Nothing here outlives the process. A real host writes the bytes to a new file, calls fsync, and renames it.
        let write = |remnant: &Remnant| -> Result<(), Infallible> {
            self.stored = Some(remnant.clone());
            Ok(())
        };
        let Ok(entries) = self.vault.store_remnant(write);
        self.act(id, entries, links);
    }

    /// The power fails at vault `id`, and comes back: its record is gone, with the frames that others sent.
    fn restart(&mut self, id: u8, links: &mut VecDeque<Message>) {
        let stored = self.stored.as_ref().expect("its start was stored");
        let (vault, entries) = Vault::restart(stored.as_bytes()).expect("what was stored");
        println!("vault {id} is back");
        self.vault = vault;
        self.act(id, entries, links);
    }

    fn act(&mut self, id: u8, entries: Entries, links: &mut VecDeque<Message>) {
        for entry in entries {
            match entry {
                Entry::Timer { view, .. } => self.timer = view,
                Entry::Decision(Decision { view, plan }) => {
                    println!("vault {id} decides plan {plan} in view {view}");
                    self.decision = Some(plan);
                }
                Entry::All(frame) => links.extend((0..VAULTS).filter(|&to| to != id).map(|to| Message { from: id, to, frame })),
                Entry::To(to, frame) => links.push_back(Message { from: id, to, frame }),
            }
        }
    }
}

/// The leader of view 0 can't be heard until the first timers have run out.
fn lost(message: &Message) -> bool {
    message.from == 0 && message.frame.view() == 0
}

fn main() {
    let mut hosts: Vec<Host> = (0..VAULTS).map(Host::start).collect();
    let mut links = VecDeque::new();
    for (id, host) in (0..).zip(&mut hosts) {
        host.store_and_act(id, &mut links);
    }
    for round in 0..10 {
        while let Some(message) = links.pop_front() {
            let host = &mut hosts[usize::from(message.to)];
            // A refusal changes nothing: the frame came too late, or twice.
            if !lost(&message) && host.vault.frame(message.from, &message.frame).is_ok() {
                host.store_and_act(message.to, &mut links);
            }
        }
        if hosts.iter().all(|host| host.decision.is_some()) {
            break;
        }
        // No frame is on its way: every timer runs out.
        for (id, host) in (0..).zip(&mut hosts) {
            host.vault.timer(host.timer).expect("the current view");
            host.store_and_act(id, &mut links);
        }
        // Its view-change is on its way, and it does not know those of the others.
        if round == 0 {
            hosts[3].restart(3, &mut links);
        }
    }
    let plan = hosts[0].decision.expect("a decision");
    assert!(hosts.iter().all(|host| host.decision == Some(plan)));
    println!("all {VAULTS} vaults decided plan {plan}");
}
