//! Lists of records at the call that names the vaults which spoke twice. A list is made from one seed, so that its script is one line.
use reference::rng::Rng;

use super::Sabotage;
use crate::lists::Desk;
use crate::stage;

/// In one round.
const LISTS: u64 = 1_000;

pub fn round(mut rng: Rng, sabotage: Sabotage) {
    let mut desk = Desk::new(sabotage.harm());
    for _ in 0..LISTS {
        let seed = rng.next();
        stage::begin(format!("list {seed}\n").as_bytes());
        let (list, named) = desk.list(seed);
        stage::counts().add_list(list.items.len(), &named);
    }
}

/// The list of the seed that the head names.
pub fn again(head: &[&str], sabotage: Sabotage) {
    let _ = Desk::new(sabotage.harm()).list(head[0].parse().expect("a seed"));
}
