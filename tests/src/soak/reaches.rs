//! How high claims reach. A question is made from one seed, so that its script is one line.
use reference::rng::Rng;

use super::Sabotage;
use crate::reaches::Asker;
use crate::stage;

/// In one round.
const QUESTIONS: u64 = 20_000;

pub fn round(mut rng: Rng, sabotage: Sabotage) {
    let mut asker = Asker::new(sabotage.harm());
    for _ in 0..QUESTIONS {
        let seed = rng.next();
        stage::begin(format!("reach {seed}\n").as_bytes());
        let (_, answer) = asker.question(seed);
        stage::counts().add_reach(answer);
    }
}

/// The question of the seed that the head names.
pub fn again(head: &[&str], sabotage: Sabotage) {
    let _ = Asker::new(sabotage.harm()).question(head[0].parse().expect("a seed"));
}
