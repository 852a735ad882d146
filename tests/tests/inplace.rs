//! The in-place vault of the bench against the library: the answer, and every byte of record and output, on random calls.
use comparison::compared::Harm;
use comparison::drive::Driver;

/// CALLS and SEED in the environment make a longer run, or another.
const CALLS: u64 = 300_000;
const SEED: u64 = 12;

fn from_environment(name: &str, usual: u64) -> u64 {
    std::env::var(name).map_or(usual, |text| text.parse().expect("a number"))
}

#[test]
fn in_place_vault_and_library_leave_the_same_bytes() {
    let calls = from_environment("CALLS", CALLS);
    let mut driver = Driver::new(from_environment("SEED", SEED), Harm::None, false);
    while driver.compared.seen.calls < calls {
        driver.round();
    }
    let seen = driver.compared.seen;
    println!("{} calls, accepted {}, steps {:?}, refusals {:?}", seen.calls, seen.accepted, seen.steps, seen.refusals);
    println!("A and B at different views: {}", seen.apart);
    println!("least calls of an n from 4 to 64: {}", seen.sizes[4..].iter().min().unwrap());
    assert!(seen.accepted > calls / 10);
    assert!(seen.steps.iter().all(|&count| count > 100), "{:?}", seen.steps);
    assert!(seen.apart > 100, "{}", seen.apart);
    // 20 is a line's.
    assert!((1..=22).all(|number| (seen.refusals[number] > 20) == (number != 20)), "{:?}", seen.refusals);
    assert!(seen.sizes[4..].iter().all(|&count| count > 100), "{:?}", seen.sizes);
}
