//! `soak MINUTES SEED [--sabotage NAME]`: see scripts/soak.
use std::process::ExitCode;

use comparison::soak::{soak, Sabotage};

fn asked(arguments: &[String]) -> Option<(u64, u64, Sabotage)> {
    let [minutes, seed, rest @ ..] = arguments else { return None };
    let sabotage = match rest {
        [] => Sabotage::None,
        [option, name] if option == "--sabotage" => Sabotage::ALL.iter().find(|known| known.0 == name)?.1,
        _ => return None,
    };
    Some((minutes.parse().ok()?, seed.parse().ok()?, sabotage))
}

fn main() -> ExitCode {
    let arguments: Vec<String> = std::env::args().skip(1).collect();
    let Some((minutes, seed, sabotage)) = asked(&arguments) else {
        let names = Sabotage::ALL.map(|known| known.0).join(", ");
        eprintln!("usage: soak MINUTES SEED [--sabotage NAME], NAME one of {names}; MINUTES 0 runs the one round of SEED");
        return ExitCode::FAILURE;
    };
    soak(minutes, seed, sabotage)
}
