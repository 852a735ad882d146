//! Line scripts: the program's output against the reference's.
use reference::rng::Rng;
use reference::scripts::{cover, script, Coverage};

use super::Sabotage;
use crate::program::{Program, PROGRAM};
use crate::stage;

/// In one round.
const SCRIPTS: u64 = 20;

pub fn round(mut rng: Rng, sabotage: Sabotage) {
    let mut coverage = Coverage::default();
    for _ in 0..SCRIPTS {
        let script = script(rng.next());
        stage::begin(b"lines\n");
        stage::note(&script);
        same(&PROGRAM, &script, sabotage);
        cover(&script, &mut coverage);
    }
    stage::counts().add_scripts(&coverage);
}

/// The program prints what the reference says.
pub fn same(program: &Program, script: &[u8], sabotage: Sabotage) {
    let mut printed = program.printed("soak", script);
    if sabotage == Sabotage::OtherByte {
        change_decision(&mut printed);
    }
    let expected = program.expected(script);
    if printed != expected {
        let [ours, theirs] = [&printed, &expected].map(|output| String::from_utf8_lossy(output));
        let at = ours.lines().zip(theirs.lines()).take_while(|(one, other)| one == other).count();
        let [ours, theirs] = [ours, theirs].map(|output| output.lines().nth(at).unwrap_or("no line").to_owned());
        panic!("difference: of what is printed, line {} is {ours}, by the reference {theirs}", at + 1);
    }
}

/// Another last digit in a line that decides.
fn change_decision(printed: &mut [u8]) {
    const DIGITS: usize = 28;
    let lines = || printed.split(|&byte| byte == b'\n');
    if let Some(place) = lines().position(|line| line.starts_with(b"fe0a")) {
        let before: usize = lines().take(place).map(|line| line.len() + 1).sum();
        printed[before + DIGITS - 1] ^= 1;
    }
}

pub fn again(lines: &[Vec<u8>], sabotage: Sabotage) {
    same(&PROGRAM, &lines.concat(), sabotage);
}
