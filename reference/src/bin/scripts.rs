//! Writes random scripts for the line program: `scripts SEED COUNT [DIR]`.
//! With DIR each script becomes a file; without it they go to standard output one after the other.

use std::io::Write;
use std::path::Path;
use std::process::ExitCode;

use reference::scripts::{cover, script, Coverage};

fn main() -> ExitCode {
    let arguments: Vec<String> = std::env::args().skip(1).collect();
    let numbers: Vec<u64> = arguments.iter().take(2).filter_map(|text| text.parse().ok()).collect();
    let &[seed, count] = numbers.as_slice() else {
        eprintln!("usage: scripts SEED COUNT [DIR]");
        return ExitCode::FAILURE;
    };
    match write_all(seed, count, arguments.get(2).map(Path::new)) {
        Ok(coverage) => {
            eprintln!("{coverage:?}");
            ExitCode::SUCCESS
        }
        Err(error) => {
            eprintln!("scripts: {error}");
            ExitCode::FAILURE
        }
    }
}

/// Script number i has the seed SEED + i.
fn write_all(seed: u64, count: u64, directory: Option<&Path>) -> std::io::Result<Coverage> {
    let mut coverage = Coverage::default();
    if let Some(directory) = directory {
        std::fs::create_dir_all(directory)?;
    }
    for number in 0..count {
        let text = script(seed.wrapping_add(number));
        cover(&text, &mut coverage);
        match directory {
            Some(directory) => {
                std::fs::write(directory.join(format!("script-{number:06}.txt")), &text)?
            }
            None => write_apart(number, &text)?,
        }
    }
    Ok(coverage)
}

/// A script may lack its final newline, so the separator brings one of its own.
fn write_apart(number: u64, text: &[u8]) -> std::io::Result<()> {
    let mut output = std::io::stdout().lock();
    writeln!(output, "=== script {number}, {} bytes", text.len())?;
    output.write_all(text)?;
    writeln!(output)
}
