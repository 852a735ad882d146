//! For the desk: names the vaults that spoke twice in record files of one agreement.
//!
//! `equivocators FILE FILE ..` prints one line for each vault named. It ends with 0 where somebody or nobody is named, and with 1 where the
//! records are refused or a file cannot be read.
use std::process::ExitCode;

fn named(files: impl Iterator<Item = String>) -> Result<Vec<u8>, String> {
    let read = |file: String| std::fs::read(&file).map_err(|why| format!("{file}: {why}"));
    let records = files.map(read).collect::<Result<Vec<_>, _>>()?;
    vault::equivocators(&records).map_err(|refusal| refusal.to_string())
}

fn main() -> ExitCode {
    match named(std::env::args().skip(1)) {
        Ok(names) if names.is_empty() => println!("no vault spoke twice"),
        Ok(names) => names.iter().for_each(|name| println!("vault {name} spoke twice")),
        Err(why) => {
            eprintln!("{why}");
            return ExitCode::FAILURE;
        }
    }
    ExitCode::SUCCESS
}
