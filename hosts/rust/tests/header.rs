//! The names and numbers of this crate are those of include/vault.h.
use vault::{Kind, Refusal, LONGEST_FRAME, RECORD_SIZE, REMNANT_SIZE, REPORTS_SIZE};

const HEADER: &str = include_str!("../../../include/vault.h");
const README: &str = include_str!("../../../README.md");

/// `NAME = 3` or `#define NAME 3` of the header, without the prefix.
fn names(prefix: &str) -> Vec<(String, u32)> {
    let words = |line: &str| line.replace(['=', ','], " ").replace("#define", " ").split_whitespace().map(str::to_owned).collect::<Vec<_>>();
    HEADER.lines().map(words).filter_map(|words| Some((words.first()?.strip_prefix(prefix)?.to_owned(), words.get(1)?.parse().ok()?))).collect()
}

fn plain(name: &str) -> String {
    name.replace('_', "").to_lowercase()
}

#[test]
fn refusals() {
    let header: Vec<_> = names("VAULT_REFUSED_").into_iter().map(|(name, number)| (plain(&name), number)).collect();
    let ours: Vec<_> = Refusal::ALL.map(|refusal| (plain(&format!("{refusal:?}")), u32::from(refusal.number()))).into();
    assert_eq!(header, ours);
    assert!(Refusal::ALL.iter().all(|&refusal| Refusal::from_number(u32::from(refusal.number())) == Some(refusal)));
    assert!([0, 20, 23, 27, 28].iter().all(|&number| Refusal::from_number(number).is_none()));
}

/// The support desk reads what the library says.
#[test]
fn sentences() {
    for refusal in Refusal::ALL {
        let (number, said) = (refusal.number(), refusal.to_string());
        let sentence = said.strip_prefix(&format!("refusal {number}: ")).expect("a number and a sentence");
        let row = README.lines().find(|line| line.starts_with(&format!("| {number} | {number:02x} |"))).expect("a row of the table");
        assert_eq!(row.rsplit('|').nth(1).map(str::trim), Some(sentence));
    }
}

#[test]
fn kinds() {
    let header = names("VAULT_");
    for number in 1..=8 {
        let name = plain(&format!("{:?}", Kind::from_number(number).expect("a kind")));
        assert!(header.iter().any(|(of, value)| plain(of) == name && *value == u32::from(number)), "{name}");
    }
    assert_eq!((Kind::from_number(0), Kind::from_number(9)), (None, None));
}

#[test]
fn sizes() {
    let header = names("VAULT_");
    let ours = [
        ("RECORD_SIZE", RECORD_SIZE),
        ("REMNANT_SIZE", REMNANT_SIZE),
        ("REPORTS_SIZE", REPORTS_SIZE),
        ("LONGEST_FRAME", LONGEST_FRAME),
        ("ACCEPTED", 256),
        ("OUTPUT_SIZE", 256),
    ];
    for (name, value) in ours {
        assert!(header.contains(&(name.to_owned(), value as u32)), "{name}");
    }
    let version =
        ["MAJOR", "MINOR", "PATCH"].map(|part| header.iter().find(|(name, _)| *name == format!("VERSION_{part}")).expect("a version").1.to_string());
    assert_eq!(version.join("."), env!("CARGO_PKG_VERSION"));
    let numbers = version.map(|part| part.parse::<u32>().expect("a number"));
    assert_eq!(vault::version(), numbers[0] * 10_000 + numbers[1] * 100 + numbers[2]);
}
