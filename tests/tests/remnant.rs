//! Remnants and restarts (document 02, wish 6): the library's two calls against the reference, on random and damaged records and remnants of any
//! length, there and back, and in the worked case.
use comparison::compared::Harm;
use comparison::faults::{all, current_view, faults, kept, SLOTS};
use comparison::met::Met;
use comparison::random::{self, any_of, blank, harm, other_length};
use comparison::random_remnants::any_remnant;
use comparison::records::{class, contents, damage, reached, spell, Class, LEN};
use comparison::remnants::{restart_as_reference, write_as_reference, Host, REMNANT_SIZE};
use comparison::text::{bytes_of, hex};
use comparison::vaults;
use reference::record::Record;
use reference::remnant::{alone, record_of, remnant_of};
use reference::rng::Rng;

const WRITTEN: u64 = 40_000;
const RESTARTED: u64 = 150_000;
/// Remnants that are changed in turn.
const POOL: usize = 400;

fn host() -> Host {
    Host::new(Harm::None)
}

/// A sound record: of the generators, which mostly make one, or left by calls.
fn sound(rng: &mut Rng, reached: &[Record]) -> Vec<u8> {
    loop {
        let rec = match rng.below(4) {
            0 => random::contested(rng),
            1 => spell(any_of(rng, reached)),
            _ => random::sound(rng),
        };
        if class(&rec) == Class::Sound {
            return rec;
        }
    }
}

/// A record of any kind: sound, blank, damaged, any bytes, or of another length.
fn any_record(rng: &mut Rng, reached: &[Record]) -> Vec<u8> {
    let mut rec = sound(rng, reached);
    match rng.below(10) {
        0 => return blank(rng),
        1 => rec[0] = 0,
        2 => (0..1 + rng.below(3)).for_each(|_| harm(rng, &mut rec)),
        3 => (0..1 + rng.below(3)).for_each(|_| damage(rng, &mut rec)),
        4 => rng.fill(&mut rec),
        5 => rec.resize(other_length(rng, LEN), 0),
        _ => {}
    }
    rec
}

fn state(rec: &[u8]) -> &'static str {
    match class(rec) {
        _ if rec.len() != LEN => "of another length",
        Class::Blank => "blank",
        Class::Sound => "sound",
        Class::Unsound => "unsound",
    }
}

// Writing.

/// Why the answer is what it is.
fn way_of_writing(rec: &[u8], space: usize, answer: &Result<Vec<u8>, u8>) -> String {
    let way = match answer {
        Ok(_) if space == REMNANT_SIZE => "just enough space",
        Ok(_) => "more space",
        Err(1) => state(rec),
        Err(2) if rec.iter().all(|&byte| byte == 0) => "zeros",
        Err(2) => "anything behind n",
        Err(_) => match (rec.len(), contents(&[rec, &[0; LEN]].concat()[..LEN])) {
            (0, _) => "no bytes",
            (..LEN, _) => "too short",
            (LEN, None) => "a slot that spells nothing",
            (LEN, Some(record)) if record.settings.check().is_err() => "wrong settings",
            (LEN, _) => "unsound contents",
            _ => "too long",
        },
    };
    format!("{:?}: {way}", answer.as_ref().map(Vec::len))
}

fn ways_of_writing() -> Vec<String> {
    let ways: [(&str, &[&str]); 4] = [
        ("Ok(237)", &["just enough space", "more space"]),
        ("Err(1)", &["sound", "blank", "unsound", "of another length"]),
        ("Err(2)", &["zeros", "anything behind n"]),
        ("Err(3)", &["no bytes", "too short", "too long", "a slot that spells nothing", "wrong settings", "unsound contents"]),
    ];
    let mut all: Vec<String> = ways.iter().flat_map(|(answer, ways)| ways.iter().map(move |way| format!("{answer}: {way}"))).collect();
    all.extend(SLOTS.map(|slot| format!("written with {slot}")));
    all
}

#[test]
fn remnants_are_written_as_the_reference_does() {
    let (mut host, mut rng, mut met) = (host(), Rng(61), Met::default());
    let reached = reached(7, 60);
    for round in 0..WRITTEN {
        let rec = any_record(&mut rng, &reached);
        let space = if rng.one_in(3) { REMNANT_SIZE - 1 + rng.below(3) as usize } else { rng.below(301) as usize };
        let written = write_as_reference(&mut host, &mut rng, &format!("record {round}"), &rec, space);
        met.note(way_of_writing(&rec, space, &written));
        for (slot, name) in SLOTS.iter().enumerate() {
            if written.as_ref().is_ok_and(|remnant| kept(remnant, slot).is_some()) {
                met.note(format!("written with {name}"));
            }
        }
    }
    met.finish(&ways_of_writing());
}

// Restarts.

fn remnants(rng: &mut Rng, count: usize) -> Vec<Vec<u8>> {
    let reached = reached(7, 60);
    (0..count).map(|_| remnant_of(&contents(&sound(rng, &reached)).expect("sound")).to_vec()).collect()
}

fn state_of_remnant(remnant: &[u8]) -> &'static str {
    match remnant.len() {
        REMNANT_SIZE if faults(remnant).is_empty() => "sound",
        REMNANT_SIZE => "unsound",
        _ => "of another length",
    }
}

/// Why the answer is what it is; None where a remnant has several faults.
fn way_of_restart(rec: &[u8], remnant: &[u8], answer: &Result<Vec<u8>, u8>) -> Option<String> {
    let way = match answer {
        Ok(_) if rec.iter().all(|&byte| byte == 0) => "zeros".into(),
        Ok(_) => "anything behind n".into(),
        Err(1 | 4) => format!("record {}, remnant {}", state(rec), state_of_remnant(remnant)),
        Err(25) => match remnant.len() {
            0 => "no bytes".into(),
            1..REMNANT_SIZE => "too short".into(),
            _ => "too long".into(),
        },
        Err(_) => match &faults(remnant)[..] {
            [fault] => fault.clone(),
            _ => return None,
        },
    };
    Some(format!("{:?}: {way}", answer.as_ref().map(Vec::len)))
}

fn ways_of_restart() -> Vec<String> {
    let records = ["blank", "sound", "unsound", "of another length"];
    let remnants = ["sound", "unsound", "of another length"];
    let both = |answer: u8, record: &str| remnants.map(|remnant| format!("Err({answer}): record {record}, remnant {remnant}"));
    let others = ["Ok(10): zeros", "Ok(10): anything behind n", "Err(25): no bytes", "Err(25): too short", "Err(25): too long"];
    let mut ways: Vec<String> = others.map(String::from).into();
    ways.extend(records.iter().flat_map(|record| both(1, record)));
    ways.extend(records[1..].iter().flat_map(|record| both(4, record)));
    ways.extend(all().into_iter().map(|fault| format!("Err(26): {fault}")));
    ways.extend(SLOTS.map(|slot| format!("back with {slot}")));
    ways.extend(["view 0", "a later view", "the last view"].map(|view| format!("back in {view}")));
    ways
}

fn note_return(met: &mut Met, remnant: &[u8]) {
    for (_, name) in SLOTS.iter().enumerate().filter(|(slot, _)| kept(remnant, *slot).is_some()) {
        met.note(format!("back with {name}"));
    }
    let view = match current_view(remnant) {
        0 => "view 0",
        u32::MAX => "the last view",
        _ => "a later view",
    };
    met.note(format!("back in {view}"));
}

#[test]
fn restarts_do_as_the_reference_does() {
    let (mut host, mut rng, mut met) = (host(), Rng(62), Met::default());
    let (pool, reached) = (remnants(&mut rng, POOL), reached(7, 60));
    let [mut accepted, mut refused] = [0; 2];
    for round in 0..RESTARTED {
        let remnant = any_remnant(&mut rng, &pool);
        let before = if rng.one_in(8) { any_record(&mut rng, &reached) } else { blank(&mut rng) };
        let space = if rng.one_in(8) { rng.below(301) } else { 256 + rng.below(45) } as usize;
        let mut rec = before.clone();
        let answer = restart_as_reference(&mut host, &mut rng, &format!("restart {round}"), &mut rec, &remnant, space);
        if space >= 256 && state(&before) == "blank" {
            assert_eq!(answer.is_ok(), state_of_remnant(&remnant) == "sound", "restart {round}: {:?}", faults(&remnant));
        }
        way_of_restart(&before, &remnant, &answer).into_iter().for_each(|way| met.note(way));
        if answer.is_ok() {
            note_return(&mut met, &remnant);
        }
        accepted += u64::from(answer.is_ok());
        refused += u64::from(answer.is_err());
    }
    println!("{RESTARTED} restarts: {accepted} accepted, {refused} refused");
    met.finish(&ways_of_restart());
}

/// Each byte of two remnants as every other one, and each of many as a few others.
#[test]
fn single_bytes_are_judged_as_the_reference_does() {
    let (mut host, mut rng) = (host(), Rng(63));
    let full = |remnant: &[u8]| (0..17).filter(|&slot| kept(remnant, slot).is_some()).count();
    let mut pool = remnants(&mut rng, 60);
    pool.sort_by_key(|remnant| full(remnant));
    let [mut accepted, mut refused] = [0; 2];
    for (number, remnant) in pool.iter().enumerate() {
        let all_others = number == 0 || number + 1 == pool.len();
        for at in 0..REMNANT_SIZE {
            let old = remnant[at];
            let any = rng.next() as u8;
            let few = [0, 1, 2, 255, old ^ 0x80, old.wrapping_add(1), old.wrapping_sub(1), any];
            let others = if all_others { (0..=255).collect() } else { few.to_vec() };
            for byte in others.into_iter().filter(|&byte| byte != old) {
                let mut changed = remnant.clone();
                changed[at] = byte;
                let from = format!("remnant {number} with {byte} as byte {at}");
                let answer = restart_as_reference(&mut host, &mut rng, &from, &mut [0; LEN], &changed, 256);
                assert_eq!(answer.is_ok(), faults(&changed).is_empty(), "{from}");
                accepted += u64::from(answer.is_ok());
                refused += u64::from(answer == Err(26));
            }
        }
    }
    println!("{} remnants with one byte changed: {accepted} accepted, {refused} refused", pool.len());
    assert!(accepted > 10_000 && refused > 10_000);
}

// There and back.

/// A restart leaves the own row and no other, and what it leaves has the same remnant.
#[test]
fn what_is_written_comes_back() {
    let (mut host, mut rng) = (host(), Rng(64));
    let records = reached(7, 60);
    for round in 0..20_000 {
        let from = format!("round {round}");
        let rec = sound(&mut rng, &records);
        let remnant = write_as_reference(&mut host, &mut rng, &from, &rec, 256).expect("a sound record");
        let mut back = blank(&mut rng);
        let entry = restart_as_reference(&mut host, &mut rng, &from, &mut back, &remnant, 256).expect("a sound remnant");
        let record = contents(&rec).expect("sound");
        let millis = record.settings.timer_millis();
        assert_eq!(entry, [&[0xfe, 0x0b][..], &record.view.to_be_bytes(), &millis.to_be_bytes()].concat(), "{from}");
        assert!(back == spell(&alone(&record)), "{from}");
        assert!(record_of(&remnant) == Some(alone(&record)), "{from}");
        assert_eq!(write_as_reference(&mut host, &mut rng, &from, &back, 256), Ok(remnant), "{from}");
    }
}

// The worked case.

/// What an accepted call writes, in hexadecimal.
fn printed(call: impl FnOnce(&mut [u8]) -> Result<usize, u8>) -> Result<String, u8> {
    let mut out = [0; 256];
    call(&mut out).map(|count| hex(&out[..count]))
}

/// A frame of the sender that it names.
fn heard(rec: &mut [u8], frame: &str) -> Result<String, u8> {
    let bytes = bytes_of(frame.as_bytes()).expect("digits");
    printed(|out| vaults::frame(rec, bytes[1], &bytes, out))
}

fn restarted(rec: &mut [u8], remnant: &[u8]) -> Result<String, u8> {
    printed(|out| vaults::restart(rec, remnant, out))
}

fn remnant_of_bytes(rec: &[u8]) -> [u8; REMNANT_SIZE] {
    let mut out = [0; REMNANT_SIZE];
    assert_eq!(vaults::write_remnant(rec, &mut out), Ok(REMNANT_SIZE));
    out
}

#[test]
fn the_worked_case() {
    assert_eq!((vaults::remnant_size(), REMNANT_SIZE), (237, 237));
    let (vote_1, other_vote_1) = ("0201000000000000000000000007", "0202000000000000000000000007");
    let mut rec = vec![0; LEN];
    vaults::start(&mut rec, 4, 1, 0, 2, 7, &mut [0; 256]).expect("right settings");
    assert_eq!(heard(&mut rec, vote_1), Ok("".into()));
    assert_eq!(heard(&mut rec, other_vote_1), Ok("ff0300000000000000000000000007".into()));
    let remnant = remnant_of_bytes(&rec);
    // Proposal, vote-1 and vote-2.
    let sent = "01000000000000000000000007";
    assert_eq!(hex(&remnant), ["04010002000000000000000000000007", &sent.repeat(3), &"00".repeat(14 * 13)].concat());

    let mut rec = vec![0; LEN];
    assert_eq!(vaults::restart(&mut rec, &remnant, &mut [0; 255]), Err(1));
    assert_eq!(restarted(&mut rec, &remnant), Ok("fe0b0000000000000384".into()));
    assert_eq!(restarted(&mut rec, &remnant), Err(4));

    assert_eq!(heard(&mut rec, vote_1), Ok("".into()));
    assert_eq!(heard(&mut rec, other_vote_1), Ok("".into()));
    assert_eq!(heard(&mut rec, "0301000000000000000000000007"), Ok("".into()));
    assert_eq!(heard(&mut rec, "0302000000000000000000000007"), Ok("ff0400000000000000000000000007".into()));
    assert_eq!(printed(|out| vaults::timer(&mut rec, 0, out)), Ok("ff060000000001".into()));
    let mut again = vec![0; LEN];
    assert_eq!(restarted(&mut again, &remnant_of_bytes(&rec)), Ok("fe0b0000000000000384".into()));
    assert_eq!(printed(|out| vaults::timer(&mut again, 0, out)), Ok("ff060000000001".into()));

    let mut first_0 = remnant;
    first_0[0] = 0;
    assert_eq!(restarted(&mut [0; LEN], &first_0), Err(26));
    assert_eq!(restarted(&mut [0; LEN], &remnant[..10]), Err(25));
    assert_eq!(vaults::write_remnant(&rec, &mut [0; REMNANT_SIZE - 1]), Err(1));
    assert_eq!(vaults::write_remnant(&[0; LEN], &mut [0; REMNANT_SIZE]), Err(2));

    let mut last = remnant;
    last[4..8].fill(0xff);
    let mut rec = vec![0; LEN];
    assert_eq!(restarted(&mut rec, &last), Ok("fe0bffffffff00000384".into()));
    assert_eq!(vaults::timer(&mut rec, u32::MAX, &mut [0; 256]), Err(19));
}
