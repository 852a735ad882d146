//! The vault's calls through the static library against the reference by contents: the answer, and every byte of record and output.
use comparison::expected::{self, Lent};
use comparison::frames::{offered, plan, reports, view};
use comparison::records::{class, contents, place, reached, spell, Class, HEAD, LEN, SLOTS};
use comparison::sides::{Call, Rattle};
use comparison::vaults;
use reference::frame::{write, Body, Frame};
use reference::record::{Record, Settings};
use reference::rng::Rng;

const ROUNDS: u32 = 100_000;
/// Records that calls are made on in turn.
const POOL: u64 = 100;

/// A record to lend: sound, or blank with any contents, or damaged, or of a wrong length.
fn lent(rng: &mut Rng, record: &Record) -> Vec<u8> {
    let mut bytes = spell(record);
    match rng.below(12) {
        0 => bytes = vec![0; LEN],
        1 => bytes[0] = 0,
        2 => {
            rng.fill(&mut bytes);
            bytes[0] = 0;
        }
        3 => {
            let at = match rng.below(3) {
                0 => rng.below(HEAD as u64) as usize,
                1 => place(rng.below(SLOTS as u64) as usize),
                _ => rng.below(LEN as u64) as usize,
            };
            bytes[at] = rng.next() as u8;
        }
        4 => {
            let len = match rng.below(4) {
                0 => 0,
                1 => LEN - 1,
                2 => LEN + 1,
                _ => rng.below(2 * LEN as u64) as usize,
            };
            bytes.resize(len, 0);
        }
        _ => {}
    }
    bytes
}

/// A frame that is likely to be taken: for the record's view or the next, a view-change for a later one too, with a plan that is there already.
fn likely(rng: &mut Rng, record: &Record) -> Vec<u8> {
    let Settings { n, id, .. } = record.settings;
    let kind = 1 + rng.below(8) as u8;
    let ahead = if kind == 6 { 1 + rng.below(4) as u32 } else { 1 };
    let view = if kind >= 6 && rng.one_in(2) { record.view.saturating_add(ahead) } else { record.view };
    let sender = match kind {
        1 => (view % u32::from(n)) as u8,
        _ => (id + 1 + rng.below(u64::from(n) - 1) as u8) % n,
    };
    let plans: Vec<u64> = record.rows.iter().flatten().flatten().filter(|frame| frame.view == view).filter_map(|frame| frame.plan()).collect();
    let plan = if plans.is_empty() || rng.one_in(5) { plan(rng) } else { rng.pick(&plans) };
    let body = match kind {
        1..=5 => Body::Plan(plan),
        6 => Body::Empty,
        _ => Body::Reports(reports(rng, view)),
    };
    write(&Frame { kind, sender, view, body })
}

fn call(rng: &mut Rng, rec: &[u8]) -> Call {
    let record = (class(rec) == Class::Sound).then(|| contents(rec).unwrap());
    let (n, own) = record.as_ref().map_or((4, 0), |record| (record.settings.n, record.settings.id));
    match rng.below(8) {
        0 | 1 => {
            let n = rng.pick(&[4, 4, 7, 64, 3, 65, 255, 0]);
            let f = rng.pick(&[1, 1, 2, 21, 0, 22, 255]);
            let id = if rng.one_in(3) { n } else { rng.below(u64::from(n.max(1))) as u8 };
            Call::Start { settings: Settings { n, f, id, class: rng.pick(&[0, 1, 2, 3, 4, 5, 6, 7, 8, 255]) }, plan: plan(rng) }
        }
        2 => match &record {
            Some(record) if !rng.one_in(4) => Call::Timer { view: record.view },
            _ => Call::Timer { view: view(rng) },
        },
        _ => {
            let bytes = match &record {
                Some(record) if !rng.one_in(4) => likely(rng, record),
                _ => offered(rng, n, own),
            };
            let link = if rng.one_in(10) { rng.below(70) as u8 } else { bytes.get(1).copied().unwrap_or(0) };
            Call::Frame { link, bytes }
        }
    }
}

#[test]
fn every_byte_is_as_document_01_says() {
    let all = reached(7, 60);
    let mut rng = Rng(11);
    let mut records: Vec<Record> = (0..POOL).map(|_| all[rng.below(all.len() as u64) as usize].clone()).collect();
    let mut refusals = [0u32; 23];
    let mut steps = [0u32; 8];
    let mut accepted = 0u32;
    for _ in 0..ROUNDS {
        let place = rng.below(POOL) as usize;
        if rng.one_in(40) {
            records[place] = all[rng.below(all.len() as u64) as usize].clone();
        }
        let mut rec = lent(&mut rng, &records[place]);
        let mut out = vec![0; if rng.one_in(10) { rng.below(256) as usize } else { 256 + rng.below(145) as usize }];
        rng.fill(&mut out);
        let call = call(&mut rng, &rec);
        let before = Lent { rec: rec.clone(), out: out.clone() };
        let answer = call.on::<Rattle>(&mut rec, &mut out);
        match expected::check(&before, &call, &Lent { rec, out }, answer) {
            Ok(done) => {
                accepted += 1;
                // What an accepted call left is lent again, so that views and votes go on.
                records[place] = done.record;
                done.steps.iter().for_each(|&step| steps[step as usize] += 1);
            }
            Err(number) => refusals[usize::from(number)] += 1,
        }
    }
    println!("accepted {accepted}, steps {steps:?}, refusals {refusals:?}");
    assert!(accepted > ROUNDS / 20);
    assert!(steps.iter().all(|&count| count > 0), "{steps:?}");
    // 20 is a line's.
    assert!((1..=22).all(|number| (refusals[number] > 0) == (number != 20)), "{refusals:?}");
}

#[test]
fn the_record_size_is_told() {
    assert_eq!(vaults::record_size(), LEN);
}

/// M1 to M3 of document 01, through the calls.
#[test]
fn marked_settings() {
    let mut out = [0; 256];
    let mut started = |n, f| vaults::start(&mut [0; LEN], n, f, 0, 2, 7, &mut out);
    assert!(started(64, 21).is_ok());
    assert_eq!(started(64, 22), Err(6));
    assert_eq!(started(3, 1), Err(5));
}
