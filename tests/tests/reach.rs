//! How high a claim reaches (document 02, wish 7): the library's call against the reference and the in-place vault, on random questions, at every
//! length, with every single byte, on reports that networks of Rattle vaults keep, beside the frame call, and in the worked cases.
use comparison::compared::Harm;
use comparison::frames::offered;
use comparison::met::Met;
use comparison::reaches::{Asker, Reached, MOST};
use comparison::records::LEN;
use comparison::sim::{self, Mode, Setup, Style};
use comparison::text::hex;
use comparison::vaults;
use reference::frame::{number4, parse_reports, Frame, Report, PROOF, SUGGEST};
use reference::reach::REPORTS_LEN;
use reference::reaches::{spelled, Coverage};
use reference::rng::Rng;
use reference::rules::{claims, Reports};
use reference::vault::Fault;

const FIRST_QUESTION: u64 = 90_000;
const QUESTIONS: u64 = 200_000;
const FRAMES: u64 = 60_000;

fn asker() -> Asker {
    Asker::new(Harm::None)
}

fn vote(view: u32, plan: u64) -> Option<Report> {
    Some(Report { view, plan })
}

/// The reference's own claims: yes at every view up to the answer, no at any above it. Asked at the answer, the ends and the views that the
/// reports name, and beside each of them.
fn assert_claimed(reports: &Reports, plan: u64, reach: u32) {
    let named = reports.iter().flatten().map(|report| report.view);
    for view in named.chain([0, reach, u32::MAX]) {
        for at in [view.saturating_sub(1), view, view.saturating_add(1)] {
            assert_eq!(claims(reports, plan, at), at <= reach, "{reports:?}, plan {plan} at view {at}");
        }
    }
}

/// What the answer rests on.
fn way(reports: &Reports, plan: u64) -> &'static str {
    match reports {
        [Some(highest), ..] if highest.plan == plan => "by the highest vote",
        [_, Some(_), _] => "by the previous vote",
        [Some(_), ..] => "0, highest for another plan",
        _ => "0, no vote",
    }
}

#[test]
fn questions_are_answered_as_the_reference_does() {
    let (mut asker, mut coverage) = (asker(), Coverage::default());
    for seed in FIRST_QUESTION..FIRST_QUESTION + QUESTIONS {
        let (question, answer) = asker.question(seed);
        coverage.look(&question, answer);
        if let Ok(view) = answer {
            assert_claimed(&parse_reports(&question.bytes).expect("passes 14"), question.plan, view);
        }
    }
    println!("{coverage}");
    assert_eq!(coverage.missing(), Vec::<String>::new());
}

/// Sound reports end to end, and bytes that are all alike.
#[test]
fn every_other_length_is_refused() {
    let mut asker = asker();
    let sound = spelled(&[vote(4, 5), vote(2, 6), vote(3, 7)]).repeat(3);
    for (bytes, wanted) in [(sound, Ok(4)), (vec![0; MOST], Ok(0)), (vec![1; MOST], Err(22)), (vec![255; MOST], Err(14))] {
        for length in 0..=MOST {
            let wanted = if length == REPORTS_LEN { wanted } else { Err(10) };
            assert_eq!(asker.ask(&format!("{length} bytes"), &bytes[..length], 5), wanted, "{length} bytes of {bytes:?}");
        }
    }
}

/// Each byte of sound reports as every other one, asked for the plans that they name and one more.
#[test]
fn single_bytes_are_judged_as_the_reference_does() {
    let sound = [
        [vote(4, 5), vote(2, 6), vote(3, 7)],
        // A step or a bit from 22.
        [vote(0x0100_0000, 5), vote(0x00ff_ffff, 4), None],
        [vote(u32::MAX, u64::MAX), vote(0, 1 << 63), vote(u32::MAX, 0)],
        [vote(1, 5), None, vote(0, 5)],
        [None, None, vote(3, 7)],
        [None; 3],
    ];
    let (mut asker, mut met) = (asker(), Met::default());
    for reports in sound {
        let plans: Vec<u64> = reports.iter().flatten().map(|report| report.plan).chain([8]).collect();
        for (at, byte) in (0..REPORTS_LEN).flat_map(|at| (0..=255).map(move |byte| (at, byte))) {
            let mut bytes = spelled(&reports);
            bytes[at] = byte;
            for &plan in &plans {
                let answer = asker.ask(&format!("{reports:?} with {byte} as byte {at}, plan {plan}"), &bytes, plan);
                met.note(match answer {
                    Ok(view) => {
                        let changed = parse_reports(&bytes).expect("passes 14");
                        assert_claimed(&changed, plan, view);
                        way(&changed, plan).into()
                    }
                    Err(number) => format!("refused {number}"),
                });
            }
        }
    }
    met.finish(&ways(&["refused 14", "refused 22"]));
}

fn ways(more: &[&str]) -> Vec<String> {
    let ways = ["by the highest vote", "by the previous vote", "0, highest for another plan", "0, no vote"];
    ways.iter().chain(more).map(|&way| way.into()).collect()
}

// Reports of networks of Rattle vaults.

const STYLES: [Style; 6] = [Style::Rounds, Style::Feints, Style::Partitions, Style::Chaos, Style::Camps, Style::Calm];

/// All plans that a kept suggest or proof names, and one more. What a vault took has an answer, below the frame's view.
fn ask_of_kept(asker: &mut Asker, met: &mut Met, from: &str, frame: &Frame, reports: &Reports) {
    let plans = reports.iter().flatten().map(|report| report.plan);
    for plan in plans.chain([u64::MAX - 1]) {
        let view = asker.ask(from, &spelled(reports), plan).expect("a frame that was taken");
        assert!(view < frame.view, "{frame:?}, plan {plan}: {view}, {from}");
        assert_claimed(reports, plan, view);
        met.note(way(reports, plan));
    }
}

#[test]
fn reports_of_networks_are_answered_as_the_reference_does() {
    let (mut asker, mut met) = (asker(), Met::default());
    let (mut runs, mut records, mut frames) = (0, 0, 0);
    for (n, f, liars, seeds) in [(4, 1, 1, 20), (4, 1, 0, 2), (7, 2, 2, 6), (10, 3, 3, 2)] {
        for (style, seed) in STYLES.into_iter().flat_map(|style| (0..seeds).map(move |seed| (style, seed))) {
            let setup = Setup { n, f, liars, mode: Mode::Bytes, fault: Fault::None, style, seed };
            let run = sim::run_collected(&setup, 60);
            runs += 1;
            for record in run.moments.iter().chain(&run.last) {
                records += 1;
                for frame in record.rows.iter().flatten().flatten() {
                    let Some(reports) = frame.reports() else { continue };
                    frames += 1;
                    ask_of_kept(&mut asker, &mut met, &format!("a record of {setup:?}"), frame, &reports);
                }
            }
        }
    }
    println!("{runs} runs, {records} records, {frames} suggests and proofs");
    met.finish(&ways(&[]));
}

// The frame call.

/// Vault 1 of four, at which nothing is kept.
fn started() -> Vec<u8> {
    let mut rec = vec![0; LEN];
    vaults::start(&mut rec, 4, 1, 1, 0, 7, &mut [0; 256]).expect("right settings");
    rec
}

/// A suggest or proof of vault 2 for a view that vault 1 leads, as it can be refused with 14, 21 and 22 only.
fn told(rng: &mut Rng) -> Vec<u8> {
    loop {
        let mut bytes = offered(rng, 4, 1);
        if bytes.len() == 45 && matches!(bytes[0], SUGGEST | PROOF) {
            let view = number4(&bytes[2..6]);
            bytes[1] = 2;
            bytes[2..6].copy_from_slice(&(view - view % 4 + 1).to_be_bytes());
            return bytes;
        }
    }
}

/// 14 is the same for both. 21, which is not asked here, comes before 22 there.
#[test]
fn frames_are_refused_alike() {
    let (mut asker, mut rng, mut met) = (asker(), Rng(91), Met::default());
    let rec = started();
    for round in 0..FRAMES {
        let bytes = told(&mut rng);
        let plan = rng.below(3);
        let taken = vaults::frame(&mut rec.clone(), 2, &bytes, &mut [0; 256]);
        let reach = asker.ask(&format!("frame {round}"), &bytes[6..], plan);
        let alike = match (taken, reach) {
            (Ok(_), Ok(view)) => view < number4(&bytes[2..6]),
            (Err(21), Ok(_) | Err(22)) => true,
            (Err(number @ (14 | 22)), Err(other)) => number == other,
            _ => false,
        };
        assert!(alike, "frame {}: {taken:?} by the frame call, {reach:?} here", hex(&bytes));
        met.note(format!("{:?} and {:?}", taken.map(|_| ()), reach.map(|_| ())));
    }
    let wanted = ["Ok(()) and Ok(())", "Err(14) and Err(14)", "Err(21) and Ok(())", "Err(21) and Err(22)", "Err(22) and Err(22)"];
    met.finish(&wanted.map(String::from));
}

// The worked cases.

#[test]
fn the_worked_cases() {
    let mut asker = asker();
    let mut ask = |reports: Reports, plan| -> Reached { asker.ask("a worked case", &spelled(&reports), plan) };
    let three = [vote(4, 5), vote(2, 6), vote(3, 7)];
    assert_eq!(hex(&spelled(&three)), "010000000400000000000000050100000002000000000000000601000000030000000000000007");
    assert_eq!([5, 6, 7].map(|plan| ask(three, plan)), [Ok(4), Ok(2), Ok(2)]);
    assert_eq!(ask([vote(4, 5), None, vote(3, 7)], 6), Ok(0));
    assert_eq!(ask([None, None, vote(u32::MAX, 7)], 7), Ok(0));
    assert_eq!(ask([vote(u32::MAX, 5), None, None], 5), Ok(u32::MAX));
    let alone = [None, vote(2, 6), None];
    assert_eq!(ask(alone, 6), Err(22));
    let mut bad_mark = spelled(&alone);
    bad_mark[26] = 2;
    assert_eq!(asker.ask("a worked case", &bad_mark, 6), Err(14));
    assert_eq!(asker.ask("a worked case", &[], 6), Err(10));
    assert_eq!(asker.ask("a worked case", &[1, 0], 6), Err(10));
}
