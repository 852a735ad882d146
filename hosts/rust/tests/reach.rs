//! How high a claim reaches: the worked cases of document 02, wish 7, and the reports of a proof that a vault wrote.
use vault::{claim_reach, Entry, Kind, Record, Refusal, Settings, Vault, REPORTS_SIZE};

/// A report of a vote for a plan in a view.
fn vote(view: u32, plan: u64) -> Vec<u8> {
    [&[1][..], &view.to_be_bytes(), &plan.to_be_bytes()].concat()
}

fn none() -> Vec<u8> {
    vec![0; 13]
}

#[test]
fn the_worked_cases() {
    let three = [vote(4, 5), vote(2, 6), vote(3, 7)].concat();
    assert_eq!(three.len(), REPORTS_SIZE);
    assert_eq!([5, 6, 7].map(|plan| claim_reach(&three, plan)), [Ok(4), Ok(2), Ok(2)]);
    assert_eq!(claim_reach(&[vote(4, 5), none(), vote(3, 7)].concat(), 6), Ok(0));
    assert_eq!(claim_reach(&[none(), none(), vote(u32::MAX, 7)].concat(), 7), Ok(0));
    assert_eq!(claim_reach(&[vote(u32::MAX, 5), none(), none()].concat(), 5), Ok(u32::MAX));
    let mut alone = [none(), vote(2, 6), none()].concat();
    assert_eq!(claim_reach(&alone, 6), Err(Refusal::Previous));
    alone[26] = 2;
    assert_eq!(claim_reach(&alone, 6), Err(Refusal::Report));
    assert_eq!([&[][..], &[1, 0]].map(|bytes| claim_reach(bytes, 6)), [Err(Refusal::Length); 2]);
}

/// A vault votes for the leader's plan in view 0, and tells it in the proof of view 1.
#[test]
fn the_proof_of_a_vault() -> Result<(), Refusal> {
    let mut vault = Vault::new(Record::blank());
    vault.start(Settings { n: 4, f: 1, id: 3, class: 0 }, 9)?;
    vault.frame(0, &[1, 0, 0, 0, 0, 0, 0, 0, 0, 0, 0, 0, 0, 7])?;
    // Two ask for view 1, and this vault with them: it enters.
    for sender in 0..2 {
        vault.frame(sender, &[6, sender, 0, 0, 0, 1])?;
    }
    let entries = vault.store(|_| Ok::<(), ()>(())).expect("stored");
    let proof = entries.filter_map(|entry| if let Entry::All(frame) = entry { Some(frame) } else { None }).find(|frame| frame.kind() == Kind::Proof);
    let proof = proof.expect("a proof");
    let reports = proof.reports().expect("three reports");
    assert_eq!(reports, &proof.as_bytes()[6..]);
    assert_eq!(reports, [vote(0, 7), none(), none()].concat());
    assert_eq!([claim_reach(reports, 7), claim_reach(reports, 9), claim_reach(&proof, 7)], [Ok(0), Ok(0), Err(Refusal::Length)]);
    Ok(())
}
