//! The Rattle record's classes and bytes against the reference, on contents, on damaged records and on random bytes.
use comparison::record_class;
use comparison::records::{class, contents, damage, reached, spell, Class, LEN};
use reference::record::encode;
use reference::rng::Rng;

const DAMAGED: u32 = 60_000;

#[test]
fn what_calls_leave_is_sound_and_reads_back() {
    let records = reached(7, 40);
    assert!(records.len() > 500, "{}", records.len());
    for record in &records {
        let bytes = spell(record);
        assert_eq!(record_class(&bytes), Class::Sound);
        assert_eq!(contents(&bytes).as_ref(), Some(record));
    }
}

/// One byte changed, of a place that matters: the answers of the reference and of the Rattle code are the same.
#[test]
fn damaged_records_have_the_same_class() {
    let records = reached(7, 40);
    let mut rng = Rng(5);
    let mut classes = [0u32; 3];
    for _ in 0..DAMAGED {
        let record = &records[rng.below(records.len() as u64) as usize];
        let mut bytes = spell(record);
        for _ in 0..1 + rng.below(2) {
            damage(&mut rng, &mut bytes);
        }
        let expected = class(&bytes);
        assert_eq!(record_class(&bytes), expected);
        classes[expected as usize] += 1;
        // By contents the two layouts agree: what is sound in one is sound in the other.
        if expected == Class::Sound {
            let record = contents(&bytes).unwrap();
            assert!(matches!(reference::record::classify(&encode(&record)), reference::record::Lent::Sound(same) if same == record));
        }
    }
    println!("blank, sound, unsound: {classes:?}");
    assert!(classes.iter().all(|&count| count > 20), "{classes:?}");
}

#[test]
fn any_bytes_of_any_length_have_a_class() {
    let mut rng = Rng(6);
    for round in 0..400u64 {
        let len = match round % 4 {
            0 => rng.below(64) as usize,
            1 => LEN - 1 + rng.below(3) as usize,
            _ => LEN,
        };
        let mut bytes: Vec<u8> = (0..len).map(|_| rng.next() as u8).collect();
        if round % 8 == 2 {
            bytes[0] = 0;
        }
        assert_eq!(record_class(&bytes), class(&bytes), "length {len}");
    }
}
