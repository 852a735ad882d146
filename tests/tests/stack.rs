//! How deep the stack of a call gets: each call runs on a painted stack of its own, and the paint that is left tells. A thread of a small
//! C library has 128 KB, and a call may take at most 16 KB of it.
#![cfg(target_arch = "x86_64")]
use std::arch::asm;
use std::ffi::c_void;
use std::fmt::Debug;

use comparison::case::{Case, Class, SPACE};
use comparison::lists::List;
use comparison::records::{frame_slot, fresh, put, DECISION, LEN, PREVIOUS};
use comparison::remnants::REMNANT_SIZE;
use comparison::sides::Rattle;
use comparison::{cases, vaults};
use reference::frame::Report;
use reference::reaches::spelled;

/// What include/vault.h names as `VAULT_STACK_SIZE`.
const MOST: usize = 16 * 1024;
/// Far more than a call takes.
const STACK: usize = 1 << 20;
/// What is painted. A call may leave such a byte itself, but hardly both.
const PAINTS: [u8; 2] = [0xa7, 0x58];

extern "C" fn work_of(work: *mut c_void) {
    // SAFETY: `on_stack` hands over such a pointer, and nobody else calls this.
    let work = unsafe { &mut *work.cast::<&mut dyn FnMut()>() };
    work();
}

/// Runs the work on the stack that ends before `top`.
fn on_stack(top: *mut u8, mut work: &mut dyn FnMut()) {
    let work: *mut &mut dyn FnMut() = &mut work;
    // SAFETY: the stack is large enough and aligned; the old one comes back before anything looks at it. A panic ends the program.
    unsafe {
        asm!(
            "mov r12, rsp",
            "mov rsp, {top}",
            "call {call}",
            "mov rsp, r12",
            top = in(reg) top,
            call = in(reg) work_of as extern "C" fn(*mut c_void),
            in("rdi") work,
            out("r12") _,
            clobber_abi("C"),
        );
    }
}

/// The bytes of stack between the caller of the work and the deepest that was written.
fn depth(paint: u8, work: &mut dyn FnMut()) -> usize {
    let mut stack = vec![paint; STACK];
    let end = stack.as_mut_ptr_range().end;
    let top = end.wrapping_sub(end as usize % 64);
    on_stack(top, work);
    let deepest = stack.iter().position(|&byte| byte != paint).unwrap_or(STACK);
    assert!(deepest > 0, "the stack is too small");
    STACK - deepest
}

fn depth_of(case: &Case) -> usize {
    let lent = case.lend::<Rattle>();
    let once = |paint| {
        let (mut rec, mut out) = (lent.clone(), vec![0; case.space]);
        let mut answer = Err(0);
        let bytes = depth(paint, &mut || answer = case.call.on::<Rattle>(&mut rec, &mut out));
        assert_eq!(answer.is_ok(), case.class() != Class::Refused, "{}", case.name);
        bytes
    };
    PAINTS.map(once).into_iter().max().expect("two paints")
}

/// As many records as there may be, of as many vaults, with all votes kept, for two plans in turn.
fn full_list() -> List {
    let record = |id: u8| {
        let mut bytes = fresh([64, 21, id, 0], 0, 7);
        let votes = (2..=5).flat_map(|kind| (0..64).map(move |sender| frame_slot(kind, sender)));
        votes.for_each(|slot| put(&mut bytes, slot, 1, 0, u64::from(id % 2)));
        bytes
    };
    List::of(&(0..64).map(record).collect::<Vec<_>>())
}

/// Where everyone is named, and where all is well but the last record: both look at all of them.
#[test]
fn no_list_takes_more_than_16_kilobytes() {
    let mut list = full_list();
    for wanted in [Ok(64), Err(24)] {
        let once = |paint| {
            let (mut answer, mut out) = (Err(0), [0; SPACE]);
            let bytes = depth(paint, &mut || answer = vaults::equivocators(&list.records, &list.lengths, &mut out));
            assert_eq!(answer, wanted);
            bytes
        };
        let deepest = PAINTS.map(once).into_iter().max().expect("two paints");
        println!("{deepest:>7} bytes of stack, 64 records: {wanted:?}");
        assert!(deepest <= MOST);
        put(&mut list.records[63 * LEN..], PREVIOUS[1], 1, 0, 0);
    }
}

/// The most stack that a call takes; each paint has a copy of what is lent.
fn deepest<T: Copy + PartialEq + Debug>(lent: &[u8], mut call: impl FnMut(&mut [u8]) -> Result<T, u8>, wanted: Result<T, u8>) -> usize {
    let once = |paint| {
        let (mut lent, mut answer) = (lent.to_vec(), Err(0));
        let bytes = depth(paint, &mut || answer = call(&mut lent));
        assert_eq!(answer, wanted);
        bytes
    };
    PAINTS.map(once).into_iter().max().expect("two paints")
}

/// Of 64 vaults and of 4: a remnant of a full record, and the restart from it. Both accepted, and refused as late as they get.
#[test]
fn no_remnant_takes_more_than_16_kilobytes() {
    for (n, f) in [(4, 1), (64, 21)] {
        let mut full = fresh([n, f, 0, 0], 0, 7);
        let votes = (2..=5).flat_map(|kind| (0..usize::from(n)).map(move |sender| frame_slot(kind, sender)));
        votes.for_each(|slot| put(&mut full, slot, 1, 0, 7));
        let (mut remnant, mut out) = ([0; REMNANT_SIZE], [0; SPACE]);
        for wanted in [Ok(REMNANT_SIZE), Err(3)] {
            let bytes = deepest(&full, |rec| vaults::write_remnant(rec, &mut remnant), wanted);
            println!("{bytes:>7} bytes of stack, n = {n}, a remnant written: {wanted:?}");
            assert!(bytes <= MOST);
            put(&mut full, PREVIOUS[1], 1, 0, 0);
        }
        for wanted in [Ok(10), Err(26)] {
            let bytes = deepest(&[0; LEN], |rec| vaults::restart(rec, &remnant, &mut out), wanted);
            println!("{bytes:>7} bytes of stack, n = {n}, a restart: {wanted:?}");
            assert!(bytes <= MOST);
            // The previous vote-2 is at its highest's view.
            remnant[16 + 13 * 15] = 1;
        }
    }
}

/// Accepted, and refused as late as it gets.
#[test]
fn no_claims_reach_takes_more_than_16_kilobytes() {
    let [highest, previous] = [(4, 5), (2, 6)].map(|(view, plan)| Some(Report { view, plan }));
    for (reports, wanted) in [([highest, previous, None], Ok(2)), ([previous, highest, None], Err(22))] {
        let bytes = deepest(&spelled(&reports), |reports| vaults::claim_reach(reports, 6), wanted);
        println!("{bytes:>7} bytes of stack, a claim's reach: {wanted:?}");
        assert!(bytes <= MOST);
    }
}

/// What a host asks besides: of a full record and of an unsound one, of an output, and for the sentence that is asked for last.
#[test]
fn no_question_takes_more_than_16_kilobytes() {
    let mut full = full_list().records[..LEN].to_vec();
    put(&mut full, DECISION, 1, 0, 7);
    let mut unsound = full.clone();
    put(&mut unsound, PREVIOUS[1], 1, 0, 0);
    let depths = [
        deepest(&full, |rec| vaults::current(rec), Ok([0, 180])),
        deepest(&unsound, |rec| vaults::current(rec), Err(3)),
        deepest(&full, |rec| vaults::decision(rec), Ok(Some([0, 7]))),
        deepest(&unsound, |rec| vaults::decision(rec), Err(3)),
        deepest(&[0xfe, 0x0b, 0, 0, 0, 0, 0, 0, 0, 180], |out| Ok(vaults::entry(out, 0)), Ok(10)),
        deepest(&[0; SPACE], |out| Ok(vaults::refusal_text(26, out) > 0), Ok(true)),
    ];
    println!("{depths:?} bytes of stack: current, decision, entry, refusal_text");
    assert!(depths.iter().all(|&bytes| bytes <= MOST));
}

/// Hosts go by the header.
#[test]
fn the_header_names_the_bound() {
    let header = include_str!("../../include/vault.h");
    assert!(header.contains(&format!("#define VAULT_STACK_SIZE {MOST} ")));
}

/// The measure itself: an array of known size shows.
#[test]
fn a_written_array_shows() {
    #[inline(never)]
    fn written<const N: usize>() {
        std::hint::black_box(&mut [1u8; N]);
    }
    let small = depth(PAINTS[0], &mut || written::<1_000>());
    let large = depth(PAINTS[0], &mut || written::<101_000>());
    assert!((1_000..2_000).contains(&small), "{small}");
    assert!((99_000..101_000).contains(&(large - small)), "{small} {large}");
}

#[test]
fn no_call_takes_more_than_16_kilobytes() {
    let mut all = Vec::new();
    for (n, f) in [(4, 1), (64, 21)] {
        let cases = cases::all(n, f);
        cases.iter().for_each(Case::check);
        let mut depths: Vec<_> = cases.iter().map(|case| (depth_of(case), n, case.class(), case.name.clone())).collect();
        depths.sort_by_key(|depth| depth.0);
        for class in [Class::Quiet, Class::Refused, Class::Acting] {
            let (bytes, .., name) = depths.iter().rfind(|depth| depth.2 == class).expect("a case of the class");
            println!("{bytes:>7} bytes of stack, n = {n}, {class:?}: {name}");
        }
        all.append(&mut depths);
    }
    println!("the deepest call takes {} bytes of stack", all.iter().map(|depth| depth.0).max().expect("a call"));
    all.retain(|depth| depth.0 > MOST);
    assert!(all.is_empty(), "more than {MOST} bytes of stack: {all:#?}");
}
