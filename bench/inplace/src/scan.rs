//! Scans of many bytes at once. x86-64 has SSE2 in every build; elsewhere plain loops do the same.

use crate::layout::{Row, Slot};

/// The bytes of slots.
#[inline(always)]
fn bytes(slots: &[Slot]) -> &[u8] {
    // SAFETY: slots are bytes end to end.
    unsafe { std::slice::from_raw_parts(slots.as_ptr().cast(), size_of_val(slots)) }
}

/// Whether all bytes are zero.
#[cfg(target_arch = "x86_64")]
#[inline]
fn zero(bytes: &[u8]) -> bool {
    use std::arch::x86_64::*;
    let len = bytes.len();
    if len < 16 {
        return bytes.iter().fold(0, |all, b| all | b) == 0;
    }
    // SAFETY: every load lies within the slice; SSE2 is there on every x86-64.
    unsafe {
        let at = |i: usize| _mm_loadu_si128(bytes.as_ptr().add(i).cast());
        let (mut a, mut b) = (_mm_setzero_si128(), at(len - 16));
        let (mut c, mut d) = (a, a);
        let mut i = 0;
        while i + 64 <= len {
            a = _mm_or_si128(a, at(i));
            b = _mm_or_si128(b, at(i + 16));
            c = _mm_or_si128(c, at(i + 32));
            d = _mm_or_si128(d, at(i + 48));
            i += 64;
        }
        while i + 16 <= len {
            a = _mm_or_si128(a, at(i));
            i += 16;
        }
        let (a, b) = (_mm_or_si128(a, c), _mm_or_si128(b, d));
        let none = _mm_cmpeq_epi8(_mm_or_si128(a, b), _mm_setzero_si128());
        _mm_movemask_epi8(none) == 0xffff
    }
}

#[cfg(not(target_arch = "x86_64"))]
fn zero(bytes: &[u8]) -> bool {
    bytes.iter().fold(0, |all, b| all | b) == 0
}

/// Whether all slots are absent.
#[inline(always)]
pub fn absent(slots: &[Slot]) -> bool {
    match slots {
        [] => true,
        [one] => u32::from(one.mark) | one.raw_view() == 0 && one.raw_plan() == 0,
        _ => zero(bytes(slots)),
    }
}

/// Bit s is mark s, where all marks are 0 or 1. The first n marks are gathered into `all`.
#[inline(always)]
pub fn marks(row: &Row, n: usize, all: &mut u8) -> u64 {
    let mut present = 0;
    for (place, slots) in row.chunks_exact(8).enumerate() {
        if 8 * place >= n {
            break;
        }
        let mut bits = 0;
        for slot in slots.iter().rev() {
            *all |= slot.mark;
            bits = 2 * bits + u64::from(slot.mark);
        }
        present |= bits << (8 * place);
    }
    present
}

/// Which of the first n slots pass a test.
#[inline(always)]
fn passing(row: &Row, n: usize, test: impl Fn(&Slot) -> bool) -> u64 {
    row[..n.min(64)].iter().rev().fold(0, |bits, slot| 2 * bits + u64::from(test(slot)))
}

/// Which of the first n slots are at a view. An absent one is at view 0.
#[inline(always)]
pub fn at_view(row: &Row, n: usize, view: u32) -> u64 {
    let view = view.to_be();
    passing(row, n, |slot| slot.raw_view() == view)
}

/// Which of the first n slots are for a plan, as `Slot::raw_plan` gives it.
#[inline(always)]
pub fn with_plan(row: &Row, n: usize, plan: u64) -> u64 {
    passing(row, n, |slot| slot.raw_plan() == plan)
}

/// What a test finds at the places of the ones, taken together. Where most of the first n places
/// are ones all n are asked: the test finds nothing at an absent slot.
#[inline(always)]
pub fn found(bits: u64, n: usize, test: impl Fn(usize) -> u64) -> u64 {
    let mut found = 0;
    if 2 * bits.count_ones() as usize > n {
        for s in 0..n.min(64) {
            found |= test(s);
        }
    } else {
        for s in Ones(bits) {
            found |= test(s);
        }
    }
    found
}

/// The places of the ones, lowest first.
#[derive(Clone, Copy)]
pub struct Ones(pub u64);

impl Iterator for Ones {
    type Item = usize;

    #[inline(always)]
    fn next(&mut self) -> Option<usize> {
        if self.0 == 0 {
            return None;
        }
        let place = self.0.trailing_zeros() as usize & 63;
        self.0 &= self.0 - 1;
        Some(place)
    }
}
