//! The buffer that the port is lent: patterned, with guards on both sides.

use crate::judge::{Answer, LONGEST};
use std::sync::LazyLock;

/// Bytes on each side of the lent part that must stay.
const GUARD: usize = 64;

static PATTERN: LazyLock<Vec<u8>> =
    LazyLock::new(|| (0..LONGEST + 2 * GUARD).map(|at| (at * 167 + at / 256 + 13) as u8).collect());

/// One buffer for all calls: it is the pattern before each of them, and only what a call had to change is put back
/// after it. What a call changed else is thereby found, at the latest in the longest part that is lent.
pub struct Lent(Vec<u8>);

impl Lent {
    pub fn new() -> Self {
        Lent(PATTERN.clone())
    }

    /// What a call answers with the first so many bytes lent.
    pub fn lend(&mut self, length: usize, call: impl FnOnce(&mut [u8]) -> Answer) -> Answer {
        call(&mut self.0[GUARD..GUARD + length])
    }

    /// Whether the lent part now begins with these bytes and all else, the guards too, is as it was; or the first
    /// place, from the lent part's start on, where it is not.
    pub fn first_difference(&self, length: usize, front: &[u8]) -> Option<isize> {
        let (start, end, guarded) = (GUARD, GUARD + front.len(), GUARD + length + GUARD);
        let parts = [(0, &PATTERN[..start]), (start, front), (end, &PATTERN[end..guarded])];
        // Whole parts at once, so that 200,000 bytes take microseconds.
        let (at, part) = parts.into_iter().find(|(at, part)| self.0[*at..at + part.len()] != **part)?;
        let same = self.0[at..].iter().zip(part).take_while(|(now, due)| now == due).count();
        Some((at + same) as isize - GUARD as isize)
    }

    /// Puts the pattern back where so many bytes were written.
    pub fn restore(&mut self, written: usize) {
        self.0[GUARD..GUARD + written].copy_from_slice(&PATTERN[GUARD..GUARD + written]);
    }
}
