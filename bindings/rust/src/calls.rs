//! The library's calls, as `include/kif.h` declares them. All that is unsafe in this crate stands here.
//!
//! Every call takes every input, keeps nothing and shares nothing. What it asks of pointers is so in each function below:
//!
//! - a slice is lent as its own pointer and length, and stays borrowed to the end of the call;
//! - `out` is borrowed mutably, so that it overlaps nothing else;
//! - the numbers are the elements of an array of `u64`, each by itself, which nothing else borrows.
#![allow(unsafe_code)]

type In = *const u8;
type Out = *mut u8;
type Number = *mut u64;

extern "C" {
    fn kif_measure(text: In, text_len: usize, number: Number, first: Number, second: Number);
    fn kif_fill(
        text: In,
        text_len: usize,
        out: Out,
        out_len: usize,
        number: Number,
        first: Number,
        second: Number,
        lost: Number,
    );
    fn kif_stop(
        text: In,
        text_len: usize,
        number: Number,
        first: Number,
        second: Number,
        third: Number,
        fourth: Number,
        fifth: Number,
        sixth: Number,
    );
    fn kif_spot(text: In, text_len: usize, at: u64, line: Number, column: Number);
    fn kif_sound(block: In, block_len: usize) -> bool;
    fn kif_write_as(
        block: In,
        block_len: usize,
        mode: u64,
        out: Out,
        out_len: usize,
        number: Number,
        first: Number,
        second: Number,
    );
    fn kif_put_in(
        block: In,
        block_len: usize,
        line: u64,
        text: In,
        text_len: usize,
        out: Out,
        out_len: usize,
        number: Number,
        first: Number,
        second: Number,
    );
    fn kif_cut(
        block: In,
        block_len: usize,
        line: u64,
        out: Out,
        out_len: usize,
        number: Number,
        first: Number,
        second: Number,
    );
    fn kif_restate(
        block: In,
        block_len: usize,
        out: Out,
        out_len: usize,
        number: Number,
        first: Number,
        second: Number,
    );
    fn kif_position(
        block: In,
        block_len: usize,
        line: u64,
        entry: u64,
        out: Out,
        out_len: usize,
        number: Number,
        first: Number,
        second: Number,
    );
}

/// Lends so many numbers to a call: its number, 0 for success, and its figures.
fn lend<const N: usize>(call: impl FnOnce([Number; N])) -> [u64; N] {
    let mut row = [0; N];
    call(row.each_mut().map(|number| number as Number));
    row
}

pub(crate) fn measure(text: &[u8]) -> [u64; 3] {
    // SAFETY: the text is lent with its length.
    lend(|[n, a, b]| unsafe { kif_measure(text.as_ptr(), text.len(), n, a, b) })
}

/// The fourth number is how many times were lost.
pub(crate) fn fill(text: &[u8], out: &mut [u8]) -> [u64; 4] {
    let (at, room) = (out.as_mut_ptr(), out.len());
    // SAFETY: text and out are lent with their lengths, and out overlaps nothing.
    lend(|[n, a, b, l]| unsafe { kif_fill(text.as_ptr(), text.len(), at, room, n, a, b, l) })
}

pub(crate) fn stop(text: &[u8]) -> [u64; 7] {
    // SAFETY: the text is lent with its length.
    lend(|[n, a, b, c, d, e, f]| unsafe { kif_stop(text.as_ptr(), text.len(), n, a, b, c, d, e, f) })
}

/// The line and the column. A place past the end is taken as the end.
pub(crate) fn spot(text: &[u8], at: u64) -> [u64; 2] {
    // SAFETY: the text is lent with its length.
    lend(|[line, column]| unsafe { kif_spot(text.as_ptr(), text.len(), at, line, column) })
}

pub(crate) fn sound(block: &[u8]) -> bool {
    // SAFETY: the block is lent with its length.
    unsafe { kif_sound(block.as_ptr(), block.len()) }
}

pub(crate) fn write_as(block: &[u8], mode: u64, out: &mut [u8]) -> [u64; 3] {
    let (at, room) = (out.as_mut_ptr(), out.len());
    // SAFETY: block and out are lent with their lengths, and out overlaps nothing.
    lend(|[n, a, b]| unsafe { kif_write_as(block.as_ptr(), block.len(), mode, at, room, n, a, b) })
}

pub(crate) fn put_in(block: &[u8], line: u64, text: &[u8], out: &mut [u8]) -> [u64; 3] {
    let (at, room) = (out.as_mut_ptr(), out.len());
    // SAFETY: block, text and out are lent with their lengths, and out overlaps nothing.
    lend(|[n, a, b]| unsafe {
        kif_put_in(block.as_ptr(), block.len(), line, text.as_ptr(), text.len(), at, room, n, a, b)
    })
}

pub(crate) fn cut(block: &[u8], line: u64, out: &mut [u8]) -> [u64; 3] {
    let (at, room) = (out.as_mut_ptr(), out.len());
    // SAFETY: block and out are lent with their lengths, and out overlaps nothing.
    lend(|[n, a, b]| unsafe { kif_cut(block.as_ptr(), block.len(), line, at, room, n, a, b) })
}

pub(crate) fn restate(block: &[u8], out: &mut [u8]) -> [u64; 3] {
    let (at, room) = (out.as_mut_ptr(), out.len());
    // SAFETY: block and out are lent with their lengths, and out overlaps nothing.
    lend(|[n, a, b]| unsafe { kif_restate(block.as_ptr(), block.len(), at, room, n, a, b) })
}

pub(crate) fn position(block: &[u8], line: u64, entry: u64, out: &mut [u8]) -> [u64; 3] {
    let (at, room) = (out.as_mut_ptr(), out.len());
    // SAFETY: block and out are lent with their lengths, and out overlaps nothing.
    lend(|[n, a, b]| unsafe { kif_position(block.as_ptr(), block.len(), line, entry, at, room, n, a, b) })
}

/// Look-ups, which ask each time whether the block is sound. A record is, and reads its rows by itself; tests hold the one against the other.
#[cfg(test)]
pub(crate) mod looks {
    use super::{lend, In, Number};

    type Look = unsafe extern "C" fn(In, usize, u64, Number, Number, Number);

    extern "C" {
        fn kif_lines(block: In, block_len: usize, number: Number, first: Number, second: Number);
        fn kif_entry(block: In, block_len: usize, line: u64, entry: u64, number: Number, first: Number, second: Number);
        pub(crate) fn kif_line(block: In, block_len: usize, k: u64, number: Number, first: Number, second: Number);
        pub(crate) fn kif_parent(block: In, block_len: usize, k: u64, number: Number, first: Number, second: Number);
        pub(crate) fn kif_comment(block: In, block_len: usize, k: u64, number: Number, first: Number, second: Number);
        pub(crate) fn kif_key(block: In, block_len: usize, k: u64, number: Number, first: Number, second: Number);
        pub(crate) fn kif_value(block: In, block_len: usize, k: u64, number: Number, first: Number, second: Number);
    }

    pub(crate) fn lines(block: &[u8]) -> [u64; 3] {
        // SAFETY: the block is lent with its length.
        lend(|[n, a, b]| unsafe { kif_lines(block.as_ptr(), block.len(), n, a, b) })
    }

    pub(crate) fn entry(block: &[u8], line: usize, entry: usize) -> [u64; 3] {
        // SAFETY: the block is lent with its length.
        lend(|[n, a, b]| unsafe { kif_entry(block.as_ptr(), block.len(), line as u64, entry as u64, n, a, b) })
    }

    /// One of the five above that are given one number.
    pub(crate) fn look(call: Look, block: &[u8], k: usize) -> [u64; 3] {
        // SAFETY: the block is lent with its length.
        lend(|[n, a, b]| unsafe { call(block.as_ptr(), block.len(), k as u64, n, a, b) })
    }
}
