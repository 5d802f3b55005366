//! The port's calls, through the C surface of its library. Each is declared where oracle/run found it exported.

// Some names stand idle until the library exports every call, and the last arm once it does.
#![allow(dead_code, unused_variables, unreachable_patterns)]

use crate::call::Call;
use crate::judge::{self, Answer};
use std::array;

type In = *const u8;
type Out = *mut u8;
type Figure = *mut u64;

extern "C" {
    #[cfg(feature = "kif_measure")]
    fn kif_measure(text: In, text_len: usize, number: Figure, first: Figure, second: Figure);
    #[cfg(feature = "kif_fill")]
    fn kif_fill(
        text: In,
        text_len: usize,
        out: Out,
        out_len: usize,
        number: Figure,
        first: Figure,
        second: Figure,
        lost: Figure,
    );
    #[cfg(feature = "kif_write")]
    fn kif_write(block: In, block_len: usize, out: Out, out_len: usize, number: Figure, first: Figure, second: Figure);
    #[cfg(feature = "kif_write_as")]
    fn kif_write_as(
        block: In,
        block_len: usize,
        mode: u64,
        out: Out,
        out_len: usize,
        number: Figure,
        first: Figure,
        second: Figure,
    );
    #[cfg(feature = "kif_put_in")]
    fn kif_put_in(
        block: In,
        block_len: usize,
        line: u64,
        text: In,
        text_len: usize,
        out: Out,
        out_len: usize,
        number: Figure,
        first: Figure,
        second: Figure,
    );
    #[cfg(feature = "kif_cut")]
    fn kif_cut(
        block: In,
        block_len: usize,
        line: u64,
        out: Out,
        out_len: usize,
        number: Figure,
        first: Figure,
        second: Figure,
    );
    #[cfg(feature = "kif_restate")]
    fn kif_restate(
        block: In,
        block_len: usize,
        out: Out,
        out_len: usize,
        number: Figure,
        first: Figure,
        second: Figure,
    );
    #[cfg(feature = "kif_position")]
    fn kif_position(
        block: In,
        block_len: usize,
        line: u64,
        entry: u64,
        out: Out,
        out_len: usize,
        number: Figure,
        first: Figure,
        second: Figure,
    );
    #[cfg(feature = "kif_comment")]
    fn kif_comment(block: In, block_len: usize, k: u64, number: Figure, first: Figure, second: Figure);
    #[cfg(feature = "kif_key")]
    fn kif_key(block: In, block_len: usize, k: u64, number: Figure, first: Figure, second: Figure);
    #[cfg(feature = "kif_value")]
    fn kif_value(block: In, block_len: usize, k: u64, number: Figure, first: Figure, second: Figure);
    #[cfg(feature = "kif_lines")]
    fn kif_lines(block: In, block_len: usize, number: Figure, first: Figure, second: Figure);
    #[cfg(feature = "kif_line")]
    fn kif_line(block: In, block_len: usize, k: u64, number: Figure, first: Figure, second: Figure);
    #[cfg(feature = "kif_parent")]
    fn kif_parent(block: In, block_len: usize, k: u64, number: Figure, first: Figure, second: Figure);
    #[cfg(feature = "kif_entry")]
    fn kif_entry(block: In, block_len: usize, line: u64, entry: u64, number: Figure, first: Figure, second: Figure);
    #[cfg(feature = "kif_sound")]
    fn kif_sound(block: In, block_len: usize) -> u8;
    #[cfg(feature = "kif_stop")]
    fn kif_stop(
        text: In,
        text_len: usize,
        number: Figure,
        first: Figure,
        second: Figure,
        third: Figure,
        fourth: Figure,
        fifth: Figure,
        sixth: Figure,
    );
    #[cfg(feature = "kif_spot")]
    fn kif_spot(text: In, text_len: usize, at: u64, line: Figure, column: Figure);
}

/// What the port answers with this buffer lent, if the call is lent one.
// SAFETY, of every call below: each pointer goes with the length of the slice that it comes from.
pub fn answer(call: &Call, out: &mut [u8]) -> Answer {
    let (at, room) = (out.as_mut_ptr(), out.len());
    match call {
        #[cfg(feature = "kif_fill")]
        Call::Fill { text } => {
            let fill = |[n, a, b, l]: [Figure; 4]| unsafe { kif_fill(text.as_ptr(), text.len(), at, room, n, a, b, l) };
            let [number, first, second, lost] = numbers(fill);
            Answer { lost, ..judge::answer(number, first, second) }
        }
        #[cfg(feature = "kif_write")]
        Call::Write { block } => lend(|n, a, b| unsafe { kif_write(block.as_ptr(), block.len(), at, room, n, a, b) }),
        #[cfg(feature = "kif_write_as")]
        Call::WriteAs { block, mode } => {
            lend(|n, a, b| unsafe { kif_write_as(block.as_ptr(), block.len(), *mode, at, room, n, a, b) })
        }
        #[cfg(feature = "kif_put_in")]
        Call::PutIn { block, line, text, .. } => lend(|n, a, b| unsafe {
            kif_put_in(block.as_ptr(), block.len(), *line, text.as_ptr(), text.len(), at, room, n, a, b)
        }),
        #[cfg(feature = "kif_cut")]
        Call::Cut { block, line, .. } => {
            lend(|n, a, b| unsafe { kif_cut(block.as_ptr(), block.len(), *line, at, room, n, a, b) })
        }
        #[cfg(feature = "kif_restate")]
        Call::Restate { block, .. } => {
            lend(|n, a, b| unsafe { kif_restate(block.as_ptr(), block.len(), at, room, n, a, b) })
        }
        #[cfg(feature = "kif_position")]
        Call::Position { block, line, entry } => {
            lend(|n, a, b| unsafe { kif_position(block.as_ptr(), block.len(), *line, *entry, at, room, n, a, b) })
        }
        _ => told(call),
    }
}

/// What it answers to a call that is lent no buffer.
fn told(call: &Call) -> Answer {
    match call {
        #[cfg(feature = "kif_measure")]
        Call::Measure { text } => lend(|n, a, b| unsafe { kif_measure(text.as_ptr(), text.len(), n, a, b) }),
        #[cfg(feature = "kif_comment")]
        Call::Comment { block, k } => lend(|n, a, b| unsafe { kif_comment(block.as_ptr(), block.len(), *k, n, a, b) }),
        #[cfg(feature = "kif_key")]
        Call::Key { block, k } => lend(|n, a, b| unsafe { kif_key(block.as_ptr(), block.len(), *k, n, a, b) }),
        #[cfg(feature = "kif_value")]
        Call::Value { block, k } => lend(|n, a, b| unsafe { kif_value(block.as_ptr(), block.len(), *k, n, a, b) }),
        #[cfg(feature = "kif_lines")]
        Call::Lines { block } => lend(|n, a, b| unsafe { kif_lines(block.as_ptr(), block.len(), n, a, b) }),
        #[cfg(feature = "kif_line")]
        Call::Line { block, k } => lend(|n, a, b| unsafe { kif_line(block.as_ptr(), block.len(), *k, n, a, b) }),
        #[cfg(feature = "kif_parent")]
        Call::Parent { block, k } => lend(|n, a, b| unsafe { kif_parent(block.as_ptr(), block.len(), *k, n, a, b) }),
        #[cfg(feature = "kif_entry")]
        Call::Entry { block, line, entry } => {
            lend(|n, a, b| unsafe { kif_entry(block.as_ptr(), block.len(), *line, *entry, n, a, b) })
        }
        #[cfg(feature = "kif_sound")]
        Call::Sound { block } => judge::answer(unsafe { kif_sound(block.as_ptr(), block.len()) }.into(), 0, 0),
        #[cfg(feature = "kif_stop")]
        Call::Stop { text } => judge::long_answer(numbers(|[n, a, b, c, d, e, f]| unsafe {
            kif_stop(text.as_ptr(), text.len(), n, a, b, c, d, e, f)
        })),
        #[cfg(feature = "kif_spot")]
        Call::Spot { text, at } => {
            let [line, column] = numbers(|[l, c]| unsafe { kif_spot(text.as_ptr(), text.len(), *at, l, c) });
            judge::answer(0, line, column)
        }
        _ => unreachable!("the library does not export this call"),
    }
}

/// The answer of a call that is lent three numbers.
fn lend(call: impl FnOnce(Figure, Figure, Figure)) -> Answer {
    let [number, first, second] = numbers(|[n, a, b]| call(n, a, b));
    judge::answer(number, first, second)
}

/// Lends so many numbers, at most seven, to a call, between others that it must leave alone.
fn numbers<const N: usize>(call: impl FnOnce([Figure; N])) -> [u64; N] {
    const UNTOUCHED: u64 = 0xa5a5_a5a5_a5a5_a5a5;
    let mut row = [UNTOUCHED; 9];
    // All of one pointer, by which any number of the row could be changed for all that the compiler knows.
    let start = row.as_mut_ptr();
    call(array::from_fn(|k| start.wrapping_add(1 + k)));
    let mut beside = row[..1].iter().chain(&row[1 + N..]);
    assert!(beside.all(|&number| number == UNTOUCHED), "a number beside those lent was changed");
    array::from_fn(|k| row[1 + k])
}
