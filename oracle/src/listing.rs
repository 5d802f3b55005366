//! What 01's listing program prints.   (01, Positions on the board of cases)

use crate::judge::{self, Answer};
use crate::record::{decode, Line, LIMIT};

/// The most bytes that the program takes of its input: one more than a text may have, so that refusal 1 can be seen.
const INPUT: usize = LIMIT + 1;

/// Bytes taken and block length, then each line of the block; or the refusal.
pub fn listing(input: &[u8]) -> String {
    let mut out = vec![0; LIMIT];
    let Answer { number, first, second, .. } = judge::fill(&input[..input.len().min(INPUT)]).deliver(&mut out);
    if number != 0 {
        return format!("refused {number} {first} {second}\n");
    }
    let mut shown = format!("read {first} block {second}\n");
    let record = decode(&out[..second as usize]).expect("the reader's block holds a record");
    for (k, Line { start, parent, entries }) in record.lines.iter().enumerate() {
        shown += &format!("line {k} start {start} moves {} parent {parent}\n", entries.len());
    }
    shown
}
