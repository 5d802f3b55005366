//! A text read and written anew.

use crate::judge::{self, Answer};
use crate::record::LIMIT;

/// What is written in this mode of the block that the original reads from this input, or the refusal of reading or writing.
/// Mode 0 is the original's text.
pub fn text(input: &[u8], mode: u64) -> String {
    let mut block = vec![0; LIMIT];
    let read = judge::fill(input).deliver(&mut block);
    if read.number != 0 {
        return refused(read);
    }
    let outcome = judge::write_as(&block[..read.second as usize], mode);
    let mut out = vec![0; outcome.needed().unwrap_or(0)];
    let written = outcome.deliver(&mut out);
    if written.number != 0 {
        return refused(written);
    }
    String::from_utf8(out).expect("what is written is UTF-8")
}

fn refused(Answer { number, first, second, .. }: Answer) -> String {
    format!("refused {number} {first} {second}\n")
}
