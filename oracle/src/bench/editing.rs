//! Edits: the port's `kif_put_in` and `kif_cut`. The original has neither.

use super::{made_slow, slow};
use crate::call::Call;
use crate::record::{decode, LIMIT};

pub fn bench() {
    let mut out = vec![0; LIMIT];
    println!("\nputting a move in on the last entry of the same blocks; the port's answer and time");
    let text = |ply: u64| format!("{ply}同歩打\n").into();
    made_slow(edits(|block, line, ply| Call::PutIn { block, line, text: text(ply), from_text: true }), &mut out);
    println!("\ncutting the last line out of those that have variations; the port's answer and time");
    let cuts = edits(|block, line, _| Call::Cut { block, line, from_text: true });
    made_slow(cuts.into_iter().filter(|(_, _, cut)| !matches!(cut, Call::Cut { line: 0, .. })).collect(), &mut out);
}

/// An edit of each block, given its last line and the ply of that line's last entry.
fn edits(edit: impl Fn(Vec<u8>, u64, u64) -> Call) -> Vec<(&'static str, usize, Call)> {
    let edit = |(name, block): (_, Vec<u8>)| {
        let lines = decode(&block).expect("reading made it").lines;
        let last = lines.last().expect("it has a main line");
        let (line, ply) = (lines.len() as u64 - 1, last.start + last.entries.len() as u64 - 1);
        (name, block.len(), edit(block, line, ply))
    };
    slow::blocks().into_iter().map(edit).collect()
}
