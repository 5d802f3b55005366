//! Writing: the original's `to_kif_owned` and the port's `kif_write`, on what reading made of the same texts; and `kif_write_as` in the modes
//! that lose nothing, beside the original's text of the same record.

use super::{best, block, confirmed, least_times, made_slow, port_time, row, slow, timed, usual, ROUNDS};
use crate::call::Call;
use crate::judge::{self, LONGEST};
use crate::original::converter::kif::ToKif;
use crate::original::parser::kif::parse;

pub fn bench() {
    let mut out = vec![0; LONGEST];
    println!("\nwriting the same texts, {LONGEST} bytes lent; bytes are those written");
    for (name, text) in usual::texts() {
        let block = block(&text).expect("a usual text is read");
        let written = judge::write(&block).needed().expect("and written");
        let (_, read) = parse(&text).expect("by the original too");
        let call = confirmed(Call::Write { block }, &mut out);
        let shown = read.to_kif_owned();
        assert!(shown.as_bytes() == &out[..written], "not what the original writes");
        let times = best(ROUNDS, || [timed(|| read.to_kif_owned()), port_time(&call, &mut out)]);
        row(name, written, times, best(ROUNDS, || least_times(shown.as_bytes(), &mut out)));
    }
    for mode in [1, 2] {
        println!("\nwriting the same texts in mode {mode}, {LONGEST} bytes lent; bytes are those written, and the Rust's time is its own text's");
        for (name, text) in usual::texts() {
            let block = block(&text).expect("a usual text is read");
            let written = judge::write_as(&block, mode).needed().expect("and written");
            let (_, read) = parse(&text).expect("by the original too");
            let call = confirmed(Call::WriteAs { block, mode }, &mut out);
            let shown = out[..written].to_vec();
            let times = best(ROUNDS, || [timed(|| read.to_kif_owned()), port_time(&call, &mut out)]);
            row(name, written, times, best(ROUNDS, || least_times(&shown, &mut out)));
        }
    }
    println!("\nwriting the long blocks of texts made to be slow, {LONGEST} bytes lent; the port's answer and time");
    let blocks = slow::blocks().into_iter();
    made_slow(blocks.map(|(name, block)| (name, block.len(), Call::Write { block })).collect(), &mut out);
}
