//! Reading: the original's `parse` and the port's `kif_fill`; and how much sooner `kif_measure` is done.

use super::{best, confirmed, least_times, made_slow, port_time, row, slow, timed, usual, ROUNDS};
#[cfg(feature = "kif_measure")]
use super::millis;
use crate::call::Call;
use crate::original::parser::kif::parse;
use crate::record::LIMIT;

pub fn bench() {
    let mut out = vec![0; LIMIT];
    println!("\nreading, {LIMIT} bytes lent");
    for (name, text) in usual::texts() {
        let call = confirmed(reading(&text), &mut out);
        let times = best(ROUNDS, || [timed(|| parse(&text)), port_time(&call, &mut out)]);
        row(name, text.len(), times, best(ROUNDS, || least_times(text.as_bytes(), &mut out)));
    }
    #[cfg(feature = "kif_measure")]
    measuring(&mut out);
    println!("\nreading texts made to be slow, {LIMIT} bytes lent; the port's answer and time");
    let slow = slow::texts().into_iter().map(|(name, text)| (name, text.len(), reading(&text)));
    made_slow(slow.collect(), &mut out);
}

/// Measuring beside filling.
#[cfg(feature = "kif_measure")]
fn measuring(out: &mut [u8]) {
    println!("\nmeasuring, which lends nothing, beside filling");
    for (name, text) in usual::texts() {
        let (fill, measure) = (reading(&text), confirmed(Call::Measure { text: text.into() }, out));
        let [filled, measured] = best(ROUNDS, || [port_time(&fill, out), port_time(&measure, out)]).map(millis);
        println!("{name:8} measured {:8.2} us  filled {:8.2} us  {:5.2} times", measured * 1e3, filled * 1e3, filled / measured);
    }
}

fn reading(text: &str) -> Call {
    Call::Fill { text: text.into() }
}
