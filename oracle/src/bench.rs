//! The original and the port side by side in one process, timed on texts that a fixed seed makes.

#[cfg(all(feature = "kif_put_in", feature = "kif_cut"))]
mod editing;
mod reading;
#[cfg(feature = "searches")]
mod searching;
mod slow;
mod usual;
#[cfg(feature = "kif_write")]
mod writing;

use crate::call::Call;
use crate::judge::{self, Answer, Outcome};
use crate::port;
use std::hint::black_box;
use std::time::{Duration, Instant};

/// How often each side does each work, in turns; the best time counts.
const ROUNDS: usize = 300;
/// And how often it does what is too short to be timed once.
const REPEATS: u32 = 20;
/// And how often the port does what is made to be slow.
const SLOW_ROUNDS: usize = 20;

/// Every call that both sides have.
pub fn bench() {
    println!("Best of {ROUNDS} rounds. The port is lent one buffer, which is not cleared between calls; what the");
    println!("original makes (a JsonKifuFormat, a String) is freed outside the time. MB are 1,000,000 bytes.");
    println!(
        "Last in a line: how many times as long the port takes as std::str::from_utf8 of the same text, and as a copy."
    );
    reading::bench();
    #[cfg(feature = "kif_write")]
    writing::bench();
    #[cfg(all(feature = "kif_put_in", feature = "kif_cut"))]
    editing::bench();
    #[cfg(feature = "searches")]
    searching::bench();
}

/// What reading makes of a text.
fn block(text: &str) -> Option<Vec<u8>> {
    match judge::fill(text.as_bytes()) {
        Outcome::Made { result, .. } => Some(result),
        _ => None,
    }
}

/// A call, once port and judge were seen to give the same: else there is nothing to time.
fn confirmed(call: Call, out: &mut [u8]) -> Call {
    let outcome = call.judged();
    assert_eq!(port::answer(&call, out), outcome.answer_in(out.len()));
    let front = outcome.front_in(out.len());
    assert!(out[..front.len()] == *front, "the port's bytes are not the judge's");
    call
}

fn port_time(call: &Call, out: &mut [u8]) -> Duration {
    timed(|| port::answer(call, out))
}

/// The port on calls made to be slow, each with its name and how many bytes it is given.
fn made_slow(calls: Vec<(&str, usize, Call)>, out: &mut [u8]) {
    let mut slowest = (Duration::ZERO, "");
    for (name, given, call) in calls {
        let call = confirmed(call, out);
        let [took] = best(SLOW_ROUNDS, || [port_time(&call, out)]);
        let Answer { number, first, second, .. } = port::answer(&call, out);
        println!("{name:44} {given:6} bytes  {number} {first:6} {second:5}  {:8.3} ms", millis(took));
        slowest = slowest.max((took, name));
    }
    println!("slowest: {}, {:.3} ms", slowest.1, millis(slowest.0));
}

/// How long something takes, its result's end apart.
fn timed<T>(run: impl FnOnce() -> T) -> Duration {
    let start = Instant::now();
    let made = black_box(run());
    let took = start.elapsed();
    drop(made);
    took
}

/// The best time of each side over so many rounds.
fn best<const N: usize>(rounds: usize, mut round: impl FnMut() -> [Duration; N]) -> [Duration; N] {
    let mut best = [Duration::MAX; N];
    for _ in 0..rounds {
        let times = round();
        best.iter_mut().zip(times).for_each(|(best, time)| *best = time.min(*best));
    }
    best
}

fn millis(time: Duration) -> f64 {
    time.as_secs_f64() * 1e3
}

/// How long it takes to check that a text is UTF-8, and to copy it into the front of a lent buffer.
fn least_times(text: &[u8], out: &mut [u8]) -> [Duration; 2] {
    let out = &mut out[..text.len()];
    let checked = repeated(|| std::str::from_utf8(black_box(text)).is_ok());
    let copied = repeated(|| black_box(&mut *out).copy_from_slice(black_box(text)));
    [checked, copied]
}

/// How long something takes that is too short to be timed once.
fn repeated<T>(mut run: impl FnMut() -> T) -> Duration {
    timed(|| (0..REPEATS).for_each(|_| drop(black_box(run())))) / REPEATS
}

/// A line of the table: both times, both speeds, how many times as fast the port is, and how many times as long as a
/// check and as a copy it takes.
fn row(name: &str, bytes: usize, [rust, port]: [Duration; 2], [checked, copied]: [Duration; 2]) {
    let micros = |time: Duration| millis(time) * 1e3;
    let speed = |time: Duration| bytes as f64 / micros(time);
    println!(
        "{name:8} {bytes:6} bytes  Rust {:9.1} us {:7.1} MB/s  port {:9.1} us {:7.1} MB/s  {:5.1} times  \
         {:5.1} x from_utf8 {:7.1} x copy",
        micros(rust),
        speed(rust),
        micros(port),
        speed(port),
        micros(rust) / micros(port),
        micros(port) / micros(checked),
        micros(port) / micros(copied),
    );
}
