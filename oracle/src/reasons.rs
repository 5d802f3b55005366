//! How often play stopped for each of 02's reasons.   (02, i)

use crate::call::Call;
use crate::judge;
use crate::position::REASONS;
use std::fmt::Debug;

/// A run of so many cases that lacks a reason, or anything else that is counted, shows nothing of it, and so fails.
pub const MANY: u64 = 100_000;

/// How many positions were asked for, and how many of these calls stopped for each reason, in the order of `REASONS`.
#[derive(Clone, Copy, Default)]
pub struct Reasons {
    asked: u64,
    counts: [u64; REASONS.len()],
}

impl Reasons {
    /// Counts a call that came to this number, if it asks for a position.
    pub fn add(&mut self, call: &Call, number: u64) {
        let Call::Position { block, line, entry } = call else {
            return;
        };
        self.asked += 1;
        if number == 17 {
            let reason = judge::stop_of_play(block, *line, *entry).expect("play stops");
            self.counts[reason as usize] += 1;
        }
    }

    /// Where no position was asked for there is nothing to tell.
    pub fn report(&self, cases: u64) -> u64 {
        match self.asked {
            0 => 0,
            asked => report(&format!("of {asked} positions play stopped for"), &REASONS, &self.counts, cases),
        }
    }
}

/// Prints behind these words how often each thing came, and in a run of many cases how many never did; answers how many these are.
pub fn report<T: Debug>(words: &str, things: &[T], counts: &[u64], cases: u64) -> u64 {
    let told = |(thing, count)| format!("{thing:?} {count}");
    let told: Vec<_> = things.iter().zip(counts).map(told).collect();
    println!("{words} {}", told.join(", "));
    let missing = counts.iter().filter(|count| cases >= MANY && **count == 0).count() as u64;
    if missing > 0 {
        println!("{missing} of these never came");
    }
    missing
}
