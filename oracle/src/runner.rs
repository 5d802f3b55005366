//! Runs cases by seed, and reports those that fail.

use crate::call::Call;
use std::cell::RefCell;
use std::collections::BTreeMap;
use std::fmt::Display;
use std::panic::{self, AssertUnwindSafe};

/// One kind of case: how many it has for every hundred asked for, how many there are where they are enumerated and not drawn, how a
/// seed makes its call, and the test, which answers the number that the call came to.
pub struct Kind {
    pub name: &'static str,
    pub share: u64,
    pub all: Option<u64>,
    pub make: fn(u64) -> Call,
    pub test: fn(&Call) -> u64,
}

/// After so many failures a kind is left.
const ENOUGH: u64 = 3;
/// So many cases are tested at once, where they can be.
const MANY: usize = 64;

thread_local! {
    static LAST_PANIC: RefCell<String> = const { RefCell::new(String::new()) };
}

/// The numbers that calls came to, if none of them fails.
pub type AtOnce = fn(&[Call]) -> Option<Vec<u64>>;

/// Runs the cases of all kinds, the n-th of each with the n-th seed; answers how many passed and how many failed.
/// Where cases can be tested many at once, only those among which one fails are tested one by one.
pub fn run(word: &str, kinds: &[Kind], cases: u64, seed: u64, at_once: Option<AtOnce>) -> (u64, u64) {
    let (mut passed, mut failed) = (0, 0);
    for kind in kinds {
        let share = (cases * kind.share).div_ceil(100);
        let end = kind.all.map_or(share, |all| all.min(share));
        let mut tally = Tally::default();
        for first in (0..end).step_by(MANY) {
            let seeds: Vec<_> = (first..end.min(first + MANY as u64)).map(|n| seed.wrapping_add(n)).collect();
            match at_once.and_then(|test| many(kind, &seeds, test)) {
                Some(numbers) => numbers.into_iter().for_each(|number| tally.count(number)),
                None => tally.one_by_one(word, kind, &seeds),
            }
            if tally.failures >= ENOUGH {
                break;
            }
        }
        passed += tally.print(kind);
        failed += tally.failures;
    }
    (passed, failed)
}

/// The numbers that these cases come to, if all of them can be made and pass.
fn many(kind: &Kind, seeds: &[u64], test: AtOnce) -> Option<Vec<u64>> {
    caught(|| test(&seeds.iter().map(|&seed| (kind.make)(seed)).collect::<Vec<_>>())).ok().flatten()
}

/// How often each number was answered, and how many cases failed.
#[derive(Default)]
struct Tally {
    numbers: BTreeMap<u64, u64>,
    failures: u64,
}

impl Tally {
    fn count(&mut self, number: u64) {
        *self.numbers.entry(number).or_insert(0) += 1;
    }

    /// Until enough have failed.
    fn one_by_one(&mut self, word: &str, kind: &Kind, seeds: &[u64]) {
        for &seed in seeds {
            match case(word, kind, seed) {
                Some(number) => self.count(number),
                None => self.failures += 1,
            }
            if self.failures >= ENOUGH {
                return;
            }
        }
    }

    /// Prints the line of a kind; answers how many passed.
    fn print(&self, kind: &Kind) -> u64 {
        let (count, failures) = (self.numbers.values().sum(), self.failures);
        let of = kind.all.map_or(String::new(), |all| format!(" of all {all}"));
        let shown: Vec<_> = self.numbers.iter().map(|(number, count)| format!("{number}:{count}")).collect();
        println!("{:12} {count:7}{of} passed, {failures} failed; answers {}", kind.name, shown.join(" "));
        count
    }
}

/// The number that one case came to; none if it fails, which is reported.
fn case(word: &str, kind: &Kind, seed: u64) -> Option<u64> {
    let report = |what: &dyn Display, why| println!("{}, oracle/run {word} 1 {seed}: {what}\n  {why}", kind.name);
    let call = caught(|| (kind.make)(seed)).map_err(|why| report(&"no case could be made", why)).ok()?;
    caught(|| (kind.test)(&call))
        .map_err(|why| {
            let (call, why) = smallest(call, why, kind.test);
            report(&call, why);
        })
        .ok()
}

/// What a closure gives, or what it said when it panicked.
pub fn caught<T>(run: impl FnOnce() -> T) -> Result<T, String> {
    panic::set_hook(Box::new(|said| LAST_PANIC.with(|last| *last.borrow_mut() = said.to_string())));
    let result = panic::catch_unwind(AssertUnwindSafe(run));
    result.map_err(|_| LAST_PANIC.with(|last| last.take()))
}

/// The call with as much of its text left out as can be while the test still fails, and why it then fails.
fn smallest(mut call: Call, mut why: String, test: fn(&Call) -> u64) -> (Call, String) {
    let mut step = call.text_mut().map_or(0, |text| text.len());
    while step > 0 {
        let (mut at, mut shrunk) = (0, false);
        while let Some(smaller) = without(&call, at, step) {
            match caught(|| test(&smaller)) {
                Ok(_) => at += step,
                Err(still) => (call, why, shrunk) = (smaller, still, true),
            }
        }
        step = if shrunk && step == 1 { 1 } else { step / 2 };
    }
    (call, why)
}

/// The call without so many characters of its text from this one on; none where the text has ended.
fn without(call: &Call, at: usize, step: usize) -> Option<Call> {
    let mut smaller = call.clone();
    let text = smaller.text_mut()?;
    let starts: Vec<_> = (0..text.len()).filter(|&place| text[place] & 0xc0 != 0x80).collect();
    let end = starts.get(at + step).copied().unwrap_or(text.len());
    text.drain(*starts.get(at)?..end);
    Some(smaller)
}
