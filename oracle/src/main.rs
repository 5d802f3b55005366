//! The judge of the port: 01's calls over the Rust original, cases for them, and the port beside it.

// The original's types, under the path by which its own files name them.
include!(concat!(env!("OUT_DIR"), "/jkf.rs"));
mod attach;
#[cfg(feature = "linked")]
mod back;
#[cfg(feature = "kif_fill")]
mod bench;
mod blocks;
mod call;
mod cases;
mod check;
#[cfg(feature = "linked")]
mod compare;
mod edits;
mod equals;
mod forms;
mod games;
mod judge;
mod kept;
mod known;
mod left;
#[cfg(feature = "linked")]
mod lent;
mod listed;
mod listing;
mod lost;
mod modes;
mod normalizer;
mod original;
mod pairs;
mod player;
mod plays;
#[cfg(feature = "linked")]
mod port;
mod position;
mod reached;
mod reasons;
mod record;
mod recorder;
mod replay;
mod rng;
mod runner;
mod sfen;
mod short;
mod small;
mod sound;
mod steps;
mod stop;
mod stops;
mod tables;
mod text;
mod texts;
mod times;
mod translate;
mod tree_blocks;
mod tree_checks;
mod trees;
mod whole;

use std::process::ExitCode;
use std::{env, fs, io, thread};

const CASES: u64 = 1_000_000;
const SEED: u64 = 1;
/// Enough for the original, which goes as deep into itself as variations are nested.
const STACK: usize = 1 << 28;

fn main() -> ExitCode {
    let words: Vec<String> = env::args().skip(1).collect();
    let running = thread::Builder::new().stack_size(STACK).spawn(move || obey(&words)).expect("a thread");
    match running.join() {
        Ok(Some(true)) => ExitCode::SUCCESS,
        Ok(None) => {
            eprintln!("usage: oracle/run [check [CASES] [SEED] | compare [CASES] [SEED] | bench | record FILE | listing FILE | text FILE [MODE]]");
            ExitCode::from(2)
        }
        _ => ExitCode::FAILURE,
    }
}

/// Whether what the words ask for went well; none if they ask for nothing there is.
fn obey(words: &[String]) -> Option<bool> {
    let words: Vec<&str> = words.iter().map(String::as_str).collect();
    match words[..] {
        ["check", ref numbers @ ..] => Some(check::check(number(numbers, 0, CASES)?, number(numbers, 1, SEED)?)),
        #[cfg(feature = "linked")]
        ["compare", ref numbers @ ..] => Some(compare::compare(number(numbers, 0, CASES)?, number(numbers, 1, SEED)?)),
        #[cfg(feature = "kif_fill")]
        ["bench"] => {
            bench::bench();
            Some(true)
        }
        #[cfg(not(feature = "kif_fill"))]
        ["bench"] => {
            eprintln!("bench: the library exports no kif_fill");
            Some(false)
        }
        ["record", file] => Some(reported(file, recorder::record(file))),
        ["listing", file] => Some(reported(file, fs::read(file).map(|input| print!("{}", listing::listing(&input))))),
        ["text", file, ref mode @ ..] => {
            let mode = number(mode, 0, 0)?;
            Some(reported(file, fs::read(file).map(|input| print!("{}", text::text(&input, mode)))))
        }
        _ => None,
    }
}

/// Whether something was done with a file; if not, why.
fn reported(file: &str, done: io::Result<()>) -> bool {
    done.map_err(|error| eprintln!("{file}: {error}")).is_ok()
}

/// The number at a place among the words, or what it is if left out.
fn number(words: &[&str], at: usize, otherwise: u64) -> Option<u64> {
    words.get(at).map_or(Some(otherwise), |word| word.parse().ok())
}
