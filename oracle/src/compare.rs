//! The port against the judge: the same calls, every answer and every byte; and what the port writes, read back by it.

use crate::back;
use crate::call::Call;
use crate::cases;
use crate::forms::Forms;
use crate::judge::{Outcome, LONGEST};
use crate::kept::Tally;
use crate::lent::Lent;
use crate::port;
use crate::reasons::Reasons;
use crate::runner::{run, Kind};
use std::cell::Cell;
use std::hint::black_box;
use std::{slice, thread};

/// What the port's calls may use of the stack.
const STACK: usize = 1 << 20;

thread_local! {
    /// The buffer from case to case. A case that fails leaves none behind.
    static LENT: Cell<Option<Lent>> = const { Cell::new(None) };
    /// What was read back in all cases so far.
    static BACK: Cell<Tally> = Cell::default();
    /// Why play stopped in all cases so far.
    static STOPS: Cell<Reasons> = Cell::default();
    /// What was met of version 2 in all cases so far.
    static FORMS: Cell<Forms> = Cell::default();
}

const KINDS: &[Kind] = &[
    #[cfg(feature = "kif_sound")]
    Kind { name: "bytes", share: 7, all: None, make: cases::altered_block, test: compared },
    #[cfg(feature = "kif_sound")]
    Kind { name: "sound", share: 5, all: None, make: cases::any_block, test: compared },
    #[cfg(feature = "kif_comment")]
    Kind { name: "comment", share: 1, all: None, make: cases::a_comment, test: compared },
    #[cfg(feature = "kif_key")]
    Kind { name: "key", share: 1, all: None, make: cases::a_key, test: compared },
    #[cfg(feature = "kif_value")]
    Kind { name: "value", share: 1, all: None, make: cases::a_value, test: compared },
    #[cfg(feature = "kif_lines")]
    Kind { name: "lines", share: 1, all: None, make: cases::all_lines, test: compared },
    #[cfg(feature = "kif_line")]
    Kind { name: "line", share: 2, all: None, make: cases::a_line, test: compared },
    #[cfg(feature = "kif_parent")]
    Kind { name: "parent", share: 2, all: None, make: cases::a_parent, test: compared },
    #[cfg(feature = "kif_entry")]
    Kind { name: "entry", share: 5, all: None, make: cases::an_entry, test: compared },
    #[cfg(all(feature = "kif_lines", feature = "kif_line", feature = "kif_parent", feature = "kif_entry"))]
    Kind { name: "small rows", share: 21, all: Some(cases::SMALL_ROWS), make: cases::small_row, test: compared },
    #[cfg(feature = "kif_fill")]
    Kind { name: "short texts", share: 34, all: Some(crate::short::SHORT), make: cases::short_text, test: compared },
    #[cfg(feature = "kif_fill")]
    Kind { name: "texts", share: 20, all: None, make: cases::any_text, test: compared },
    #[cfg(feature = "kif_write")]
    Kind { name: "small blocks", share: 6, all: Some(crate::small::SMALL), make: cases::small_block, test: compared },
    #[cfg(feature = "kif_write")]
    Kind { name: "write", share: 20, all: None, make: cases::to_write, test: compared },
    #[cfg(feature = "kif_write_as")]
    Kind { name: "small modes", share: 21, all: Some(cases::SMALL_MODES), make: cases::small_mode, test: compared },
    #[cfg(feature = "kif_write_as")]
    Kind { name: "modes", share: 40, all: None, make: cases::a_mode, test: compared },
    #[cfg(all(feature = "kif_put_in", feature = "kif_cut"))]
    Kind { name: "small edits", share: 92, all: Some(crate::edits::EDITS), make: cases::small_edit, test: compared },
    #[cfg(feature = "kif_put_in")]
    Kind { name: "put_in", share: 7, all: None, make: cases::to_put_in, test: compared },
    #[cfg(feature = "kif_put_in")]
    Kind { name: "small pairs", share: 10, all: Some(crate::edits::PAIRS), make: cases::small_pair, test: compared },
    #[cfg(feature = "kif_put_in")]
    Kind { name: "pairs", share: 10, all: None, make: cases::a_pair, test: compared },
    #[cfg(feature = "kif_cut")]
    Kind { name: "cut", share: 4, all: None, make: cases::to_cut, test: compared },
    #[cfg(feature = "kif_fill")]
    Kind { name: "numbered", share: 10, all: None, make: cases::numbered_text, test: compared },
    #[cfg(all(feature = "kif_put_in", feature = "kif_cut"))]
    Kind { name: "edits again", share: 10, all: None, make: cases::to_edit_again, test: compared },
    #[cfg(feature = "kif_stop")]
    Kind { name: "short stops", share: 34, all: Some(crate::short::SHORT), make: cases::short_stop, test: compared },
    #[cfg(feature = "kif_stop")]
    Kind { name: "stops", share: 20, all: None, make: cases::any_stop, test: compared },
    #[cfg(feature = "kif_stop")]
    Kind { name: "numbered stops", share: 5, all: None, make: cases::numbered_stop, test: compared },
    #[cfg(feature = "kif_spot")]
    Kind { name: "spots", share: 2, all: None, make: cases::a_spot, test: compared },
    #[cfg(feature = "kif_position")]
    Kind { name: "plays", share: 20, all: None, make: cases::a_play, test: compared },
    #[cfg(feature = "kif_position")]
    Kind { name: "positions", share: 5, all: None, make: cases::any_position, test: compared },
    #[cfg(feature = "kif_position")]
    Kind {
        name: "small positions",
        share: 6,
        all: Some(crate::small::SMALL),
        make: cases::small_position,
        test: compared,
    },
    #[cfg(feature = "kif_position")]
    Kind { name: "steps", share: 8, all: Some(crate::steps::STEPS), make: cases::a_step, test: compared },
    #[cfg(feature = "kif_restate")]
    Kind { name: "tables", share: 81, all: Some(crate::tables::TABLES), make: cases::a_table, test: compared },
    #[cfg(feature = "kif_restate")]
    Kind { name: "small trees", share: 60, all: Some(crate::edits::TREES), make: cases::small_tree, test: compared },
    #[cfg(feature = "kif_restate")]
    Kind { name: "deep trees", share: 1, all: Some(crate::tree_blocks::DEEP), make: cases::deep_tree, test: compared },
    #[cfg(feature = "kif_restate")]
    Kind { name: "tree bytes", share: 3, all: None, make: cases::altered_tree, test: compared },
    #[cfg(feature = "kif_restate")]
    Kind { name: "damaged trees", share: 2, all: None, make: cases::damaged_tree, test: compared },
    #[cfg(feature = "kif_restate")]
    Kind { name: "tree modes", share: 5, all: None, make: cases::tree_mode, test: compared },
    #[cfg(feature = "kif_restate")]
    Kind { name: "tree put-ins", share: 4, all: None, make: cases::to_put_in_tree, test: compared },
    #[cfg(feature = "kif_restate")]
    Kind { name: "tree cuts", share: 2, all: None, make: cases::to_cut_tree, test: compared },
    #[cfg(feature = "kif_restate")]
    Kind { name: "restate", share: 2, all: None, make: cases::to_restate, test: compared },
    #[cfg(feature = "kif_restate")]
    Kind { name: "tree look-ups", share: 1, all: None, make: cases::tree_look_up, test: compared },
    #[cfg(feature = "kif_restate")]
    Kind { name: "tree positions", share: 1, all: None, make: cases::tree_position, test: compared },
];

/// Whether the port answers every case as the judge does.
pub fn compare(cases: u64, seed: u64) -> bool {
    let (passed, failed) = run("compare", KINDS, cases, seed, Some(|calls| all_compared(calls).ok()));
    let failed = failed + BACK.get().report(cases) + STOPS.get().report(cases) + FORMS.get().report(cases);
    println!("{passed} passed, {failed} failed");
    failed == 0
}

/// The number that the port and the judge answer; a panic where they differ.
fn compared(call: &Call) -> u64 {
    all_compared(slice::from_ref(call)).unwrap_or_else(|difference| panic!("{difference}"))[0]
}

/// The numbers that the longest buffer gets, if answers and bytes are the same for all calls with every buffer and what
/// they make of texts reads back as it should; or how port and judge first differ.
fn all_compared(calls: &[Call]) -> Result<Vec<u64>, String> {
    let steps: Vec<_> = calls.iter().map(Call::steps).collect();
    let asked = steps.concat();
    if let Some((_, difference)) = first_difference(&asked, lengths) {
        return Err(difference);
    }
    let mut tally = BACK.get();
    let back: Vec<_> = asked.iter().flat_map(|(call, outcome)| back::calls(&mut tally, call, outcome)).collect();
    if let Some((call, difference)) = first_difference(&back, just_enough) {
        return Err(format!("then {call}\n  {difference}"));
    }
    BACK.set(tally);
    let numbers: Vec<_> = steps.iter().map(|steps| steps[0].1.answer_in(LONGEST).number).collect();
    let mut stops = STOPS.get();
    calls.iter().zip(&numbers).for_each(|(call, &number)| stops.add(call, number));
    STOPS.set(stops);
    let mut forms = FORMS.get();
    if cfg!(feature = "kif_restate") {
        asked.iter().for_each(|(call, outcome)| forms.add(call, outcome));
    }
    FORMS.set(forms);
    Ok(numbers)
}

/// The first call that the port does not answer as it should with one of these lengths lent, and how. One small stack
/// serves all calls, since it takes longer to make than a call.
fn first_difference(cases: &[(Call, Outcome)], lengths: fn(&Call, &Outcome) -> Vec<usize>) -> Option<(&Call, String)> {
    let given: Vec<_> = black_box(cases.iter().map(|(call, _)| call.clone()).collect());
    let mut lent = LENT.take().unwrap_or_else(Lent::new);
    let found = on_small_stack(|| {
        given.iter().zip(cases).find_map(|(given, (call, outcome))| {
            let mut lengths = lengths(call, outcome).into_iter();
            Some((call, lengths.find_map(|length| difference(given, outcome, &mut lent, length))?))
        })
    });
    if found.is_some() {
        return found;
    }
    let changed = black_box(&given).iter().zip(cases).find(|(given, (call, _))| *given != call);
    if let Some((_, (call, _))) = changed {
        return Some((call, "the port changed what it was given to read".into()));
    }
    LENT.set(Some(lent));
    None
}

/// How the port and the judge differ with so many bytes lent.
fn difference(call: &Call, outcome: &Outcome, lent: &mut Lent, length: usize) -> Option<String> {
    let answer = lent.lend(length, |out| port::answer(call, out));
    let (judged, front) = (outcome.answer_in(length), outcome.front_in(length));
    if answer != judged {
        return Some(format!("buffer {length}: the port answers {answer:?}, the judge {judged:?}"));
    }
    let at = lent.first_difference(length, front);
    lent.restore(front.len());
    at.map(|at| format!("buffer {length}: byte {at} is not as the judge leaves it"))
}

/// The lengths at which an answer could turn; look-ups, `sound`, stops and spots are lent no buffer.
fn lengths(call: &Call, outcome: &Outcome) -> Vec<usize> {
    let needed = outcome.needed().unwrap_or(0);
    match call {
        Call::Fill { .. }
        | Call::Write { .. }
        | Call::WriteAs { .. }
        | Call::PutIn { .. }
        | Call::Cut { .. }
        | Call::Restate { .. } => {
            vec![0, needed.saturating_sub(1), needed, 65_535, 65_536, LONGEST]
        }
        // All positions are of one length, whether one is made or not.
        Call::Position { .. } => vec![0, 99, 100, 101, 200],
        _ => vec![0],
    }
}

/// Room for the result and no more; other lengths are lent where such a call is a case of its own.
fn just_enough(_: &Call, outcome: &Outcome) -> Vec<usize> {
    vec![outcome.needed().unwrap_or(0)]
}

fn on_small_stack<T: Send>(run: impl FnOnce() -> T + Send) -> T {
    thread::scope(|scope| {
        let running = thread::Builder::new().stack_size(STACK).spawn_scoped(scope, run).expect("a thread");
        running.join().expect("the port's call panicked")
    })
}
