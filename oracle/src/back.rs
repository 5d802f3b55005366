//! What was read, or edited after, or drawn, is written and read back: the calls, and what they must come to.

use crate::call::Call;
use crate::judge::{answer, Outcome};
use crate::kept::{fate, kept, Counts, Fate, Tally};
use crate::left::read_again;
use crate::record::{decode, encode, u16_at};
use crate::whole::Mode;

/// The modes in which the port writes.
const MODES: u64 = if cfg!(feature = "kif_write_as") { 3 } else { 1 };

/// Writing the record that a call made, in every mode, and reading back what is written if 01 or 02 promises something of it.
/// What a call has itself written in a mode is only read back.
pub fn calls(tally: &mut Tally, call: &Call, outcome: &Outcome) -> Vec<(Call, Outcome)> {
    if let Call::WriteAs { block, mode: mode @ 0..=2 } = call {
        return reading_back(&mut tally.blocks, block, *mode, outcome);
    }
    let (Some(counts), Outcome::Made { result: block, .. }) = (counts_of(tally, call), outcome) else {
        return vec![];
    };
    let in_mode = |mode| {
        let write = writing(block.clone(), mode);
        let written = write.judged();
        let back = reading_back(counts, block, mode, &written);
        [vec![(write, written)], back].concat()
    };
    (0..MODES).flat_map(in_mode).collect()
}

/// Where a call's record counts: nowhere if it came of no text, since 01 promises nothing of blocks made by hand.
fn counts_of<'a>(tally: &'a mut Tally, call: &Call) -> Option<&'a mut [Counts; 3]> {
    match call {
        _ if cfg!(not(all(feature = "kif_fill", feature = "kif_write"))) => None,
        Call::Fill { .. } => Some(&mut tally.texts),
        Call::Restate { from_text: true, .. } => Some(&mut tally.restated),
        Call::PutIn { from_text: true, block, .. } | Call::Cut { from_text: true, block, .. } => {
            Some(if u16_at(block, 2) == Some(2) { &mut tally.restated } else { &mut tally.edits })
        }
        _ => None,
    }
}

/// The plain mode by the call that it had before there were others.
fn writing(block: Vec<u8>, mode: u64) -> Call {
    match mode {
        0 => Call::Write { block },
        _ => Call::WriteAs { block, mode },
    }
}

/// It must give the block of what is kept, by 01's words and 02's, so that a fault which reader and writer share shows too. What is
/// read is version 1; restated it is the old record again where no written entry has two.
fn reading_back(counts: &mut [Counts; 3], block: &[u8], mode: u64, written: &Outcome) -> Vec<(Call, Outcome)> {
    let fate = fate(block, Mode::of(mode), written);
    counts[mode as usize].add(fate);
    let (Fate::Back | Fate::Nested, Outcome::Made { result: text, .. }, true) =
        (fate, written, cfg!(feature = "kif_fill"))
    else {
        return vec![];
    };
    let kept = kept(decode(block).expect("the judge's block holds a record"), Mode::of(mode));
    let again = encode(&read_again(&kept));
    let is_restated = kept.version == 2 && fate == Fate::Back && cfg!(feature = "kif_restate");
    let restated = is_restated.then(|| {
        let outcome = Outcome::Made { result: encode(&kept), answer: answer(0, again.len() as u64, 0) };
        (Call::Restate { block: again.clone(), from_text: false }, outcome)
    });
    let answer = answer(0, text.len() as u64, again.len() as u64);
    let read = (Call::Fill { text: text.clone() }, Outcome::Made { result: again, answer });
    [Some(read), restated].into_iter().flatten().collect()
}
