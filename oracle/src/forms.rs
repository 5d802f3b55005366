//! How often each form of version 2 was met, and of what is done with it.   (02, vi)

use crate::call::Call;
use crate::judge::{Answer, Outcome, LONGEST};
use crate::reasons::report;
use crate::record::{decode, encode, u16_at, Record};
use crate::sound::sound;
use crate::trees::{chain, faults, has_two, on_entry, Fault, Row};

#[derive(Clone, Copy, Debug, PartialEq, Eq)]
enum Form {
    /// A sound block of which an entry has two, of which the slot has two, one with a line that starts where its parent does, and those
    /// with 2,000 lines in one chain and on one entry.
    Two,
    TwoAtZero,
    AtParentsStart,
    Deep,
    Wide,
    /// A block that is not sound for one of 02's conditions alone, and one of another version.
    NotEarlier,
    NoEntry,
    Gap,
    Ascent,
    OtherVersion,
    /// A block that is restated, one that is version 2 already, and one that is not sound.
    Restated,
    RestatedBefore,
    NotRestated,
    /// A put-in on an entry that carries no variation, on one that does, and one that meets no room.
    PutAlone,
    PutBeside,
    PutNowhere,
    /// A cut of a line alone, of several, and one that leaves what 01's run by starts would take.
    CutOne,
    CutSeveral,
    CutLeaves,
    /// A text that leaves lines out, and a mode that refuses them.
    LeftOut,
    AtZero,
}
use Form::*;

const FORMS: [Form; 21] = [
    Two, TwoAtZero, AtParentsStart, Deep, Wide, NotEarlier, NoEntry, Gap, Ascent, OtherVersion, Restated,
    RestatedBefore, NotRestated, PutAlone, PutBeside, PutNowhere, CutOne, CutSeveral, CutLeaves, LeftOut, AtZero,
];

/// So many lines are many in one chain or on one entry.
const MANY_LINES: usize = 2_000;

/// How many calls met a version 2 block or were to restate one, and how many of them met each form, in the order of `FORMS`.
#[derive(Clone, Copy, Default)]
pub struct Forms {
    asked: u64,
    counts: [u64; FORMS.len()],
}

impl Forms {
    /// Counts a call that came to this.
    pub fn add(&mut self, call: &Call, outcome: &Outcome) {
        let is_asked = |block: &&[u8]| u16_at(block, 2) != Some(1) || matches!(call, Call::Restate { .. });
        let block = call.block().filter(is_asked);
        let Some((block, record)) = block.and_then(|block| Some((block, decode(block)?))) else {
            return;
        };
        self.asked += 1;
        let forms = match (sound(block), record.version) {
            (false, _) => [of_unsound(block, &record), of_refused(call)].concat(),
            (true, 2) => [of_sound(&record.rows()), of_call(call, &record.rows(), outcome)].concat(),
            (true, _) => vec![Restated],
        };
        forms.into_iter().for_each(|form| self.counts[form as usize] += 1);
    }

    /// Where no such call was made there is nothing to tell.
    pub fn report(&self, cases: u64) -> u64 {
        match self.asked {
            0 => 0,
            asked => report(&format!("{asked} calls of version 2 or to restate met"), &FORMS, &self.counts, cases),
        }
    }
}

fn met(forms: &[(Form, bool)]) -> Vec<Form> {
    forms.iter().filter(|(_, is_met)| *is_met).map(|(form, _)| *form).collect()
}

fn of_sound(rows: &[Row]) -> Vec<Form> {
    let variations = 1..rows.len();
    let at_parents_start = |k: usize| rows[k].parent > 0 && rows[k].start == rows[rows[k].parent].start;
    let is_deep = |k: usize| chain(rows, k).count() >= MANY_LINES;
    let is_wide = |k: usize| on_entry(rows, rows[k].entry()).count() >= MANY_LINES;
    let many = rows.len() > MANY_LINES;
    met(&[
        (Two, has_two(rows)),
        (TwoAtZero, on_entry(rows, (0, 0)).count() > 1),
        (AtParentsStart, variations.clone().any(at_parents_start)),
        (Deep, many && variations.clone().any(is_deep)),
        (Wide, many && variations.clone().any(is_wide)),
    ])
}

/// Where nothing else is wrong.
fn of_unsound(block: &[u8], record: &Record) -> Vec<Form> {
    if !record.is_well_formed_in_parts() || encode(record) != block {
        return vec![];
    }
    match (record.version, &faults(&record.rows())[..]) {
        (2, [Fault::NotEarlier]) => vec![NotEarlier],
        (2, [Fault::NoEntry]) => vec![NoEntry],
        (2, [Fault::Gap]) => vec![Gap],
        (2, [Fault::Ascent]) => vec![Ascent],
        (1 | 2, _) => vec![],
        _ => vec![OtherVersion],
    }
}

fn of_refused(call: &Call) -> Vec<Form> {
    met(&[(NotRestated, matches!(call, Call::Restate { .. }))])
}

/// Of what is done with a sound block.
fn of_call(call: &Call, rows: &[Row], outcome: &Outcome) -> Vec<Form> {
    let Answer { number, second, .. } = outcome.answer_in(LONGEST);
    match call {
        Call::Restate { .. } => vec![RestatedBefore],
        Call::PutIn { .. } => of_put_in(number, outcome),
        Call::Cut { line, .. } if number == 0 => {
            let (first, removed) = (*line as usize, second as usize);
            let leaves = rows.get(first + removed).is_some_and(|next| next.start >= rows[first].start);
            met(&[(CutOne, removed == 1), (CutSeveral, removed > 1), (CutLeaves, leaves)])
        }
        Call::Write { .. } | Call::WriteAs { .. } => {
            met(&[(LeftOut, number == 0 && second > 0), (AtZero, number == 20)])
        }
        _ => vec![],
    }
}

fn of_put_in(number: u64, outcome: &Outcome) -> Vec<Form> {
    let Outcome::Made { result, answer } = outcome else {
        return met(&[(PutNowhere, number == 4)]);
    };
    let rows = decode(result).expect("the judge's block holds a record").rows();
    let equals = on_entry(&rows, rows[answer.second as usize].entry()).count();
    met(&[(PutAlone, equals == 1), (PutBeside, equals > 1)])
}
