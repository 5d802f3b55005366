//! The judge against itself: known answers first, then what must hold of every generated case.

use crate::call::Call;
use crate::cases;
use crate::edits::{EDITS, PAIRS, TREES};
use crate::forms::Forms;
use crate::judge::{self, Outcome, LONGEST};
use crate::kept::{fate, is_covered, kept, Counts, Fate, Tally};
use crate::known;
use crate::left::{colours_follow, left, read_again};
use crate::listed;
use crate::pairs;
use crate::reached;
use crate::reasons::Reasons;
use crate::record::{decode, encode, Record, What, LIMIT};
use crate::replay;
use crate::runner::{caught, run, Kind};
use crate::short::SHORT;
use crate::small::SMALL;
use crate::sound::sound;
use crate::steps::STEPS;
use crate::stop::{spot, stop};
use crate::tables::TABLES;
use crate::tree_blocks::DEEP;
use crate::tree_checks;
use crate::trees::hang;
use crate::whole::Mode;
use std::cell::Cell;
use std::str;

thread_local! {
    /// What was read back, of all that was written so far.
    static BACK: Cell<Tally> = Cell::default();
    /// Why play stopped, where positions were asked for.
    static STOPS: Cell<Reasons> = Cell::default();
    /// What was met of version 2.
    static FORMS: Cell<Forms> = Cell::default();
}

const KINDS: [Kind; 43] = [
    Kind { name: "short texts", share: 17, all: Some(SHORT), make: cases::short_text, test: reading },
    Kind { name: "texts", share: 20, all: None, make: cases::any_text, test: reading },
    Kind { name: "bytes", share: 13, all: None, make: cases::altered_block, test: soundness },
    Kind { name: "blocks", share: 10, all: None, make: cases::any_block, test: soundness },
    Kind { name: "small blocks", share: 2, all: Some(SMALL), make: cases::small_block, test: writing },
    Kind { name: "writing", share: 8, all: None, make: cases::to_write, test: writing },
    Kind { name: "small modes", share: 8, all: Some(cases::SMALL_MODES), make: cases::small_mode, test: writing_as },
    Kind { name: "modes", share: 20, all: None, make: cases::a_mode, test: writing_as },
    Kind { name: "small edits", share: 10, all: Some(EDITS), make: cases::small_edit, test: small_editing },
    Kind { name: "put-ins", share: 10, all: None, make: cases::to_put_in, test: putting_in },
    Kind { name: "small pairs", share: 10, all: Some(PAIRS), make: cases::small_pair, test: pairing },
    Kind { name: "pairs", share: 10, all: None, make: cases::a_pair, test: pairing },
    Kind { name: "cuts", share: 8, all: None, make: cases::to_cut, test: cutting },
    Kind { name: "edits", share: 6, all: None, make: cases::to_edit, test: editing },
    Kind { name: "comments", share: 2, all: None, make: cases::a_comment, test: looking_up },
    Kind { name: "keys", share: 2, all: None, make: cases::a_key, test: looking_up },
    Kind { name: "values", share: 2, all: None, make: cases::a_value, test: looking_up },
    Kind { name: "lines", share: 1, all: None, make: cases::all_lines, test: listed::by_bytes },
    Kind { name: "line", share: 2, all: None, make: cases::a_line, test: listed::by_bytes },
    Kind { name: "parents", share: 2, all: None, make: cases::a_parent, test: listed::by_bytes },
    Kind { name: "entries", share: 5, all: None, make: cases::an_entry, test: listed::by_bytes },
    Kind { name: "small rows", share: 8, all: Some(cases::SMALL_ROWS), make: cases::small_row, test: listed::by_bytes },
    Kind { name: "numbered", share: 4, all: None, make: cases::numbered_text, test: reading },
    Kind { name: "edits again", share: 4, all: None, make: cases::to_edit_again, test: editing_again },
    Kind { name: "short stops", share: 17, all: Some(SHORT), make: cases::short_stop, test: stopping },
    Kind { name: "stops", share: 20, all: None, make: cases::any_stop, test: stopping },
    Kind { name: "numbered stops", share: 4, all: None, make: cases::numbered_stop, test: stopping },
    Kind { name: "spots", share: 2, all: None, make: cases::a_spot, test: spotting },
    Kind { name: "plays", share: 20, all: None, make: cases::a_play, test: positioning },
    Kind { name: "positions", share: 5, all: None, make: cases::any_position, test: positioning },
    Kind { name: "small positions", share: 3, all: Some(SMALL), make: cases::small_position, test: positioning },
    Kind { name: "steps", share: 10, all: Some(STEPS), make: cases::a_step, test: positioning },
    Kind { name: "tables", share: 20, all: Some(TABLES), make: cases::a_table, test: tabled },
    Kind { name: "small trees", share: 20, all: Some(TREES), make: cases::small_tree, test: on_tree },
    Kind { name: "deep trees", share: 1, all: Some(DEEP), make: cases::deep_tree, test: on_tree },
    Kind { name: "tree bytes", share: 5, all: None, make: cases::altered_tree, test: on_tree },
    Kind { name: "damaged trees", share: 5, all: None, make: cases::damaged_tree, test: on_tree },
    Kind { name: "tree modes", share: 6, all: None, make: cases::tree_mode, test: on_tree },
    Kind { name: "tree put-ins", share: 6, all: None, make: cases::to_put_in_tree, test: on_tree },
    Kind { name: "tree cuts", share: 4, all: None, make: cases::to_cut_tree, test: on_tree },
    Kind { name: "restating", share: 4, all: None, make: cases::to_restate, test: on_tree },
    Kind { name: "tree look-ups", share: 1, all: None, make: cases::tree_look_up, test: on_tree },
    Kind { name: "tree positions", share: 2, all: None, make: cases::tree_position, test: on_tree },
];

/// Whether all known answers and all generated cases hold.
pub fn check(cases: u64, seed: u64) -> bool {
    let (mut passed, mut failed) = (0, 0);
    for (name, group) in known::GROUPS {
        match caught(group) {
            Ok(()) => passed += 1,
            Err(why) => {
                println!("known answers, {name}: {why}");
                failed += 1;
            }
        }
    }
    println!("{:12} {passed:7} passed, {failed} failed", "known answers");
    let (more_passed, more_failed) = run("check", &KINDS, cases, seed, None);
    failed += more_failed + BACK.get().report(cases) + STOPS.get().report(cases) + FORMS.get().report(cases);
    println!("{} passed, {failed} failed", passed + more_passed);
    failed == 0
}

fn reading(call: &Call) -> u64 {
    let Call::Fill { text } = call else { unreachable!() };
    let outcome = call.judged();
    let number = buffers(&outcome);
    measured(Call::Measure { text: text.clone() }.judged(), &outcome);
    if let Outcome::Made { result, answer } = outcome {
        assert!(answer.first <= text.len() as u64 && answer.second == result.len() as u64);
        assert!(sound(&result), "the reader's block is not sound");
        let untimed = decode(&result).unwrap().entries().skip(1).filter(|entry| entry.time.is_none()).count();
        assert!(answer.lost <= untimed as u64, "more times are lost than are absent");
        reads_back(&result);
        restored_of_text(&result, |tally| &mut tally.texts);
    }
    number
}

/// Measuring tells the length at which filling turns, and the bytes that it takes; or refuses as filling does.
fn measured(measured: Outcome, filled: &Outcome) {
    let Outcome::Answered(told) = measured else { panic!("measuring makes nothing") };
    match filled {
        Outcome::Answered(refusal) => assert_eq!(told, *refusal),
        Outcome::Unattached { needed, .. } => assert_eq!((told.number, told.first), (0, *needed as u64)),
        Outcome::Made { answer, .. } => {
            assert_eq!((told.number, told.first, told.second), (0, answer.second, answer.first))
        }
    }
}

/// A stop is refused as filling is, or names the bytes that filling takes, only that refusal 4 is not given; and it is confirmed.
fn stopping(call: &Call) -> u64 {
    let Call::Stop { text } = call else { unreachable!() };
    let [number, first, second, place, ..] = stop(text);
    let filled = judge::fill(text).answer_in(LONGEST);
    match (number, filled.number) {
        (0 | 6, 4) => {}
        (0, 0) => assert_eq!(first, filled.first),
        _ => assert_eq!((number, first, second), (filled.number, filled.first, filled.second)),
    }
    if number == 0 {
        assert!(first <= place && (second != 8 || place == text.len() as u64));
        reached::confirm(str::from_utf8(text).unwrap(), place as usize, second);
    }
    number
}

/// The same by bytes: a character has one that continues none.
fn spotting(call: &Call) -> u64 {
    let Call::Spot { text, at } = call else { unreachable!() };
    let (mut line, mut column) = (1, 1);
    for byte in &text[..*at as usize] {
        (line, column) = match byte {
            b'\n' => (line + 1, 1),
            0x80..=0xbf => (line, column),
            _ => (line, column + 1),
        };
    }
    assert_eq!(spot(text, *at), (line, column));
    0
}

/// Both definitions of soundness agree, and a sound block is its record's encoding.
fn soundness(call: &Call) -> u64 {
    let Call::Sound { block } = call else { unreachable!() };
    let record = decode(block).filter(Record::is_well_formed);
    let encoded = record.filter(|record| record.length() <= LIMIT && encode(record) == *block);
    assert_eq!(sound(block), encoded.is_some());
    if let Some(record) = encoded {
        assert_eq!(record.length(), block.len(), "the length formula");
    }
    u64::from(sound(block))
}

fn writing(call: &Call) -> u64 {
    let Call::Write { block } = call else { unreachable!() };
    let outcome = call.judged();
    let number = buffers(&outcome);
    match &outcome {
        Outcome::Answered(answer) => assert!(!sound(block) == (answer.number == 7)),
        Outcome::Made { answer, .. } => {
            let record = decode(block).unwrap();
            assert_eq!(answer.second as usize, record.lines.len() - judge::written_lines(&record));
            tree_checks::left_out(&record, &outcome);
        }
        Outcome::Unattached { .. } => panic!("writing attaches nothing"),
    }
    number
}

/// A number that is no mode's is taken as 0. The other modes refuse a variation with start 0, change nothing but what 02 says, and
/// restore the block where it says so.
fn writing_as(call: &Call) -> u64 {
    let Call::WriteAs { block, mode } = call else { unreachable!() };
    let outcome = call.judged();
    let number = buffers(&outcome);
    if !sound(block) {
        assert_eq!(number, 7);
        return number;
    }
    if (1..=2).contains(mode) {
        losing_nothing(&decode(block).unwrap(), *mode, &outcome);
    } else {
        assert_eq!(outcome, judge::write(block));
        tree_checks::left_out(&decode(block).unwrap(), &outcome);
    }
    if *mode <= 2 {
        restored(block, *mode, &outcome, |tally| &mut tally.blocks);
    }
    number
}

/// The original confirms the text: of what plain writing leaves of a record, mode 1 writes the plain text, and it refuses what plain
/// writing refuses. Mode 2 writes what mode 1 does where an origin of (0,0) is none.
fn losing_nothing(record: &Record, mode: u64, outcome: &Outcome) {
    if let Some(line) = (1..record.lines.len()).find(|&k| record.lines[k].start == 0) {
        return assert_eq!(*outcome, Outcome::Answered(judge::answer(20, line as u64, 0)));
    }
    if mode == 2 {
        return assert_eq!(*outcome, judge::write_as(&encode(&with_drops(record)), 1));
    }
    let plain = judge::write(&encode(record));
    assert_eq!(judge::write_as(&encode(&left(record)), 1), plain);
    if outcome.needed().is_none() || plain.needed().is_none() {
        assert_eq!(*outcome, plain);
    }
}

/// The record with no origin where it is (0,0).
fn with_drops(record: &Record) -> Record {
    let mut record = record.clone();
    for entry in record.lines.iter_mut().flat_map(|line| &mut line.entries) {
        if let What::Move(m) = &mut entry.what {
            m.from = m.from.filter(|&from| from != (0, 0));
        }
    }
    record
}

fn small_editing(call: &Call) -> u64 {
    match call {
        Call::PutIn { .. } => putting_in(call),
        _ => cutting(call),
    }
}

/// The other lines keep their entries and, renumbered, their parents; they hang as their version says; cutting the new line restores the
/// block; and the original has its text.
fn putting_in(call: &Call) -> u64 {
    let Call::PutIn { block, line, .. } = call else { unreachable!() };
    let outcome = call.judged();
    let number = buffers(&outcome);
    alike(call, &outcome);
    let Outcome::Made { result, answer } = outcome else {
        return number;
    };
    assert!(sound(&result));
    let (before, mut after) = (decode(block).unwrap(), decode(&result).unwrap());
    assert!(hang(before.version, &after.rows()));
    let place = answer.second as usize;
    let new = after.lines.remove(place);
    assert_eq!(new.parent as u64, *line);
    for kept in &mut after.lines {
        assert!(kept.parent != place, "a line hangs on the new one");
        kept.parent -= usize::from(kept.parent > place);
    }
    assert_eq!(after, before);
    tree_checks::pushed(&before, place, &new, &result);
    let restored = Outcome::Made { result: block.clone(), answer: judge::answer(0, block.len() as u64, 1) };
    assert_eq!(judge::cut(&result, answer.second), restored);
    number
}

/// A position follows from the one before it on the path, or play stops as 02 says; a slice that is not sound has none.
fn positioning(call: &Call) -> u64 {
    let Call::Position { block, line, entry } = call else { unreachable!() };
    let outcome = call.judged();
    let number = buffers(&outcome);
    if sound(block) {
        replay::confirm(block, *line, *entry, &outcome);
    } else {
        assert_eq!(outcome, Outcome::Answered(judge::answer(7, 0, 0)));
    }
    let mut stops = STOPS.get();
    stops.add(call, number);
    STOPS.set(stops);
    number
}

/// Both orders come to the same.
fn pairing(call: &Call) -> u64 {
    let Call::Pair { block, one, other } = call else { unreachable!() };
    pairs::agree(block, one, other)
}

/// Just the run goes; the kept lines keep their entries and, renumbered, their parents; they hang as their version says.
fn cutting(call: &Call) -> u64 {
    let Call::Cut { block, line, .. } = call else { unreachable!() };
    let outcome = call.judged();
    let number = buffers(&outcome);
    alike(call, &outcome);
    let Outcome::Made { result, answer } = outcome else {
        return number;
    };
    assert!(sound(&result));
    let (mut before, after) = (decode(block).unwrap(), decode(&result).unwrap());
    assert!(hang(before.version, &after.rows()));
    let (first, removed) = (*line as usize, answer.second as usize);
    tree_checks::pruned(&before, first, &result);
    assert_eq!(tree_checks::run_by_parents(&before.rows(), first), removed);
    let gone: Vec<_> = before.lines.drain(first..first + removed).collect();
    assert!(gone.iter().all(|other| other.start >= gone[0].start));
    assert!(before.version == 2 || before.lines.get(first).is_none_or(|next| next.start < gone[0].start));
    for kept in &mut before.lines {
        assert!(!(first..first + removed).contains(&kept.parent), "a kept line hung on one that is gone");
        kept.parent -= if kept.parent > first { removed } else { 0 };
    }
    assert_eq!(after, before);
    number
}

/// After an edit, what a reader gave can still be read back.
fn editing(call: &Call) -> u64 {
    let Call::PutIn { block, line, .. } = call else { unreachable!() };
    if let Outcome::Made { result, .. } = judge::cut(block, *line) {
        edit_reads_back(&result);
    }
    let outcome = call.judged();
    if let Outcome::Made { result, .. } = &outcome {
        edit_reads_back(result);
    }
    buffers(&outcome)
}

/// After several edits too; and each keeps what an edit must keep.
fn editing_again(call: &Call) -> u64 {
    if let Outcome::Made { result, .. } = call.judged() {
        edit_reads_back(&result);
    }
    small_editing(call)
}

fn edit_reads_back(block: &[u8]) {
    reads_back(block);
    restored_of_text(block, |tally| &mut tally.edits);
}

/// The part is the text that the record has by this number, and lies in the block where the figures say.
fn looking_up(call: &Call) -> u64 {
    let (block, k, (answer, part)) = match call {
        Call::Comment { block, k } => (block, *k, judge::comment(block, *k)),
        Call::Key { block, k } => (block, *k, judge::key(block, *k)),
        Call::Value { block, k } => (block, *k, judge::value(block, *k)),
        _ => unreachable!(),
    };
    let named = decode(block).and_then(|record| match call {
        Call::Comment { .. } => record.comments().nth(k as usize).cloned(),
        Call::Key { .. } => record.header.into_iter().nth(k as usize).map(|(key, _)| key),
        _ => record.header.into_iter().nth(k as usize).map(|(_, value)| value),
    });
    let (number, first, second) = match named {
        _ if !sound(block) => (7, 0, 0),
        None => (10, k, 0),
        Some(named) => {
            assert_eq!(part, named.as_bytes());
            assert_eq!(&block[answer.first as usize..][..part.len()], part);
            (0, answer.first, part.len() as u64)
        }
    };
    assert_eq!(answer, judge::answer(number, first, second));
    assert!(number == 0 || part.is_empty());
    number
}

/// Both definitions of soundness agree on a table, and what sets the versions apart is so.
fn tabled(call: &Call) -> u64 {
    let Call::Sound { block } = call else { unreachable!() };
    tree_checks::one_is_two(&decode(block).expect("a table stands in a record"));
    on_tree(call)
}

/// Whatever is done with a version 2 block, or with one that is to be restated.
fn on_tree(call: &Call) -> u64 {
    let number = match call {
        Call::Sound { .. } => soundness(call),
        Call::Write { .. } => writing(call),
        Call::WriteAs { .. } => writing_as(call),
        Call::PutIn { .. } => putting_in(call),
        Call::Cut { .. } => cutting(call),
        Call::Restate { block, .. } => {
            let outcome = call.judged();
            tree_checks::restated(block, &outcome);
            buffers(&outcome)
        }
        Call::Position { block, line, entry } => {
            tree_checks::played_alike(block, *line, *entry);
            positioning(call)
        }
        _ => looking_up(call),
    };
    let outcome = call.judged();
    if let (true, Outcome::Made { result, .. }) = (came_of_text(call), &outcome) {
        reads_back(result);
        restored_of_text(result, |tally| &mut tally.restated);
    }
    let mut forms = FORMS.get();
    forms.add(call, &outcome);
    FORMS.set(forms);
    number
}

fn came_of_text(call: &Call) -> bool {
    match call {
        Call::PutIn { from_text, .. } | Call::Cut { from_text, .. } | Call::Restate { from_text, .. } => *from_text,
        _ => false,
    }
}

/// A sound version 1 block is edited alike when it is restated before.
fn alike(call: &Call, outcome: &Outcome) {
    if call.block().is_some_and(|block| sound(block) && block[2] == 1) {
        tree_checks::alike(call, outcome);
    }
}

/// Buffers of every length: nothing changes in one that is short, only the result's bytes else. Answers the number
/// that a long one gets.
fn buffers(outcome: &Outcome) -> u64 {
    let needed = outcome.needed().unwrap_or(0);
    for length in [0, needed.saturating_sub(1), needed, needed + 7] {
        let before: Vec<u8> = (0..length).map(|at| at as u8 | 1).collect();
        let mut after = before.clone();
        let answer = outcome.deliver(&mut after);
        let changed = match outcome {
            Outcome::Made { result, .. } if length >= needed => [result, &before[needed..]].concat(),
            Outcome::Unattached { .. } if length >= needed => vec![0; length],
            _ => before,
        };
        assert_eq!(after, changed);
        assert_eq!(answer.number == 5, length < needed);
        assert!(answer.number == 0 || answer.lost == 0, "a refusal tells of lost times");
    }
    outcome.deliver(&mut vec![0; needed]).number
}

/// Reading back what is written of a block that a reader gave is the record again, but for what 01 says is lost.
fn reads_back(block: &[u8]) {
    let Outcome::Made { result: text, answer } = judge::write(block) else {
        return;
    };
    let left = left(&decode(block).unwrap());
    // Colours in lines that are left out do not matter.
    if text.len() > LIMIT || !colours_follow(&left) {
        return;
    }
    let Outcome::Made { result: again, answer: taken } = judge::fill(&text) else {
        panic!("what was written is refused");
    };
    assert_eq!(taken.first, answer.first, "what was written is not wholly taken");
    assert_eq!(taken.lost, 0, "a time that was written is lost");
    assert_eq!(decode(&again).unwrap(), read_again(&left), "not the same record");
    tree_checks::nests(&left);
}

/// Where a block counts in the tally.
type Place = fn(&mut Tally) -> &mut [Counts; 3];

/// A reader gives what 02 asks of a record made by hand, edits by text keep it, and every mode restores of such a block what it keeps.
fn restored_of_text(block: &[u8], place: Place) {
    assert!(is_covered(&decode(block).unwrap()), "the reader gives what 02 says it does not");
    for mode in 0..=2 {
        restored(block, mode, &judge::write_as(block, mode), place);
    }
}

/// What a mode wrote of a block is read back by the original as version 1 of what it keeps, wherever 02's premises hold; restated it is
/// that itself where no entry has two.
fn restored(block: &[u8], mode: u64, written: &Outcome, place: Place) {
    let fate = fate(block, Mode::of(mode), written);
    let mut tally = BACK.get();
    place(&mut tally)[mode as usize].add(fate);
    BACK.set(tally);
    let (Fate::Back | Fate::Nested, Outcome::Made { result: text, .. }) = (fate, written) else {
        return;
    };
    let kept = kept(decode(block).unwrap(), Mode::of(mode));
    let again = encode(&read_again(&kept));
    let answer = judge::answer(0, text.len() as u64, again.len() as u64);
    assert_eq!(judge::fill(text), Outcome::Made { result: again.clone(), answer }, "not the same block");
    tree_checks::nests(&kept);
    if (kept.version, fate) == (2, Fate::Back) {
        let restated = Outcome::Made { result: encode(&kept), answer: judge::answer(0, again.len() as u64, 0) };
        assert_eq!(judge::restate(&again), restated, "not the same block when it is restated");
    }
}
