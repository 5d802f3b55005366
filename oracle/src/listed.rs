//! What a block says of its lines and entries, by a second set of words: the numbers of its tables, where they stand.

use crate::call::Call;
use crate::judge::{self, Answer};
use crate::known::{block, WORKED_EXAMPLE};
use crate::record::{decode, entry_bytes, u16_at, Entry};
use crate::sound::sound;

/// Whether a call's answer is what the rows say. An entry's 20 bytes are those of the record's entry.
pub fn by_bytes(call: &Call) -> u64 {
    let block = call.block().expect("a block is asked");
    let due = if sound(block) { by_rows(call, block) } else { judge::answer(7, 0, 0) };
    assert_eq!(call.judged().answer_in(0), due);
    due.number
}

fn by_rows(call: &Call, block: &[u8]) -> Answer {
    let number = |at: u64| u16_at(block, at as usize).expect("tables lie within a sound block") as u64;
    let (lines, row) = (number(8), |k: u64| number(16) + 8 * k);
    match *call {
        Call::Lines { .. } => judge::answer(0, lines, 0),
        Call::Line { k, .. } | Call::Parent { k, .. } | Call::Entry { line: k, .. } if k >= lines => {
            judge::answer(10, k, 0)
        }
        Call::Line { k, .. } => judge::answer(0, number(row(k)), number(row(k) + 4)),
        Call::Parent { k, .. } => judge::answer(0, number(row(k) + 6), 0),
        Call::Entry { line, entry, .. } if entry >= number(row(line) + 4) => judge::answer(16, line, entry),
        Call::Entry { line, entry, .. } => {
            let at = number(18) + 20 * (number(row(line) + 2) + entry);
            is_entry(&block[at as usize..][..20], &decode(block).unwrap().lines[line as usize].entries[entry as usize]);
            judge::answer(0, at, 20)
        }
        _ => unreachable!("no line is asked for"),
    }
}

fn is_entry(bytes: &[u8], entry: &Entry) {
    assert_eq!(bytes[..16], entry_bytes(entry));
    assert_eq!(u16_at(bytes, 18), Some(entry.comments.len()));
}

/// The lines and entries of 01's example, the refusals in their order, and large numbers, which are not cut short.
pub fn of_worked_example() {
    let block = block(WORKED_EXAMPLE);
    let figures = |answer: Answer| (answer.number, answer.first, answer.second);
    assert_eq!(figures(judge::lines(&block)), (0, 2, 0));
    assert_eq!([0, 1, 2].map(|k| figures(judge::line(&block, k))), [(0, 0, 4), (0, 2, 1), (10, 2, 0)]);
    assert_eq!([0, 1, 2].map(|k| figures(judge::parent(&block, k))), [(0, 0, 0), (0, 0, 0), (10, 2, 0)]);
    let entries = [(0, 0), (0, 3), (1, 0), (0, 4), (1, 1), (2, 0), (2, 9)];
    let due = [(0, 144, 20), (0, 204, 20), (0, 224, 20), (16, 0, 4), (16, 1, 1), (10, 2, 0), (10, 2, 0)];
    assert_eq!(entries.map(|(line, entry)| figures(judge::entry(&block, line, entry))), due);
    assert_eq!(&block[224..244], [1, 1, 1, 0, 8, 4, 8, 3, 1, 0, 0, 0, 0, 0, 0, 0, 0, 0, 0, 0]);
    for unsound in [&block[..253], &[&block[..], &[0]].concat(), &[]] {
        let answers =
            [judge::lines(unsound), judge::line(unsound, 9), judge::parent(unsound, 9), judge::entry(unsound, 9, 9)];
        assert_eq!(answers.map(figures), [(7, 0, 0); 4]);
    }
    for large in [1 << 8, 1 << 16, 1 << 32, (1 << 32) + 1, 1 << 63, u64::MAX] {
        assert_eq!(figures(judge::line(&block, large)), (10, large, 0));
        assert_eq!(figures(judge::parent(&block, large)), (10, large, 0));
        assert_eq!(figures(judge::entry(&block, large, 0)), (10, large, 0));
        assert_eq!(figures(judge::entry(&block, 1, large)), (16, 1, large));
    }
}
