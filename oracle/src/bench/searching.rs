//! The two searches for the line that a variation hangs on: by the parents that stand in the table, and line by line.

use super::{best, millis, timed};
use crate::attach;

extern "C" {
    fn search_by_parents(lines: *const u8, lines_len: usize, k: usize, s: u64) -> usize;
    fn search_in_turn(lines: *const u8, lines_len: usize, k: usize, s: u64) -> usize;
}

type Search = unsafe extern "C" fn(*const u8, usize, usize, u64) -> usize;

/// How often each search goes over a table; the best time counts.
const ROUNDS: usize = 50;

pub fn bench() {
    println!("\nthe parent of each line of a study: lines looked at and time, one after the other and by parents");
    for lines in [300, 2_335, 8_191] {
        for (name, start) in shapes(lines) {
            let table = Table::new((0..lines).map(start).collect());
            table.confirm();
            let [in_turn, by_parents] =
                best(ROUNDS, || [search_in_turn as Search, search_by_parents].map(|search| timed(|| table.search(search))));
            let (looked, followed) = (table.looked_in_turn(), table.looked_by_parents());
            let gain = millis(in_turn) / millis(by_parents);
            println!(
                "{lines:>5} lines, {name:44} {looked:>9} {:>8.3} ms {followed:>9} {:>8.3} ms {gain:>7.1} times",
                millis(in_turn),
                millis(by_parents),
            );
        }
    }
}

type Start = Box<dyn Fn(u64) -> u64>;

/// Studies of so many lines, by the start of each: line 0 starts at 0.
fn shapes(lines: u64) -> [(&'static str, Start); 5] {
    [
        ("descending starts: every line on line 0", Box::new(move |k| if k == 0 { 0 } else { lines - k })),
        ("ascending starts: every line on the one before", Box::new(|k| k)),
        ("one start: every line on the one before", Box::new(|k| k.min(1))),
        ("half ascending, then descending", Box::new(move |k| k.min(lines - k))),
        ("sixteen plies up and down again", Box::new(|k| if k == 0 { 0 } else { 1 + (k % 32).min(31 - k % 32) })),
    ]
}

/// The rows of lines, each of eight bytes: start, first entry, entries, parent.
struct Table {
    starts: Vec<u64>,
    parents: Vec<usize>,
    rows: Vec<u8>,
}

impl Table {
    fn new(starts: Vec<u64>) -> Table {
        let shape: Vec<_> = starts.iter().map(|&start| (start, usize::MAX)).collect();
        let parents = attach::parents(&shape).expect("no line is too short");
        let row = |(&start, &parent): (&u64, &usize)| [start as u16, 0, 1, parent as u16].map(u16::to_le_bytes).concat();
        let rows = starts.iter().zip(&parents).flat_map(row).collect();
        Table { starts, parents, rows }
    }

    /// Both searches find for each line the parent that the rule gives it.
    fn confirm(&self) {
        for k in 1..self.starts.len() {
            for search in [search_in_turn as Search, search_by_parents] {
                assert_eq!(self.find(search, k), self.parents[k], "line {k}");
            }
        }
    }

    fn find(&self, search: Search, k: usize) -> usize {
        // the rows are not changed, and both take every input
        unsafe { search(self.rows.as_ptr(), self.rows.len(), k, self.starts[k]) }
    }

    fn search(&self, search: Search) -> usize {
        (1..self.starts.len()).map(|k| self.find(search, k)).sum()
    }

    fn looked_in_turn(&self) -> usize {
        (1..self.starts.len()).map(|k| k - self.parents[k]).sum()
    }

    fn looked_by_parents(&self) -> usize {
        let looked = |k: usize| {
            let way = std::iter::successors(Some(k - 1), |&j| Some(self.parents[j]));
            1 + way.take_while(|&j| self.starts[j] > self.starts[k]).count()
        };
        (1..self.starts.len()).map(looked).sum()
    }
}
