//! Parents as a free choice, so that an entry may carry several variations.   (02, vi)

use crate::attach;
use std::{iter, mem};

/// All that says where a line hangs: its start, its number of entries and its parent.
#[derive(Clone, Copy, Debug, PartialEq, Eq)]
pub struct Row {
    pub start: u64,
    pub count: usize,
    pub parent: usize,
}

impl Row {
    /// Whether the line has an entry at a ply.
    fn has(&self, ply: u64) -> bool {
        (self.start..self.start + self.count as u64).contains(&ply)
    }

    /// The entry that it hangs on, by line and ply.
    pub fn entry(&self) -> (usize, u64) {
        (self.parent, self.start)
    }
}

/// What 02 asks of the parents and is not so.
#[derive(Clone, Copy, Debug, PartialEq, Eq)]
pub enum Fault {
    /// "any earlier line".
    NotEarlier,
    /// "that has the entry".
    NoEntry,
    /// "all that hangs from a line, directly or through others, still follows it without a gap".
    Gap,
    /// "the lines directly under one line stand in descending ply".
    Ascent,
}

/// Whether the lines hang as their version says: by the attaching rule, or by 02's conditions. Line 0 is at 0 in either.
pub fn hang(version: usize, rows: &[Row]) -> bool {
    let main_is_right = rows.first().is_some_and(|main| main.start == 0 && main.parent == 0);
    match version {
        1 => main_is_right && hang_by_rule(rows),
        2 => main_is_right && faults(rows).is_empty(),
        _ => false,
    }
}

fn hang_by_rule(rows: &[Row]) -> bool {
    let shape: Vec<_> = rows.iter().map(|row| (row.start, row.count)).collect();
    attach::parents(&shape).is_ok_and(|parents| parents.into_iter().eq(parents_of(rows)))
}

fn parents_of(rows: &[Row]) -> impl Iterator<Item = usize> + '_ {
    rows.iter().map(|row| row.parent)
}

/// Which of 02's conditions the lines from 1 on do not meet. Where a parent is not earlier there is no chain to ask about.
pub fn faults(rows: &[Row]) -> Vec<Fault> {
    if !parents_of(rows).enumerate().skip(1).all(|(k, parent)| parent < k) {
        return vec![Fault::NotEarlier];
    }
    let have_entries = rows.iter().skip(1).all(|row| rows[row.parent].has(row.start));
    let met = [(Fault::NoEntry, have_entries), (Fault::Gap, no_gap(rows)), (Fault::Ascent, descend(rows))];
    met.into_iter().filter(|(_, is_met)| !is_met).map(|(fault, _)| fault).collect()
}

/// A line's parent, that one's, and so on up to line 0.
pub fn chain(rows: &[Row], line: usize) -> impl Iterator<Item = usize> + Clone + '_ {
    let parent = |line: usize| (line > 0).then(|| rows[line].parent);
    iter::successors(parent(line), move |&line| parent(line))
}

/// The lines that hang from a line are just those after it up to the last of them.
fn no_gap(rows: &[Row]) -> bool {
    let mut hanging = vec![(0, 0); rows.len()];
    for line in 1..rows.len() {
        chain(rows, line).for_each(|above| hanging[above] = (hanging[above].0 + 1, line));
    }
    hanging.iter().enumerate().all(|(above, &(count, last))| count == 0 || above + count == last)
}

/// No line starts above the one before it under its parent.
fn descend(rows: &[Row]) -> bool {
    let mut before = vec![u64::MAX; rows.len()];
    rows.iter().skip(1).all(|row| mem::replace(&mut before[row.parent], row.start) >= row.start)
}

/// The lines in the order of the Rust's writing, if they can be hung up: an entry's forks are the lines on it from the last in the
/// file to the first; a line's forks go on a stack from its first entry to its last, and come from it again.
pub fn written(rows: &[Row]) -> Option<Vec<usize>> {
    let hangs = |(k, row): (usize, &Row)| row.parent < k && rows[row.parent].has(row.start);
    if !rows.iter().enumerate().skip(1).all(hangs) {
        return None;
    }
    let mut forks = vec![vec![]; rows.len()];
    (1..rows.len()).rev().for_each(|line| forks[rows[line].parent].push(line));
    forks.iter_mut().for_each(|forks| forks.sort_by_key(|&line| rows[line].start));
    let (mut written, mut stack) = (vec![], vec![0]);
    while let Some(line) = stack.pop() {
        written.push(line);
        stack.extend(&forks[line]);
    }
    Some(written)
}

/// The lines on an entry, in file order.
pub fn on_entry(rows: &[Row], entry: (usize, u64)) -> impl Iterator<Item = usize> + '_ {
    (1..rows.len()).filter(move |&line| rows[line].entry() == entry)
}

/// Whether a line before this one hangs on the same entry.
pub fn has_equal_before(rows: &[Row], line: usize) -> bool {
    on_entry(rows, rows[line].entry()).next() != Some(line)
}

/// Whether an entry has two.
pub fn has_two(rows: &[Row]) -> bool {
    (1..rows.len()).any(|line| has_equal_before(rows, line))
}

/// The parents that 02 lets one more line have behind these, at this ply: it may follow under any line that the last comes from,
/// if it does not start above the one before it there.
pub fn choices(rows: &[Row], start: u64) -> Vec<usize> {
    let last = rows.len() - 1;
    let above = iter::once(last).chain(chain(rows, last));
    let before = iter::once(u64::MAX).chain(above.clone().map(|line| rows[line].start));
    above.zip(before).filter(|&(line, before)| rows[line].has(start) && start <= before).map(|(line, _)| line).collect()
}
