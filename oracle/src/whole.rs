//! A record's text in the modes that lose nothing.   (02, xi; 01, Writing, and what is lost)

use crate::original::converter::kif::show_head;
use crate::record::{Clock, Entry, Line, Move, Record, Time, What};
use crate::texts::{FILES, RANKS};
use crate::translate;

/// How a record is written.
#[derive(Clone, Copy, Debug, PartialEq, Eq)]
pub enum Mode {
    /// As the original writes it, with 01's losses.
    Plain,
    /// Without any loss.
    Whole,
    /// The same, and a move from (0,0) is written with 打, since other programs do not read (00).
    Shared,
}

impl Mode {
    /// Every number is a mode's.
    pub fn of(number: u64) -> Mode {
        match number {
            1 => Mode::Whole,
            2 => Mode::Shared,
            _ => Mode::Plain,
        }
    }
}

/// As written, in the order of `piece_kind`.
const KINDS: [&str; 14] = ["歩", "香", "桂", "銀", "金", "角", "飛", "玉", "と", "成香", "成桂", "成銀", "馬", "龍"];
/// By the number in a move entry.
const PROMOTIONS: [&str; 3] = ["", "不成", "成"];
/// In the Rust's order; 中断 also for those that the reader never gives.
const SPECIALS: [&str; 14] = [
    "投了", "中断", "千日手", "切れ負け", "反則負け", "中断", "中断", "持将棋", "入玉勝ち", "中断", "中断", "詰み",
    "中断", "中断",
];

/// The text of a record that refusals 8, 9 and 20 let pass. Header and position, which no mode changes, are the original's.
pub fn text(record: &Record, mode: Mode) -> String {
    let (slot, main) = record.lines[0].entries.split_first().expect("a line has an entry");
    let slot = format!("手数----指手---------消費時間--\n{}", comments(slot));
    let mut text = [show_head(&translate::head(record)), slot, played(main, 1, mode)].concat();
    put_under(&mut text, &record.lines, 0, mode);
    text
}

/// "a line writes its variations, and each of those is a line again"   (02, vi)
fn put_under(text: &mut String, lines: &[Line], parent: usize, mode: Mode) {
    for (k, line) in lines.iter().enumerate().skip(parent + 1).filter(|(_, line)| line.parent == parent) {
        *text += &format!("\n変化：{}手\n{}", line.start, played(&line.entries, line.start, mode));
        put_under(text, lines, k, mode);
    }
}

/// Entries from a ply on, each with its comments.
fn played(entries: &[Entry], first: u64, mode: Mode) -> String {
    let line = |(entry, ply)| format!("{ply:4} {}\n{}", timed(entry, mode), comments(entry));
    entries.iter().zip(first..).map(line).collect()
}

/// A comment that begins with & is one without a * before it.
fn comments(entry: &Entry) -> String {
    let mark = |comment: &String| if comment.starts_with('&') { "" } else { "*" };
    entry.comments.iter().map(|comment| format!("{}{comment}\n", mark(comment))).collect()
}

/// What an entry is and its time, if any, padded by 13 less the width.
fn timed(entry: &Entry, mode: Mode) -> String {
    let what = match &entry.what {
        What::Move(m) => moved(m, mode),
        What::Special(number) => SPECIALS[usize::from(*number)].into(),
        What::Slot => unreachable!("a slot stands in no line of the text"),
    };
    let padded = |time| " ".repeat(13 - width(&entry.what, mode)) + &spent(time);
    what + &entry.time.as_ref().map_or(String::new(), padded)
}

fn moved(m: &Move, mode: Mode) -> String {
    let place = match m.to {
        None => "同　".into(),
        Some((file, rank)) => [FILES[usize::from(file) - 1], RANKS[usize::from(rank) - 1]].concat(),
    };
    let origin = origin(m, mode).map_or("打".into(), |(x, y)| format!("({x}{y})"));
    [&place, KINDS[usize::from(m.piece) - 1], PROMOTIONS[usize::from(m.promote)], &origin].concat()
}

/// The columns that writing counts: of a move its place, kind, 成 and origin, and nothing for 不成; of a special two a character,
/// and nothing for 中断.
pub fn width(what: &What, mode: Mode) -> usize {
    match what {
        What::Slot => 0,
        What::Move(m) => {
            let kind = if (10..=12).contains(&m.piece) { 4 } else { 2 };
            let promotion = if m.promote == 2 { 2 } else { 0 };
            let origin = if origin(m, mode).is_some() { 4 } else { 2 };
            4 + kind + promotion + origin
        }
        What::Special(number) => match SPECIALS[usize::from(*number)] {
            "中断" => 0,
            special => 2 * special.chars().count(),
        },
    }
}

/// What is written in brackets; none where 打 is written.
fn origin(m: &Move, mode: Mode) -> Option<(u8, u8)> {
    m.from.filter(|&from| mode != Mode::Shared || from != (0, 0))
}

/// First figures padded as the old first ones, a space before that of now and a zero before that of total, others to two digits.
fn spent(Time { now, total }: &Time) -> String {
    format!("({:>2}{}/{:0>2}{})", first(now), others(now), first(total), others(total))
}

/// A clock's first figure: its hour, or without one its minutes.
fn first(clock: &Clock) -> String {
    clock.h.unwrap_or(clock.m).to_string()
}

fn others(clock: &Clock) -> String {
    let minutes = if clock.h.is_some() { format!(":{:02}", clock.m) } else { String::new() };
    format!("{minutes}:{:02}", clock.s)
}
