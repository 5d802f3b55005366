//! Spellings, read and written: kinds, specials, presets, sides, numerals, hand counts.

use super::{found, numbers, Sample};
use crate::jkf::{MoveFormat, MoveSpecial};
use crate::original::converter::{kakinoki as show, kif as show_kif};
use crate::original::parser::{kakinoki, kif};
use crate::translate::{KINDS, PRESETS, SPECIALS};

pub(super) fn names(sample: &mut Sample) {
    let kinds = KINDS.iter().flat_map(|&kind| [show_kif::show_move_kind(kind), show::show_board_kind(kind)]);
    let presets = PRESETS.iter().map(|&preset| shown_preset(preset));
    let specials = SPECIALS.iter().map(|&special| shown_special(special));
    let others = ["王", "竜", "先手", "後手", "下手", "上手", "不詰", "成", "", "x"].map(String::from);
    let mut spellings: Vec<_> = kinds.chain(presets).chain(specials).chain(others).collect();
    spellings.sort();
    spellings.dedup();
    for spelling in &spellings {
        let mut half = spelling.clone();
        half.pop();
        for (text, place) in [(format!("{spelling}　 x"), 0), (format!("歩{spelling}"), 3), (half, 0)] {
            (0..4).for_each(|table| name(sample, table, place, &text));
        }
    }
    for place in [3, 4, u64::MAX] {
        (0..4).for_each(|table| name(sample, table, place, "歩"));
    }
}

fn name(sample: &mut Sample, table: u64, place: u64, text: &str) {
    let length = text.len();
    sample.add_at(&[table], place, text, |rest| match table {
        0 => found(kakinoki::read_kind(rest), length, |kind| kind as u64 + 1),
        1 => found(kif::read_special(rest), length, |special| special.unwrap() as u64),
        2 => without_padding(found(kakinoki::read_preset(rest), length, |preset| preset as u64), text),
        _ => found(kakinoki::read_side(rest), length, |side| side as u64),
    });
}

/// The place after a preset's name; the original's goes past the padding too.
fn without_padding(mut answer: Vec<u64>, text: &str) -> Vec<u64> {
    answer[2] = text[..answer[2] as usize].trim_end_matches([' ', '　']).len() as u64;
    answer
}

pub(super) fn numerals(sample: &mut Sample) {
    let figures = "一二三四五六七八九十〇１２３４５６７８９０百1";
    for (at, figure) in figures.char_indices() {
        for which in 0..2 {
            numeral(sample, which, at as u64, figures);
            numeral(sample, which, 0, &figure.to_string());
        }
    }
    for place in [figures.len() as u64, figures.len() as u64 + 1, u64::MAX] {
        (0..2).for_each(|which| numeral(sample, which, place, figures));
    }
}

fn numeral(sample: &mut Sample, which: u64, place: u64, text: &str) {
    let read = if which == 0 { kakinoki::read_kanji_digit } else { kakinoki::read_wide_digit };
    sample.add_at(&[which], place, text, |rest| found(read(rest), text.len(), u64::from));
}

pub(super) fn counts(sample: &mut Sample) {
    let others = ["", "x", "一十", "一十一", "十十", "二十十", "九十九九", "一一", "百", "〇", "1", "１", "　二"]
        .map(String::from);
    for text in (1..100).map(show::show_count).chain(others) {
        for text in [text.clone(), format!("{text}　")] {
            count(sample, 0, &text);
        }
        count(sample, 3, &format!("歩{text}歩"));
    }
    for place in [3, 4, u64::MAX] {
        count(sample, place, "十");
    }
}

fn count(sample: &mut Sample, place: u64, text: &str) {
    sample.add_at(&[], place, text, |rest| found(kakinoki::read_count(rest), text.len(), u64::from));
}

pub(super) fn spellings(sample: &mut Sample) {
    for table in 0..4 {
        for number in (0..40).chain([255, 256, 257, 65_536, u64::MAX]) {
            sample.add(&numbers(&[table, number]), spelling(table, number).unwrap_or_default().as_bytes());
        }
    }
}

/// How a table's number is written. Kinds are numbered from 1, specials and presets from 0.
fn spelling(table: u64, number: u64) -> Option<String> {
    let number = usize::try_from(number).ok()?;
    match table {
        0 => KINDS.get(number.checked_sub(1)?).map(|&kind| show_kif::show_move_kind(kind)),
        1 => SPECIALS.get(number).map(|&special| shown_special(special)),
        2 => PRESETS.get(number).map(|&preset| shown_preset(preset)),
        _ => KINDS.get(number.checked_sub(1)?).map(|&kind| show::show_board_kind(kind)),
    }
}

fn shown_preset(preset: crate::jkf::Preset) -> String {
    let line = show::show_preset_line(preset);
    line.trim_start_matches("手合割：").trim_end().into()
}

pub(super) fn shown_special(special: MoveSpecial) -> String {
    let line = show_kif::show_move_line(MoveFormat { special: Some(special), ..Default::default() });
    line.trim_start_matches("   1 ").trim_end().into()
}

pub(super) fn written_counts(sample: &mut Sample) {
    for count in 0..100 {
        sample.add(&numbers(&[count]), show::show_count(count as u8).as_bytes());
    }
}
