//! The leaves: UTF-8, steps over a text, numbers read and written.

use super::{numbers, places, Sample};
use nom::character::complete::{digit1, line_ending, not_line_ending, one_of, space0};
use nom::error::VerboseError;
use nom::multi::many0;
use nom::IResult;
use std::iter;

pub(super) fn utf8(sample: &mut Sample) {
    let leads = [
        0x7f, 0x80, 0xbf, 0xc0, 0xc1, 0xc2, 0xdf, 0xe0, 0xe1, 0xec, 0xed, 0xee, 0xef, 0xf0, 0xf1, 0xf3, 0xf4, 0xf5,
        0xff,
    ];
    let seconds: [&[u8]; 10] = [b"", b"\0", b"\x7f", b"\x80", b"\x8f", b"\x90", b"\x9f", b"\xa0", b"\xbf", b"\xc0"];
    let tails: [&[u8]; 3] = [b"", b"\x80", b"\x80\xbf"];
    let mut texts = vec![vec![]];
    for lead in leads {
        for second in seconds {
            texts.extend(tails.map(|tail| [b"a", &[lead][..], second, tail].concat()));
        }
    }
    for length in 0..60 {
        let characters: String = (0..length).map(|_| sample.r.pick(&["a", "é", "歩", "🀄", "\0"])).collect();
        let mut text = characters.into_bytes();
        let cut = text.len() - text.len().min(length % 4);
        text.truncate(cut);
        texts.push(text);
    }
    for text in texts {
        let well_formed = std::str::from_utf8(&text).map_or_else(|error| error.valid_up_to(), str::len);
        sample.add(&text, &numbers(&[well_formed as u64]));
    }
}

pub(super) fn steps(sample: &mut Sample) {
    let texts = [
        "", " ", "\t", "　", "\n", "\r", "\r\n", "\r\r\n", "\n\n", "x", "xy", " \t x", "　 　x", " 　\t　", "x\n",
        "x\r\n", "x\ry", "\rx\n", "歩\r", "歩🀄\n　", "  \n", "a\0b\r\n", "\u{feff} \n", "、　", "\u{3001}\u{3000}",
    ];
    for text in texts {
        for place in places(text) {
            for which in 0..4 {
                sample.add_at(&[which], place, text, |rest| step(which, place, rest));
            }
        }
    }
}

/// Found and the place after.
fn step(which: u64, place: u64, input: &str) -> Vec<u64> {
    type Read<'a> = IResult<&'a str, (), VerboseError<&'a str>>;
    let read: Read = match which {
        0 => space0(input).map(|(rest, _)| (rest, ())),
        1 => many0(one_of(" 　"))(input).map(|(rest, _)| (rest, ())),
        2 => not_line_ending(input).map(|(rest, _)| (rest, ())),
        _ => line_ending(input).map(|(rest, _)| (rest, ())),
    };
    read.map_or(vec![0, 0], |(rest, _)| vec![1, place + (input.len() - rest.len()) as u64])
}

pub(super) fn digits(sample: &mut Sample) {
    let mut texts: Vec<String> =
        ["", "x", "-1", "+1", "７", "1", "12x", "0", "00", "007)", "255", "256", "254:", "0255", "0256"]
            .map(String::from)
            .to_vec();
    for value in [9u128, 10, 99, 100, 199, 200, 249, 250, 260, 300, 999, 1000, u64::MAX as u128 - 1, u64::MAX as u128] {
        texts.push(value.to_string());
        texts.push(format!("{value:040}"));
        texts.push(format!("{}x", value + 1));
        texts.push(format!("{value}0"));
    }
    texts.extend(["9".repeat(40), "0".repeat(40), format!("{}1", "0".repeat(60)), "184467440737095516150".into()]);
    for text in &texts {
        let length = text.len() as u64;
        for place in [0, 1, length, length + 1] {
            for largest in [255, u64::MAX] {
                sample.add_at(&[largest], place, text, |rest| digit(largest, text.len(), rest));
            }
        }
    }
}

/// 0 for no digit, 1 for a value, 2 for too large; the value and the place after it.
fn digit(largest: u64, length: usize, input: &str) -> Vec<u64> {
    let read: IResult<&str, &str, VerboseError<&str>> = digit1(input);
    let Ok((rest, figures)) = read else {
        return vec![0, 0, 0];
    };
    // The original parses a u8 or a usize, by the type it needs.
    let value = if largest == 255 { figures.parse::<u8>().map(u64::from) } else { figures.parse::<u64>() };
    value.map_or(vec![2, 0, 0], |value| vec![1, value, (length - rest.len()) as u64])
}

pub(super) fn decimals(sample: &mut Sample) {
    let powers = [1, 2, 3, 4, 5, 10, 19].into_iter().flat_map(|places| [10u64.pow(places) - 1, 10u64.pow(places)]);
    let others = [0, 1, 5, 11, 59, 60, 254, 255, 256, 65_535, 65_536, 1 << 32, 1 << 63, u64::MAX - 1, u64::MAX];
    for value in powers.chain(others) {
        let forms = [format!("{value}"), format!("{value:2}"), format!("{value:02}"), format!("{value:4}")];
        for (form, text) in iter::zip(0.., forms) {
            for room in [0, text.len() - 1, text.len(), text.len() + 3] {
                let fitting = if text.len() <= room { text.as_bytes() } else { b"" };
                sample.add(&numbers(&[form, value, room as u64]), fitting);
            }
        }
    }
}
