//! Several variations on one move: known answers, by hand.   (02, vi)

use crate::judge::{self, Outcome};
use crate::known::{answered, block, moves};
use crate::record::{decode, encode, Line, Record, LIMIT};
use crate::sound::sound;
use crate::tables;
use crate::translate;
use crate::tree_checks::one_is_two;

/// A record whose main line goes to ply 8, with variations: of each its start, the line it hangs on and its number of entries, as in
/// `5^0x3 5^0x1`.
fn listed(version: usize, variations: &str) -> Record {
    let main = format!("手数\n{}", moves(1, 8));
    let mut record = Record { version, ..decode(&block(&main)).unwrap() };
    for variation in variations.split_whitespace() {
        let figures: Vec<u64> = variation.split(['^', 'x']).map(|figure| figure.parse().unwrap()).collect();
        let text = format!("手数\n{}", moves(figures[0], figures[2]));
        let entries = decode(&block(&text)).unwrap().lines.remove(0).entries.split_off(1);
        record.lines.push(Line { start: figures[0], parent: figures[1] as usize, entries });
    }
    record
}

fn listed_block(version: usize, variations: &str) -> Vec<u8> {
    encode(&listed(version, variations))
}

/// Variations, and in which versions they are sound.
const SOUND: [(&str, &[usize]); 17] = [
    ("", &[1, 2]),
    ("5^0x3", &[1, 2]),
    ("5^0x3 3^0x1", &[1, 2]),
    ("5^0x3 5^1x1", &[1, 2]),
    ("0^0x2 0^1x1", &[1, 2]),
    ("3^0x1 0^0x4 2^2x1", &[1, 2]),
    ("3^0x4 5^1x1 4^1x1 2^0x1", &[1, 2]),
    ("5^0x3 5^0x1", &[2]),
    ("0^0x2 0^0x1", &[2]),
    ("5^0x3 6^1x1 5^0x2 6^3x1", &[2]),
    ("5^0x1 5^1x1 5^0x1", &[2]),
    ("3^0x4 5^0x1", &[]),
    ("3^0x1 5^0x1", &[]),
    ("3^0x2 5^1x1", &[]),
    ("5^0x3 3^0x2 6^1x1", &[]),
    ("0^0x2 3^0x1", &[]),
    ("9^0x1", &[]),
];

pub fn soundness() {
    for (variations, versions) in SOUND {
        for version in [0, 1, 2, 3, 257, 258, 513] {
            let is_sound = sound(&listed_block(version, variations));
            assert_eq!(is_sound, versions.contains(&version), "{variations} as version {version}");
        }
    }
}

/// Every table of up to four lines: both definitions of soundness, and what sets the versions apart.
pub fn all_tables() {
    for record in tables::some() {
        assert_eq!(sound(&encode(&record)), record.is_well_formed(), "{record:?}");
        one_is_two(&record);
    }
}

/// An entry's forks are the lines on it from the last in the file to the first; nesting the second does not change the text.
pub fn writing() {
    let equals = listed(2, "5^0x3 5^0x1");
    let forks = translate::original(&equals).moves[5].forks.clone().unwrap();
    assert_eq!(forks.iter().map(Vec::len).collect::<Vec<_>>(), [1, 3]);
    for mode in 0..3 {
        let nested = [1, 2].map(|version| judge::write_as(&listed_block(version, "5^0x3 5^1x1"), mode));
        assert_eq!([&judge::write_as(&encode(&equals), mode); 2], nested.each_ref());
    }
    let zeros = listed_block(2, "5^0x1 0^0x2 1^2x1 0^0x1");
    assert_eq!(answered(judge::write(&zeros), LIMIT).2, 3);
    assert_eq!([1, 2].map(|mode| answered(judge::write_as(&zeros, mode), LIMIT)), [(20, 2, 0); 2]);
}

/// Variations, and what is read of their text.
pub fn reading_back() {
    let known = [
        ("5^0x3 5^0x1", "5^0x3 5^1x1"),
        ("5^0x3 6^1x1 5^0x2 6^3x1", "5^0x3 6^1x1 5^1x2 6^3x1"),
        ("5^0x1 5^1x1 5^0x1", "5^0x1 5^1x1 5^2x1"),
        ("5^0x3 3^0x1", "5^0x3 3^0x1"),
        ("3^0x1 0^0x4 2^2x1", "3^0x1"),
    ];
    for (before, after) in known {
        let Outcome::Made { result: text, .. } = judge::write(&listed_block(2, before)) else { panic!("{before}") };
        assert_eq!(block(&String::from_utf8(text).unwrap()), listed_block(1, after), "{before}");
    }
}

/// A line, the ply that one move is put in at, and the number and the two figures; with success the second is the new line's number,
/// the first the length of these variations' block.
type PutIn = (u64, u64, (u64, u64, u64), &'static str);

const TWO: &str = "5^0x3 3^0x1";
const FOUR: &str = "5^0x3 6^1x1 5^0x2 6^3x1";

const PUT_INS: [(&str, usize, PutIn); 14] = [
    (TWO, 1, (0, 4, (0, 0, 2), "5^0x3 4^0x1 3^0x1")),
    (TWO, 2, (0, 4, (0, 0, 2), "5^0x3 4^0x1 3^0x1")),
    (TWO, 1, (0, 5, (13, 0, 5), "")),
    (TWO, 2, (0, 5, (0, 0, 1), "5^0x1 5^0x3 3^0x1")),
    (TWO, 1, (1, 5, (0, 0, 2), "5^0x3 5^1x1 3^0x1")),
    (TWO, 2, (1, 5, (0, 0, 2), "5^0x3 5^1x1 3^0x1")),
    (TWO, 2, (1, 8, (12, 1, 8), "")),
    (TWO, 2, (0, 0, (12, 0, 0), "")),
    (TWO, 2, (3, 5, (10, 3, 0), "")),
    (FOUR, 2, (0, 5, (0, 0, 1), "5^0x1 5^0x3 6^2x1 5^0x2 6^4x1")),
    (FOUR, 2, (1, 6, (0, 0, 2), "5^0x3 6^1x1 6^1x1 5^0x2 6^4x1")),
    (FOUR, 2, (3, 5, (0, 0, 5), "5^0x3 6^1x1 5^0x2 6^3x1 5^3x1")),
    (FOUR, 2, (2, 6, (0, 0, 3), "5^0x3 6^1x1 6^2x1 5^0x2 6^4x1")),
    (FOUR, 2, (0, 8, (0, 0, 1), "8^0x1 5^0x3 6^2x1 5^0x2 6^4x1")),
];

pub fn put_ins() {
    for (before, version, (line, ply, (number, first, second), after)) in PUT_INS {
        let outcome = judge::put_in(&listed_block(version, before), line, moves(ply, 1).as_bytes());
        let due = match number {
            0 => made(listed_block(version, after), second),
            _ => Outcome::Answered(judge::answer(number, first, second)),
        };
        assert_eq!(outcome, due, "{before}, version {version}, line {line} at {ply}");
    }
}

/// Variations, the line cut, how many go, and what is left.
const CUTS: [(&str, u64, u64, &str); 7] = [
    (FOUR, 1, 2, "5^0x2 6^1x1"),
    (FOUR, 2, 1, "5^0x3 5^0x2 6^2x1"),
    (FOUR, 3, 2, "5^0x3 6^1x1"),
    (FOUR, 4, 1, "5^0x3 6^1x1 5^0x2"),
    ("5^0x1 5^0x1", 1, 1, "5^0x1"),
    ("5^0x1 5^1x1 5^0x2", 1, 2, "5^0x2"),
    ("3^0x4 5^1x1 4^1x1 2^0x1", 1, 3, "2^0x1"),
];

pub fn cuts() {
    for (before, line, removed, after) in CUTS {
        let outcome = judge::cut(&listed_block(2, before), line);
        assert_eq!(outcome, made(listed_block(2, after), removed), "{before}, line {line}");
    }
}

fn made(result: Vec<u8>, second: u64) -> Outcome {
    Outcome::Made { answer: judge::answer(0, result.len() as u64, second), result }
}

/// One record from text to text, its blocks by their bytes.
pub fn in_bytes() {
    let read = block("手数\n1 ７六歩(77)\n2 ３四歩(33)\n\n変化：2手\n2 ８四歩(83)\n");
    let restated = [&read[..2], &[2], &read[3..]].concat();
    assert_eq!((read.len(), judge::restate(&read)), (224, made(restated.clone(), 0)));
    assert_eq!([0, 223, 224].map(|room| answered(judge::restate(&read), room).0), [5, 5, 0]);
    assert_eq!(answered(judge::restate(&read), 223), (5, 224, 0));

    let put_in = |block: &[u8]| judge::put_in(block, 0, "2 ５四歩(53)\n".as_bytes());
    assert_eq!(answered(put_in(&read), LIMIT), (13, 0, 2));
    let Outcome::Made { result: equals, answer } = put_in(&restated) else { panic!("it is refused") };
    assert_eq!((answer.first, answer.second), (252, 1));
    let Outcome::Made { result: text, .. } = judge::write(&equals) else { panic!("it is not written") };
    let text = String::from_utf8(text).unwrap();
    let head = "手合割：平手\n手数----指手---------消費時間--\n   1 ７六歩(77)\n   2 ３四歩(33)\n";
    let written = format!("{head}\n変化：2手\n   2 ５四歩(53)\n\n変化：2手\n   2 ８四歩(83)\n");
    assert_eq!((text.len(), &text), (165, &written));
    let parents = |block: &[u8]| decode(block).unwrap().lines.iter().map(|line| line.parent).collect::<Vec<_>>();
    assert_eq!((parents(&equals), parents(&block(&text))), (vec![0, 0, 0], vec![0, 0, 1]));

    assert_eq!(judge::cut(&equals, 1), made(restated.clone(), 1));
    assert_eq!(answered(judge::restate(&restated), 0), (7, 0, 0));
    assert_eq!(answered(judge::restate(&read[1..]), 0), (7, 0, 0));
}

/// Where two refusals hold at once, the earlier is given; 13 is none of them.
pub fn orders() {
    let block = listed_block(2, "5^0x3");
    let put_in = |block: &[u8], line, text: &str| answered(judge::put_in(block, line, text.as_bytes()), 0);
    let filling = format!("5同歩打\n*{}\n", "x".repeat(LIMIT - 11 - 3));
    assert_eq!(put_in(&block[1..], 9, ""), (7, 0, 0));
    assert_eq!(put_in(&listed_block(2, "3^0x1 5^0x1"), 9, ""), (7, 0, 0));
    assert_eq!(put_in(&block, 9, ""), (10, 9, 0));
    assert_eq!(put_in(&block, 0, "9同歩打\nx\n"), (11, 0, 0));
    assert_eq!(put_in(&block, 0, "5同歩打\n5同歩打\n"), (11, 0, 0));
    assert_eq!(put_in(&block, 0, &filling.replace('5', "9")), (12, 0, 9));
    assert_eq!(put_in(&block, 0, &filling).0, 4);
    assert_eq!(put_in(&block, 0, "5同歩打\n"), (5, block.len() as u64 + 28, 0));
    let cut = |block: &[u8], line| answered(judge::cut(block, line), 0);
    assert_eq!(cut(&block[1..], 0), (7, 0, 0));
    assert_eq!([0, 2].map(|line| cut(&block, line)), [(10, 0, 0), (10, 2, 0)]);
    assert_eq!(cut(&block, 1), (5, block.len() as u64 - 68, 0));
}
