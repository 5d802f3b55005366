//! The answers that 01 itself gives, and those at the points where its words meet the original: all by hand.

use crate::cases::OTHER_MODES;
use crate::equals;
use crate::games;
use crate::judge::{self, Outcome, LONGEST};
use crate::kept::is_covered;
use crate::left::left;
use crate::listed;
use crate::listing::listing;
use crate::modes;
use crate::plays;
use crate::record::{decode, encode, Diagram, Record, What, LIMIT};
use crate::sound::sound;
use crate::stop::{spot, stop};
use crate::stops;
use crate::times;

pub const WORKED_EXAMPLE: &str = "\
手合割：平手
手数--
   1 ７六歩(77) ( 0:16/00:00:16)
   2 ３四歩(33)
*second
   3 中断

変化：2手
   2 ８四歩(83)
";

const LISTING: &str = "\
read 137 block 254
line 0 start 0 moves 4 parent 0
line 1 start 2 moves 1 parent 0
";

/// Each group by name; a group panics at the first answer that is not the known one.
pub const GROUPS: [(&str, fn()); 35] = [
    ("worked example", worked_example),
    ("lines and entries", listed::of_worked_example),
    ("positions", positions),
    ("put-ins and cuts", put_ins_and_cuts),
    ("numbers", numbers),
    ("texts", texts),
    ("writing", writing),
    ("orders", orders),
    ("what is left", what_is_left),
    ("modes", modes_of_lines),
    ("modes of games", modes_of_games),
    ("orders of modes", orders_of_modes),
    ("made by hand", made_by_hand),
    ("modes at the limits", modes_at_the_limits),
    ("times", times_of_lines),
    ("lost times", lost_times),
    ("stops", stops_of_texts),
    ("stops at the limits", stops_at_the_limits),
    ("spots", spots),
    ("openings", plays::openings),
    ("diagrams", plays::diagrams),
    ("stops of play", plays::stops),
    ("plays made by hand", plays::made_by_hand),
    ("presets", plays::presets),
    ("variations", plays::variations),
    ("orders of positions", plays::orders),
    ("games", games::games),
    ("soundness of both versions", equals::soundness),
    ("tables", equals::all_tables),
    ("writing of equals", equals::writing),
    ("reading equals back", equals::reading_back),
    ("put-ins beside others", equals::put_ins),
    ("cuts among equals", equals::cuts),
    ("restated", equals::in_bytes),
    ("orders of version 2", equals::orders),
];

fn worked_example() {
    assert_eq!(listing(WORKED_EXAMPLE.as_bytes()), LISTING);
    assert_eq!(listing("先手の持駒：x\n".as_bytes()), "refused 3 0 0\n");
    assert_eq!(listing(&[b'x'; 70_000]), "refused 1 65536 0\n");
}

/// Move lines from a ply on.
pub fn moves(start: u64, count: u64) -> String {
    (start..start + count).map(|ply| format!("{ply}同歩打\n")).collect()
}

/// A main line of eight plies and variations by start and number of moves.
fn game(variations: &[(u64, u64)]) -> String {
    let variations = variations.iter().map(|&(start, count)| format!("変化\n{}", moves(start, count)));
    format!("手数\n{}{}", moves(1, 8), variations.collect::<String>())
}

/// Number, first and second figure with a buffer of this length.
pub fn answered(outcome: Outcome, length: usize) -> (u64, u64, u64) {
    let answer = outcome.deliver(&mut vec![1; length]);
    (answer.number, answer.first, answer.second)
}

fn read(text: &str) -> (u64, u64, u64) {
    answered(judge::fill(text.as_bytes()), LIMIT)
}

/// The block of a text that is read.
pub fn block(text: &str) -> Vec<u8> {
    match judge::fill(text.as_bytes()) {
        Outcome::Made { result, .. } => result,
        other => panic!("{text:?}: {other:?}"),
    }
}

fn record(text: &str) -> Record {
    decode(&block(text)).unwrap()
}

/// The line and the entry that each variation hangs on.
fn hung(variations: &[(u64, u64)]) -> Vec<(usize, u64)> {
    let lines = record(&game(variations)).lines;
    lines[1..].iter().map(|line| (line.parent, line.start - lines[line.parent].start)).collect()
}

fn positions() {
    assert_eq!(hung(&[(5, 3), (3, 1)]), [(0, 5), (0, 3)]);
    assert_eq!(hung(&[(3, 4), (5, 1)]), [(0, 3), (1, 2)]);
    assert_eq!(hung(&[(5, 1), (5, 1)]), [(0, 5), (1, 0)]);
    assert_eq!(read(&game(&[(3, 2), (5, 1)])), (6, 2, 5));
    assert_eq!(hung(&[(8, 1)]), [(0, 8)]);
    assert_eq!(read(&game(&[(9, 1)])), (6, 1, 9));
    assert_eq!(hung(&[(0, 1)]), [(0, 0)]);
}

fn put_ins_and_cuts() {
    let before = block(&game(&[(5, 3), (3, 1)]));
    let put_in = |line, ply| judge::put_in(&before, line, moves(ply, 1).as_bytes());
    let after = block(&game(&[(5, 3), (4, 1), (3, 1)]));
    let Outcome::Made { result, answer } = put_in(0, 4) else { panic!() };
    assert_eq!((&result, answer.first, answer.second), (&after, after.len() as u64, 2));
    assert_eq!(answered(put_in(0, 5), LIMIT), (13, 0, 5));
    assert_eq!(answered(put_in(1, 8), LIMIT), (12, 1, 8));

    let Outcome::Made { result, answer } = judge::cut(&block(&game(&[(3, 4), (5, 1), (4, 1), (2, 1)])), 1) else {
        panic!()
    };
    let after = block(&game(&[(2, 1)]));
    assert_eq!((&result, answer.first, answer.second), (&after, after.len() as u64, 3));
}

fn numbers() {
    let origin = |origin: &str| match &record(&format!("手数\n1同歩{origin}\n")).lines[0].entries[..] {
        [_, entry] => match &entry.what {
            What::Move(m) => m.from,
            other => panic!("{other:?}"),
        },
        _ => None,
    };
    assert_eq!(origin("(255)"), Some((25, 5)));
    assert_eq!(origin("(256)"), None);
    assert_eq!(origin("打"), Some((0, 0)));
    assert_eq!(origin("(00000077)"), Some((7, 7)));
    assert_eq!(origin("(7)"), Some((0, 7)));
    let pawns = |before: &str, after: &str| {
        let rows = format!("|{}|一\n", " ・".repeat(9)).repeat(9);
        let edge = "+---------------------------+\n";
        let board = format!("  ９ ８ ７ ６ ５ ４ ３ ２ １\n{edge}{rows}{edge}");
        let text = format!("先手の持駒：{before}\n{board}先手の持駒：{after}\n");
        record(&text).position.diagram.unwrap().hands[0]
    };
    assert_eq!(pawns("歩九十九", ""), 99);
    assert_eq!(pawns("歩十歩　歩", "なし"), 12);
    assert_eq!(pawns("歩二十", "歩一十"), 30);
    assert_eq!(pawns("歩九十九歩九十九", "歩九十九"), 255);
}

/// Short texts: what becomes of each.
fn texts() {
    let known = [
        ("", (0, 0, 156)),
        ("\n", (0, 0, 156)),
        ("\n*c\n1同歩打\n", (0, 15, 176)),
        ("\r\n*c\r\n1同歩打\r\n", (0, 18, 181)),
        ("\rx\n", (0, 3, 156)),
        ("\n\rx\n", (0, 0, 156)),
        ("手数\n1同歩打\rx\n", (0, 7, 156)),
        ("手数\n18446744073709551616同歩打\n", (0, 7, 156)),
        ("手数\n1同歩打\nx\n18446744073709551615同歩打\n", (6, 1, u64::MAX)),
        ("#c\n先手の持駒：x\n", (3, 3, 0)),
        ("a：b\n先手の持駒：なし", (3, 6, 0)),
        ("先手の持駒：玉\n", (3, 0, 0)),
        ("手合割：平手\n#c\n手数--\n1同歩打\n", (6, 1, 1)),
        ("手数\n1同歩打\n先手：x\n2同歩打\n", (6, 1, 2)),
        ("手数\n1同歩打\n変化\n*c\n1同歩打\n", (0, 25, 176)),
        ("a\nb\n0同歩打\n", (0, 15, 184)),
    ];
    for (text, answer) in known {
        assert_eq!(read(text), answer, "{text:?}");
    }
}

/// Blocks that are not written, and what is written of one that is.
fn writing() {
    let write = |block: &[u8]| answered(judge::write(block), 200_000);
    for time in ["(0:1/0:2)", "(0:1:2/3:4)"] {
        assert_eq!(write(&block(&format!("手数\n1 ７六成香成打{time}\n"))), (9, 0, 1));
    }
    let mut moved = record("手数\n1 ７六歩(77)\n");
    for off_board in [(0, 6), (10, 6), (7, 0), (7, 10), (255, 255)] {
        if let What::Move(m) = &mut moved.lines[0].entries[1].what {
            m.to = Some(off_board);
        }
        assert_eq!(write(&encode(&moved)), (9, 0, 1));
    }
    let Outcome::Made { result, answer } = judge::write(&block(&game(&[(8, 1), (0, 1), (0, 1)]))) else { panic!() };
    let main: String = (1..9).map(|ply| format!("{ply:4} 同　歩(00)\n")).collect();
    let text = format!("手合割：平手\n手数----指手---------消費時間--\n{main}\n変化：8手\n   8 同　歩(00)\n");
    assert_eq!((String::from_utf8(result).unwrap(), answer.second), (text, 2));
}

/// Where two refusals hold at once, the earlier in 01's order is given.
fn orders() {
    let long = |text: &[u8]| [text, &[b'x'; LIMIT]].concat();
    let read = |text: &[u8], length| answered(judge::fill(text), length);
    assert_eq!(read(&long(b"\xff"), 0), (1, LIMIT as u64 + 1, 0));
    assert_eq!(read(&["先手の持駒：x\n".as_bytes(), b"\xff"].concat(), 0), (2, 20, 0));
    assert_eq!(read("先手の持駒：x\n".as_bytes(), 0), (3, 0, 0));
    let too_many = format!("手数\n{}x\n9999同歩打\n", "1同歩打\n".repeat(3_269));
    assert_eq!(read(too_many.as_bytes(), 0), (4, 65_564, 0));
    assert_eq!(read(game(&[(9, 1)]).as_bytes(), 343), (5, 344, 0));
    assert_eq!(read(game(&[(9, 1)]).as_bytes(), 344), (6, 1, 9));

    let mut hands = record("手数\n1 ７六歩(77)\n");
    hands.position.preset = 16;
    hands.position.diagram =
        Some(Diagram { turn: 0, cells: [0; 81], hands: [0, 0, 0, 0, 0, 0, 0, 0, 0, 100, 0, 0, 0, 0] });
    if let What::Move(m) = &mut hands.lines[0].entries[1].what {
        m.to = Some((0, 0));
    }
    let write = |block: &[u8]| answered(judge::write(block), 0);
    assert_eq!(write(&[&encode(&hands)[..], &[0]].concat()), (7, 0, 0));
    assert_eq!(write(&encode(&hands)), (8, 1, 2));
    hands.position.diagram = None;
    assert_eq!(write(&encode(&hands)), (9, 0, 1));

    let block = block(&game(&[(5, 3)]));
    let put_in = |block: &[u8], line, text: &[u8]| answered(judge::put_in(block, line, text), 0);
    let filling = format!("5同歩打\n*{}\n", "x".repeat(LIMIT - 11 - 3));
    assert_eq!(put_in(&block[1..], 9, b""), (7, 0, 0));
    assert_eq!(put_in(&block, 9, b""), (10, 9, 0));
    assert_eq!(put_in(&block, 0, &long(b"9")), (11, 0, 0));
    assert_eq!(put_in(&block, 0, "9同歩打\nx\n".as_bytes()), (11, 0, 0));
    for numbers in ["4 6", "4 5 7", "4 4", "4 5 5", "4 3", "18446744073709551615 0"] {
        let text: String = numbers.split(' ').map(|number| format!("{number}同歩打\n")).collect();
        assert_eq!(put_in(&block, 0, text.as_bytes()), (11, 0, 0), "{numbers}");
    }
    assert_eq!(put_in(&block, 0, filling.replace('5', "0").as_bytes()), (12, 0, 0));
    assert_eq!(put_in(&block, 0, filling.as_bytes()), (13, 0, 5));
    assert_eq!(put_in(&block, 0, filling.replace('5', "4").as_bytes()).0, 4);
    assert_eq!(put_in(&block, 0, "4同歩打\n".as_bytes()), (5, block.len() as u64 + 28, 0));

    let cut = |block: &[u8], line| answered(judge::cut(block, line), 0);
    assert_eq!(cut(&block[1..], 0), (7, 0, 0));
    assert_eq!(cut(&block, 0), (10, 0, 0));
    assert_eq!(cut(&block, 2), (10, 2, 0));
    assert_eq!(cut(&block, 1), (5, block.len() as u64 - 68, 0));
    let look_up = |block: &[u8]| judge::comment(block, u64::MAX).0;
    assert_eq!((look_up(&block[1..]).number, look_up(&block).number, look_up(&block).first), (7, 10, u64::MAX));
}

/// Each of 01's losses alone, and a record that has nothing to lose: a text, and one of the record that is left.
fn what_is_left() {
    let moved = |how: &str| format!("手合割：香落ち\na：b\n手数\n*c\n1 ７六銀{how}\n*d\n2 投了\n");
    let known = [
        (game(&[(8, 1), (0, 3), (2, 1), (0, 1)]), game(&[(8, 1)])),
        (moved("成(77)(1:2:3/4:5:6)"), moved("成(77)(2:3/4:5:6)")),
        (moved("不成(77)"), moved("(77)")),
        (moved("成(77)(2:3/5:6)"), moved("成(77)(2:3/0:5:6)")),
        (WORKED_EXAMPLE.into(), WORKED_EXAMPLE.into()),
    ];
    for (before, after) in known {
        assert_eq!(left(&record(&before)), record(&after), "{before:?}");
    }
}

/// What a mode writes of a block, its refusal if it writes nothing.
fn written(block: &[u8], mode: u64) -> Result<String, (u64, u64, u64)> {
    match judge::write_as(block, mode) {
        Outcome::Made { result, .. } => Ok(String::from_utf8(result).unwrap()),
        refused => Err(answered(refused, LIMIT)),
    }
}

/// Each line in a main line and in a variation: what each mode writes, and that those which lose nothing restore it.
fn modes_of_lines() {
    let head = "手合割：平手\n手数----指手---------消費時間--\n";
    for (line, texts) in modes::ROWS {
        let main = block(&format!("手数\n1 {line}\n*c\n"));
        let variation = block(&format!("手数\n1詰み\n2詰み\n変化\n1 {line}\n*c\n"));
        for (mode, text) in (0..).zip(texts) {
            let due = |before: &str, line, entry| match text {
                "" => Err((9, line, entry)),
                _ => Ok(format!("{head}{before}   1 {text}\n*c\n")),
            };
            let cases = [(&main, due("", 0, 1)), (&variation, due("   1 詰み\n   2 詰み\n\n変化：1手\n", 1, 0))];
            for (made, due) in cases {
                assert_eq!(written(made, mode), due, "{line:?} in mode {mode}");
                assert!(mode == 0 || due.is_err() || block(&due.unwrap()) == *made, "{line:?} in mode {mode}");
            }
        }
    }
}

/// A whole game in both modes that lose nothing; the first variation with start 0; and numbers that are no mode's.
fn modes_of_games() {
    let made = block(modes::GAME);
    for (mode, drop) in [(1, "(00)   "), (2, "打     ")] {
        let text = modes::game_written(drop);
        assert_eq!(answered(judge::write_as(&made, mode), LIMIT), (0, text.len() as u64, 0));
        assert_eq!(written(&made, mode), Ok(text));
        assert_eq!(block(&modes::game_written(drop)), made);
    }
    let zeros = block(&game(&[(8, 1), (0, 1), (0, 1)]));
    assert_eq!([1, 2].map(|mode| written(&zeros, mode)), [const { Err((20, 2, 0)) }; 2]);
    for mode in OTHER_MODES.into_iter().chain([0]) {
        for block in [&made, &zeros] {
            assert_eq!(judge::write_as(block, mode), judge::write(block), "mode {mode}");
        }
    }
}

/// 7, then 20, then 8, 9 and 5; and 9 is looked for in all lines.
fn orders_of_modes() {
    let mut all = record("手数\n1 ７六歩(77)\n2投了\n変化\n2投了\n変化\n0投了\n変化\n0投了\n");
    modes::off_board(&mut all);
    modes::with_hundred(&mut all);
    for mode in [1, 2] {
        let mut record = all.clone();
        let write = |record: &Record, room| answered(judge::write_as(&encode(record), mode), room);
        assert_eq!(answered(judge::write_as(&[&encode(&record)[..], &[0]].concat(), mode), 0), (7, 0, 0));
        assert_eq!(write(&record, 0), (20, 2, 0));
        record.lines.truncate(2);
        assert_eq!(write(&record, 0), (8, 1, 4));
        record.position.diagram.as_mut().unwrap().hands[11] = 99;
        assert_eq!(write(&record, 0), (9, 0, 1));
        record.lines[0].entries.remove(1);
        record.lines[1].start = 1;
        let needed = written(&encode(&record), mode).unwrap().len();
        assert_eq!(write(&record, needed - 1), (5, needed as u64, 0));
        assert_eq!(write(&record, needed), (0, needed as u64, 0));
        let last = block("手数\n1 ７六歩(77)\n2投了\n変化\n2投了\n変化\n1同歩(77)\n2同成香成(77)(0:1/0:2)\n");
        assert_eq!(written(&last, mode), Err((9, 2, 1)));
    }
}

/// What 02 asks of a record made by hand is enough, and none of it is asked in vain.
fn made_by_hand() {
    let good = record("手数\n1 ７六歩(77)(0:1/0:2)\n2 投了\n*c\n");
    let back = |record: &Record, mode| {
        let text = written(&encode(record), mode).unwrap();
        matches!(judge::fill(text.as_bytes()), Outcome::Made { result, .. } if result == encode(record))
    };
    let held = |record: &Record, covered| {
        assert_eq!(is_covered(record), covered, "{record:?}");
        assert_eq!([1, 2].map(|mode| back(record, mode)), [covered; 2], "{record:?}");
    };
    let headed = |(key, value): (&str, &str)| Record { header: vec![(key.into(), value.into())], ..good.clone() };
    held(&good, true);
    modes::COVERED_HEADERS.into_iter().for_each(|header| held(&headed(header), true));
    modes::UNCOVERED_HEADERS.into_iter().for_each(|header| held(&headed(header), false));
    for spoil in modes::SPOILED {
        let mut spoiled = good.clone();
        spoil(&mut spoiled);
        held(&spoiled, false);
    }
    let strayed = record("手数\n2 ７六歩(77)\n");
    assert_eq!((is_covered(&strayed), [1, 2].map(|mode| back(&strayed, mode))), (true, [false; 2]));
    let mut unplaced = good.clone();
    modes::SPOILED[0](&mut unplaced);
    let text = "手合割：平手\n手数----指手---------消費時間--\n   1 ７六歩打     ( 0:01/00:02)\n   2 投了\n*c\n";
    assert_eq!([1, 2].map(|mode| written(&encode(&unplaced), mode)), [1, 2].map(|_| Ok(text.into())));
}

/// A text of 65,535 bytes is read back, one of a byte more is refused; and the longest text of all has room in the longest buffer.
fn modes_at_the_limits() {
    let timed: String = (1..10).map(|ply| format!("{ply}同歩打(0:0/0:0)\n")).collect();
    let commented = |length: usize| block(&format!("手数\n*{}\n{timed}", "x".repeat(length)));
    let longest = encode(&modes::longest());
    assert_eq!((sound(&longest), longest.len()), (true, 65_516));
    for mode in [1, 2] {
        let room = LIMIT - written(&commented(0), mode).unwrap().len();
        let [just, over] = [room, room + 1].map(commented);
        assert!(block(&written(&just, mode).unwrap()) == just);
        assert_eq!(read(&written(&over, mode).unwrap()), (1, LIMIT as u64 + 1, 0));
        let length = written(&longest, mode).unwrap().len();
        assert_eq!(length, 59 + 3_268 * 58);
        assert!(length < LONGEST);
    }
}

/// Which entries of a text have a time, its slot apart, and how many move lines lost one.
fn timed(text: &str) -> (Vec<bool>, u64) {
    let Outcome::Made { result, answer } = judge::fill(text.as_bytes()) else { panic!("{text:?} is refused") };
    let entries = decode(&result).unwrap().lines.into_iter().flat_map(|line| line.entries);
    (entries.skip(1).map(|entry| entry.time.is_some()).collect(), answer.lost)
}

/// Each case behind a move and behind an ending, in the main line and in a variation, with either break and with none.
fn times_of_lines() {
    for (time, read, lost) in times::cases() {
        for before in ["1同歩打", "   1 ７六歩(77) ", "1投了", " 1中断\t "] {
            let untaken = format!("手数\n1詰み\n{before}{time}");
            assert_eq!(timed(&untaken), (vec![false], 0), "{untaken:?}");
            for line_break in ["\n", "\r\n"] {
                let line = format!("{before}{time}{line_break}");
                let known = [
                    (format!("手数\n{line}"), vec![read], 1),
                    (format!("手数\n1詰み\n変化\n{line}"), vec![false, read], 1),
                    (format!("手数\n{line}*c\n{line}\n変化\n{line}"), vec![read; 3], 3),
                ];
                for (text, times, lines) in known {
                    assert_eq!(timed(&text), (times, lines * u64::from(lost)), "{text:?}");
                }
            }
        }
    }
}

/// Only taken move lines count, all of them, and none where the text is refused.
fn lost_times() {
    let known = [
        ("1同歩打(300)：\n手数\n*1同歩打(300)\n1投了\n&(300)\n", 0),
        ("手数\n1同歩打\n\n1同歩打(300)\n", 0),
        ("手数\n1同歩打\nx\n\t1同歩打(300)\n1投了\n", 0),
        ("手数\n1同歩打\n\t2同歩打(300)\n", 1),
        ("手数\n1同歩打(300)\n2同歩打(300)\rx\n", 1),
        ("手数\n1同歩打(300)\n2同歩(256)(300)\n", 1),
        ("手数\n1同歩(255)(300)\n2同歩打(0:1/0:1)\n3投了(0:1/300)\nまで\n", 2),
    ];
    for (text, lost) in known {
        assert_eq!(timed(text).1, lost, "{text:?}");
    }
    assert_eq!(timed(&format!("手数\n{}", "1同歩打(300)\n".repeat(3_000))).1, 3_000);

    let lost_in = |text: &str, room| {
        let answer = judge::fill(text.as_bytes()).answer_in(room);
        (answer.number, answer.lost)
    };
    let line = "手数\n1同歩打(300)\n";
    assert_eq!([175, 176].map(|room| lost_in(line, room)), [(5, 0), (0, 1)]);
    assert_eq!([203, 204].map(|room| lost_in(&format!("{line}x\n2投了\n"), room)), [(5, 0), (6, 0)]);
    assert_eq!(lost_in(&format!("手数\n{}", "1同歩打(300)\n".repeat(3_269)), LIMIT), (4, 0));
    assert_eq!(lost_in(&format!("先手の持駒：x\n{line}"), LIMIT), (3, 0));
}

fn stops_of_texts() {
    for (text, answer) in stops::cases() {
        assert_eq!(stop(&text), answer, "{:?}", String::from_utf8_lossy(&text));
    }
}

/// Refusals 1 and 2 come first; 6 and the place show though the block be too long.
fn stops_at_the_limits() {
    assert_eq!(stop(&[0xff; LIMIT + 1]), [1, LIMIT as u64 + 1, 0, 0, 0, 0, 0]);
    assert_eq!(stop(&["先手の持駒：x\n".as_bytes(), b"\xff"].concat()), [2, 20, 0, 0, 0, 0, 0]);
    let long = format!("手数\n{}", "1同歩打\n".repeat(3_269));
    let end = long.len() as u64;
    assert_eq!(read(&long).0, 4);
    assert_eq!(stop(long.as_bytes()), [0, end, 8, end, 0, 0, 0]);
    assert_eq!(stop(format!("{long}x\n9999同歩打\n").as_bytes()), [6, 1, 9_999, 0, 0, 3_269, end + 2]);
}

/// Characters count, not bytes; a CR is one, and only an LF ends a line.
fn spots() {
    let text = "手合割：平手\n手数----指手--\n   1 ７六歩(77)\n   2 反則勝ち\n";
    let known = [(0, (1, 1)), (3, (1, 2)), (18, (1, 7)), (19, (2, 1)), (57, (4, 1)), (62, (4, 6)), (75, (5, 1))];
    for (at, answer) in known {
        assert_eq!(spot(text.as_bytes(), at), answer, "{at}");
    }
    assert_eq!(spot(b"a\r\n\n\rb\xff", 6), (3, 3));
    assert_eq!(spot(b"", 0), (1, 1));
}
