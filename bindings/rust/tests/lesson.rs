//! The project's lesson, read, looked at, edited and written.

use kif::{
    measure, spot, stop, Clock, Error, Kind, Mode, Move, Origin, Piece, Preset, Promote, Reason, Record, Side, Special,
    Square, Start, Stop, Target, Time, What,
};
use std::{fs, thread};

fn example(name: &str) -> Vec<u8> {
    fs::read(format!("{}/../../examples/{name}", env!("CARGO_MANIFEST_DIR"))).unwrap()
}

fn lesson() -> Record {
    Record::read(example("lesson.kif")).unwrap().record
}

/// Start, entries and parent of each line.
fn rows(record: &Record) -> Vec<(usize, usize, Option<usize>)> {
    let row = |line: kif::Line<'_>| (line.start(), line.entries().len(), line.parent().map(|parent| parent.number()));
    record.lines().map(row).collect()
}

#[test]
fn read_as_the_tool_lists_it() {
    let text = example("lesson.kif");
    let reading = Record::read(&text).unwrap();
    assert_eq!((reading.taken, reading.lost, reading.record.block().len()), (739, 0, 659));
    assert_eq!(measure(&text).unwrap(), kif::Measured { block: 659, taken: 739 });
    assert_eq!(rows(&reading.record), [(0, 6, None), (3, 2, Some(0)), (4, 1, Some(1)), (1, 1, Some(0))]);
    assert_eq!(reading.record.header("後手"), Some("先生"));
    assert_eq!(reading.record.header("表題"), None);
    assert_eq!(reading.record.start(), Start::Preset(Preset::EVEN));
}

#[test]
fn entries_are_decoded() {
    let record = lesson();
    let main = record.line(0).unwrap();
    assert_eq!(main.entry(0).unwrap().what(), What::Slot);
    assert_eq!(main.entry(0).unwrap().comments().len(), 1);
    let second = main.entry(2).unwrap();
    let square = |file, rank| Square { file, rank };
    let played = Move {
        side: Side::White,
        kind: Kind::Pawn,
        promote: Promote::Unsaid,
        to: Target::Square(square(3, 4)),
        from: Origin::Square(square(3, 3)),
    };
    assert_eq!(second.what(), What::Move(played));
    let hour = Clock { hours: Some(1), minutes: 0, seconds: 8 };
    assert_eq!(second.time(), Some(Time { now: hour, total: hour }));
    assert_eq!(second.comments().collect::<Vec<_>>(), ["White thought for an hour."]);
    assert_eq!(main.entry(5).unwrap().what(), What::Special(Special::BrokenOff));
    let What::Move(promoted) = record.line(1).unwrap().entry(0).unwrap().what() else { panic!() };
    assert_eq!((promoted.kind, promoted.promote), (Kind::Bishop, Promote::Promotes));
    let What::Move(same) = record.line(1).unwrap().entry(1).unwrap().what() else { panic!() };
    assert_eq!((same.kind, same.to), (Kind::Silver, Target::Same));
}

#[test]
fn marks_of_a_move() {
    let text = "手数--\n1 ５五角打\n2 ５五角不成(88) (1:2/3:4:5)\n3 投了\n";
    let record = Record::read(text).unwrap().record;
    let main = record.line(0).unwrap();
    let What::Move(drop) = main.entry(1).unwrap().what() else { panic!() };
    assert_eq!((drop.from, drop.promote), (Origin::Hand, Promote::Unsaid));
    let What::Move(declined) = main.entry(2).unwrap().what() else { panic!() };
    assert_eq!(declined.promote, Promote::Declined);
    let now = Clock { hours: None, minutes: 1, seconds: 2 };
    let total = Clock { hours: Some(3), minutes: 4, seconds: 5 };
    assert_eq!(main.entry(2).unwrap().time(), Some(Time { now, total }));
    assert_eq!(main.entry(3).unwrap().what(), What::Special(Special::Resigns));
}

#[test]
fn edits_and_back() {
    let record = lesson();
    let (more, line) = record.put_in(0, example("reply.kif")).unwrap();
    assert_eq!((line, more.lines().len()), (3, 5));
    assert_eq!(more.put_in(0, example("reply.kif")), Err(Error::EntryTaken { line: 0, ply: 2 }));
    assert_eq!(more.cut(3).unwrap(), (record.clone(), 1));
    assert_eq!(more.cut(1).unwrap().1, 2);
    assert_eq!(record.cut(0), Err(Error::NoSuchPart { number: 0 }));
    assert_eq!(record.put_in(0, "no move\n"), Err(Error::NotOneVariation));
    assert_eq!(record.put_in(1, "9同歩打\n"), Err(Error::OutsideLine { line: 1, ply: 9 }));
}

#[test]
fn several_variations_on_one_move() {
    let two = lesson().put_in(0, example("reply.kif")).unwrap().0.restate().unwrap();
    assert_eq!((two.version(), two.restate()), (2, Err(Error::NotSound)));
    let (both, line) = two.put_in(0, example("other.kif")).unwrap();
    assert_eq!(line, 3);
    assert_eq!(rows(&both)[3..5], [(2, 1, Some(0)), (2, 2, Some(0))]);
    assert_eq!(both.cut(3).unwrap().0, two);
}

#[test]
fn written_in_each_mode() {
    let record = lesson();
    for mode in [Mode::Whole, Mode::Shared] {
        let written = record.write(mode).unwrap();
        assert_eq!(written.left_out, 0);
        assert_eq!(Record::read(&written.text).unwrap().record, record);
    }
    let plain = record.write(Mode::Plain).unwrap().text;
    assert!(plain.contains("( 0:08/01:00:08)") && Record::read(plain).unwrap().record != record);
    let wide = Record::read("手数\n1 ７六成香成打(0:1/0:2)\n").unwrap().record;
    assert_eq!(wide.write(Mode::Whole), Err(Error::CannotWrite { line: 0, entry: 1 }));
    assert!(wide.write(Mode::Shared).is_ok());
    let at_zero = Record::read("手数\n1投了\nx\n0投了\n").unwrap().record;
    assert_eq!(at_zero.write(Mode::Whole), Err(Error::StartsAtZero { line: 1 }));
    assert_eq!(at_zero.write(Mode::Plain).unwrap().left_out, 1);
}

#[test]
fn positions() {
    let position = lesson().position(1, 1).unwrap();
    let silver = Piece { side: Side::White, kind: Kind::Silver };
    assert_eq!(position.piece(Square { file: 2, rank: 2 }), Some(silver));
    assert_eq!(position.piece(Square { file: 8, rank: 8 }), None);
    assert_eq!(position.piece(Square { file: 0, rank: 10 }), None);
    for side in [Side::Black, Side::White] {
        assert_eq!(Kind::ALL.map(|kind| position.held(side, kind)).iter().sum::<u8>(), 1);
        assert_eq!(position.held(side, Kind::Bishop), 1);
    }
    assert_eq!(position.turn, Side::Black);
    assert_eq!(lesson().position(1, 2), Err(Error::NoSuchEntry { line: 1, entry: 2 }));
    assert_eq!(lesson().position(4, 0), Err(Error::NoSuchPart { number: 4 }));
    let handicap = Record::read("手合割：香落ち\n手数\n1投了\n").unwrap().record;
    let Err(Error::NoStart { preset }) = handicap.position(0, 0) else { panic!() };
    assert_eq!(preset.name(), "香落ち");
    let stopped = Record::read("手数\n1 ５五銀打\n").unwrap().record;
    assert_eq!(stopped.position(0, 1), Err(Error::PlayStopped { line: 0, entry: 1 }));
}

#[test]
fn a_diagram() {
    let rows = format!("| ・v玉 ・ ・ ・ ・ ・ ・ と|一\n{}", "| ・ ・ ・ ・ ・ ・ ・ ・ ・|二\n".repeat(8));
    let edge = "+---------------------------+\n";
    let board = format!("  ９ ８ ７ ６ ５ ４ ３ ２ １\n{edge}{rows}{edge}");
    let text = format!("後手の持駒：歩二\n{board}先手の持駒：なし\n後手番\n");
    let Start::Diagram(position) = Record::read(text).unwrap().record.start() else { panic!() };
    let king = Piece { side: Side::White, kind: Kind::King };
    let promoted = Piece { side: Side::Black, kind: Kind::PromotedPawn };
    assert_eq!(position.piece(Square { file: 8, rank: 1 }), Some(king));
    assert_eq!(position.piece(Square { file: 1, rank: 1 }), Some(promoted));
    assert_eq!((position.turn, position.held(Side::White, Kind::Pawn)), (Side::White, 2));
    let full = format!("先手の持駒：歩九十九\n{board}先手の持駒：歩二\n");
    let refusal = Record::read(full).unwrap().record.write(Mode::Shared).unwrap_err();
    assert_eq!(refusal, Error::HandCount { side: Side::Black, kind: Kind::Pawn });
}

#[test]
fn where_reading_stops() {
    let text = example("slips.kif");
    let Ok(Stop::Stopped { taken, reason, at }) = stop(&text) else { panic!() };
    assert_eq!((taken, reason), (57, Reason::NoOrigin));
    assert_eq!((spot(&text, at).line, spot(&text, at).column), (4, 9));
    let all = example("lesson.kif");
    assert_eq!(stop(&all), Ok(Stop::Stopped { taken: 739, reason: Reason::EndOfText, at: 739 }));
    let Ok(Stop::Astray(astray)) = stop("手数\n1投了\nx\n9投了\n") else { panic!() };
    assert_eq!((astray.variation, astray.ply, astray.parent, astray.first, astray.last), (1, 9, 0, 0, 1));
}

#[test]
fn texts_that_are_refused() {
    assert_eq!(Record::read(vec![b'x'; 70_000]).unwrap_err(), Error::TextTooLong { length: 70_000 });
    assert_eq!(Record::read(b"*\xff").unwrap_err(), Error::NotUtf8 { well_formed: 1 });
    assert_eq!(Record::read("a：b\n先手の持駒：x\n").unwrap_err(), Error::HandLine { at: 6 });
    assert_eq!(Record::read("手数\n1投了\nx\n9投了\n").unwrap_err(), Error::NoEntry { variation: 1, ply: 9 });
    let long = format!("手数\n{}", "1同歩打\n".repeat(3_269));
    assert!(matches!(Record::read(long), Err(Error::BlockTooLong { .. })));
    assert_eq!(Record::read("").unwrap().record.block().len(), 156);
}

#[test]
fn blocks_that_were_stored() {
    let record = lesson();
    assert_eq!(Record::from_block(record.block()), Ok(record.clone()));
    assert_eq!(Record::from_block(&record.block()[1..]), Err(Error::NotSound));
    assert_eq!(Record::from_block([]), Err(Error::NotSound));
}

#[test]
fn refusals_in_words() {
    let words = |error: Error| error.to_string();
    assert_eq!(
        words(Error::NoEntry { variation: 1, ply: 9 }),
        "variation 1, which begins with move 9, has no move to hang on"
    );
    assert_eq!(words(Error::HandCount { side: Side::White, kind: Kind::Gold }), "White has more than 99 of 金 in hand");
    let boxed: Box<dyn std::error::Error + Send + Sync> = Error::NotSound.into();
    assert!(!boxed.to_string().is_empty());
}

#[test]
fn threads_at_once() {
    let record = lesson();
    let text = record.write(Mode::Shared).unwrap();
    thread::scope(|scope| {
        for _ in 0..2 {
            scope.spawn(|| (0..200).for_each(|_| assert_eq!(record.write(Mode::Shared).unwrap(), text)));
        }
    });
}
