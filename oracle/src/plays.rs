//! Positions after moves, and where and why play stops: known answers, by hand.   (02, i)

use crate::judge::{self, Outcome};
use crate::position::Reason::{self, *};
use crate::position::REASONS;
use crate::record::{decode, encode, Diagram, Move, Position, Record, What, LIMIT};
use crate::sfen;
use crate::texts::PRESETS;

const EVEN: &str = "lnsgkgsnl/1r5b1/ppppppppp/9/9/9/PPPPPPPPP/1B5R1/LNSGKGSNL b -";

/// Each move of an opening and the position after it. The last is an ending.
const OPENING: [(&str, &str); 12] = [
    ("７六歩(77)", "lnsgkgsnl/1r5b1/ppppppppp/9/9/2P6/PP1PPPPPP/1B5R1/LNSGKGSNL w -"),
    ("３四歩(33)", "lnsgkgsnl/1r5b1/pppppp1pp/6p2/9/2P6/PP1PPPPPP/1B5R1/LNSGKGSNL b -"),
    ("２二角成(88)", "lnsgkgsnl/1r5+B1/pppppp1pp/6p2/9/2P6/PP1PPPPPP/7R1/LNSGKGSNL w B"),
    ("同　銀(31)", "lnsgkg1nl/1r5s1/pppppp1pp/6p2/9/2P6/PP1PPPPPP/7R1/LNSGKGSNL b Bb"),
    ("４五角打", "lnsgkg1nl/1r5s1/pppppp1pp/6p2/5B3/2P6/PP1PPPPPP/7R1/LNSGKGSNL w b"),
    ("５二角打", "lnsgkg1nl/1r2b2s1/pppppp1pp/6p2/5B3/2P6/PP1PPPPPP/7R1/LNSGKGSNL b -"),
    ("３四角(45)", "lnsgkg1nl/1r2b2s1/pppppp1pp/6B2/9/2P6/PP1PPPPPP/7R1/LNSGKGSNL w P"),
    ("３三銀(22)", "lnsgkg1nl/1r2b4/ppppppspp/6B2/9/2P6/PP1PPPPPP/7R1/LNSGKGSNL b P"),
    ("５六角(34)", "lnsgkg1nl/1r2b4/ppppppspp/9/9/2P1B4/PP1PPPPPP/7R1/LNSGKGSNL w P"),
    ("８四歩(83)", "lnsgkg1nl/1r2b4/p1ppppspp/1p7/9/2P1B4/PP1PPPPPP/7R1/LNSGKGSNL b P"),
    ("７八飛(28)", "lnsgkg1nl/1r2b4/p1ppppspp/1p7/9/2P1B4/PP1PPPPPP/2R6/LNSGKGSNL w P"),
    ("投了", "lnsgkg1nl/1r2b4/p1ppppspp/1p7/9/2P1B4/PP1PPPPPP/2R6/LNSGKGSNL w P"),
];

/// White to move, and both hold pieces.
const DIAGRAM: &str = "\
後手の持駒：金　歩二　
  ９ ８ ７ ６ ５ ４ ３ ２ １
+---------------------------+
| ・ ・ ・ ・ ・ ・ ・v桂v香|一
| ・ ・ ・ ・ ・ ・v金v玉 ・|二
| ・ ・ ・ ・ 龍 ・v歩v歩v歩|三
| ・ ・ ・ ・ ・ ・ ・ ・ ・|四
| ・ ・ ・ ・ ・ ・ ・ ・ ・|五
| ・ ・ ・ ・ ・ ・ ・ ・ ・|六
| 歩 歩 歩 ・ ・ ・ ・ ・ ・|七
| ・ ・ 玉 ・ ・ ・ ・ ・ ・|八
| 香 桂 ・ ・ ・ ・ ・ ・ ・|九
+---------------------------+
先手の持駒：角　金　
後手番
";

/// What follows from it, an ending first. A rook that was promoted is taken by the fifth move, entry 6.
const FROM_DIAGRAM: [(&str, &str); 8] = [
    ("中断", "7nl/6gk1/4+R1ppp/9/9/9/PPP6/2K6/LN7 w BGg2p"),
    ("５二歩打", "7nl/4p1gk1/4+R1ppp/9/9/9/PPP6/2K6/LN7 b BGgp"),
    ("同　龍(53)", "7nl/4+R1gk1/6ppp/9/9/9/PPP6/2K6/LN7 w BGPgp"),
    ("４二金打", "7nl/4+Rggk1/6ppp/9/9/9/PPP6/2K6/LN7 b BGPp"),
    ("同　龍(52)", "7nl/5+Rgk1/6ppp/9/9/9/PPP6/2K6/LN7 w B2GPp"),
    ("同　金(32)", "7nl/5g1k1/6ppp/9/9/9/PPP6/2K6/LN7 b B2GPrp"),
    ("３一角打", "6Bnl/5g1k1/6ppp/9/9/9/PPP6/2K6/LN7 w 2GPrp"),
    ("同　玉(22)", "6knl/5g3/6ppp/9/9/9/PPP6/2K6/LN7 b 2GPrbp"),
];

/// Moves from 平手 of which the last stops the play, each in the shortest way.
const STOPS: [(&[&str], Reason); 43] = [
    (&["５五歩(56)"], NothingThere),
    (&["７六歩(76)"], NothingThere),
    (&["７六歩(77)", "３四歩(33)", "７五歩(77)"], NothingThere),
    (&["７六香(77)"], OtherKind),
    (&["７六と(77)"], OtherKind),
    (&["７六歩(77)", "３四歩(33)", "２二角成(88)", "８四歩(83)", "３二角(22)"], OtherKind),
    (&["７六歩(77)", "３四歩(33)", "２二馬(88)"], OtherKind),
    (&["３四歩(33)"], OtherSide),
    (&["７六歩(77)", "２六歩(27)"], OtherSide),
    (&["７六歩(77)", "中断", "２六歩(27)"], OtherSide),
    (&["７六歩(7)"], FromOffBoard),
    (&["７六歩(70)"], FromOffBoard),
    (&["７六歩(100)"], FromOffBoard),
    (&["７六歩(107)"], FromOffBoard),
    (&["７六歩(255)"], FromOffBoard),
    (&["５五歩打"], NotInHand),
    (&["５五歩(0)"], NotInHand),
    (&["５五玉打"], NotInHand),
    (&["５五と打"], NotInHand),
    (&["７六歩(77)", "３四歩(33)", "２二角成(88)", "５五角打"], NotInHand),
    (&["７六歩(77)", "３四歩(33)", "２二角成(88)", "同　銀(31)", "５五馬打"], NotInHand),
    (&["７六歩(77)", "３四歩(33)", "２二角成(88)", "同　銀(31)", "５五飛打"], NotInHand),
    (&["７六歩(77)", "３四歩(33)", "２二角成(88)", "同　銀(31)", "５七角打"], DropOnPiece),
    (&["７六歩(77)", "３四歩(33)", "２二角成(88)", "同　銀(31)", "５三角打"], DropOnPiece),
    (&["７六歩(77)", "３四歩(33)", "２二角成(88)", "同　銀(31)", "同　角打"], DropOnPiece),
    (&["２八角(88)"], OwnPiece),
    (&["７七歩(77)"], OwnPiece),
    (&["５九金(49)"], OwnPiece),
    (&["７六歩(77)", "８二角(22)"], OwnPiece),
    (&["５一飛(28)"], KingTaken),
    (&["５一飛成(28)"], KingTaken),
    (&["７六歩(77)", "５九飛(82)"], KingTaken),
    (&["７六歩(77)", "３四歩(33)", "２二角成(88)", "同　銀(31)", "４五角成打"], PromotedDrop),
    (&["７六歩(77)", "３四歩(33)", "２二角成(88)", "同　銀(31)", "４五角成(0)"], PromotedDrop),
    (&["５五金成打"], PromotedDrop),
    (&["５八金成(49)"], NoPromotion),
    (&["５八玉成(59)"], NoPromotion),
    (&["７六歩(77)", "３四歩(33)", "２二角成(88)", "８四歩(83)", "３二馬成(22)"], NoPromotion),
    (&["同　歩(77)"], SameFirst),
    (&["同　歩打"], SameFirst),
    (&["中断", "同　歩(77)"], SameFirst),
    (&["千日手", "中断", "同　銀成(79)"], SameFirst),
    (&["同　歩(255)"], SameFirst),
];

/// Moves from 平手 that go, though a player's would not.
const GOING: [&[&str]; 9] = [
    &["５五歩(77)"],
    &["７六歩成(77)"],
    &["５八金不成(49)"],
    &["７六歩(77)", "同　角(22)"],
    &["５五玉(59)", "４五玉(51)"],
    &["７六歩(77)", "３四歩(33)", "２二角成(88)", "同　銀(31)", "４五角不成打"],
    &["７六歩(77)", "３四歩(33)", "２二角成(88)", "中断", "千日手", "同　銀(31)"],
    &["２二飛成(28)", "同　金(41)", "同　角(88)"],
    &["３三歩(27)", "３二金(41)", "２七歩打"],
];

/// Variations: on the main line, on one of them and on that one; on ply 2, twice on ply 1, and at 0.
const TREE: &str = "\
手合割：平手
手数----指手---------消費時間--
   1 ７六歩(77)
   2 ３四歩(33)
   3 ２二角成(88)
   4 中断
   5 同　銀(31)

変化：4手
   4 同　飛(82)
   5 ２六歩(27)
   6 ３三角打

変化：5手
   5 ４五角打
   6 ５四歩(53)

変化：6手
   6 ３二金(41)
   7 ３四角(45)

変化：2手
   2 ８四歩(83)
   3 同　歩(76)

変化：1手
   1 ２六歩(27)
   2 ３四歩(33)

変化：1手
   1 同　歩(77)
   2 ３四歩(33)

変化：0手
   0 ５六歩(57)
   1 ３四歩(33)

変化：1手
   1 ５四歩(53)

変化：0手
   0 ９六歩(97)
";

/// Line, entry and position.
const OF_TREE: [(u64, u64, &str); 20] = [
    (0, 0, EVEN),
    (0, 3, "lnsgkgsnl/1r5+B1/pppppp1pp/6p2/9/2P6/PP1PPPPPP/7R1/LNSGKGSNL w B"),
    (0, 4, "lnsgkgsnl/1r5+B1/pppppp1pp/6p2/9/2P6/PP1PPPPPP/7R1/LNSGKGSNL w B"),
    (0, 5, "lnsgkg1nl/1r5s1/pppppp1pp/6p2/9/2P6/PP1PPPPPP/7R1/LNSGKGSNL b Bb"),
    (1, 0, "lnsgkgsnl/7r1/pppppp1pp/6p2/9/2P6/PP1PPPPPP/7R1/LNSGKGSNL b Bb"),
    (1, 1, "lnsgkgsnl/7r1/pppppp1pp/6p2/9/2P4P1/PP1PPPP1P/7R1/LNSGKGSNL w Bb"),
    (1, 2, "lnsgkgsnl/7r1/ppppppbpp/6p2/9/2P4P1/PP1PPPP1P/7R1/LNSGKGSNL b B"),
    (2, 0, "lnsgkgsnl/7r1/pppppp1pp/6p2/5B3/2P6/PP1PPPPPP/7R1/LNSGKGSNL w b"),
    (2, 1, "lnsgkgsnl/7r1/pppp1p1pp/4p1p2/5B3/2P6/PP1PPPPPP/7R1/LNSGKGSNL b b"),
    (3, 0, "lnsgk1snl/6gr1/pppppp1pp/6p2/5B3/2P6/PP1PPPPPP/7R1/LNSGKGSNL b b"),
    (3, 1, "lnsgk1snl/6gr1/pppppp1pp/6B2/9/2P6/PP1PPPPPP/7R1/LNSGKGSNL w Pb"),
    (4, 0, "lnsgkgsnl/1r5b1/p1ppppppp/1p7/9/2P6/PP1PPPPPP/1B5R1/LNSGKGSNL b -"),
    (4, 1, "lnsgkgsnl/1r5b1/p1ppppppp/1P7/9/9/PP1PPPPPP/1B5R1/LNSGKGSNL w P"),
    (5, 0, "lnsgkgsnl/1r5b1/ppppppppp/9/9/7P1/PPPPPPP1P/1B5R1/LNSGKGSNL w -"),
    (5, 1, "lnsgkgsnl/1r5b1/pppppp1pp/6p2/9/7P1/PPPPPPP1P/1B5R1/LNSGKGSNL b -"),
    (7, 0, "lnsgkgsnl/1r5b1/ppppppppp/9/9/4P4/PPPP1PPPP/1B5R1/LNSGKGSNL w -"),
    (7, 1, "lnsgkgsnl/1r5b1/pppppp1pp/6p2/9/4P4/PPPP1PPPP/1B5R1/LNSGKGSNL b -"),
    (8, 0, "lnsgkgsnl/1r5b1/pppp1pppp/4p4/9/4P4/PPPP1PPPP/1B5R1/LNSGKGSNL b -"),
    (9, 0, "lnsgkgsnl/1r5b1/ppppppppp/9/9/P8/1PPPPPPPP/1B5R1/LNSGKGSNL w -"),
    (0, 1, "lnsgkgsnl/1r5b1/ppppppppp/9/9/2P6/PP1PPPPPP/1B5R1/LNSGKGSNL w -"),
];

/// Lines whose play stops in another line, or goes on since the move that stops it is replaced.
const STOPPED_TREE: &str = "\
手数
1 ７六歩(77)
2 ５五銀打
3 ２六歩(27)
4 投了
変化
4 投了
変化
3 ２六歩(27)
変化
2 ３四歩(33)
3 ５五銀打
4 投了
変化
4 中断
変化
3 ２二角成(88)
";

/// Line and entry, and number and figures.
const OF_STOPPED_TREE: [((u64, u64), (u64, u64, u64)); 12] = [
    ((0, 1), (0, 100, 1)),
    ((0, 2), (17, 0, 2)),
    ((0, 3), (17, 0, 2)),
    ((0, 4), (17, 0, 2)),
    ((0, 5), (16, 0, 5)),
    ((1, 0), (17, 0, 2)),
    ((2, 0), (17, 0, 2)),
    ((3, 0), (0, 100, 0)),
    ((3, 1), (17, 3, 1)),
    ((3, 2), (17, 3, 1)),
    ((4, 0), (17, 3, 1)),
    ((5, 0), (0, 100, 1)),
];

fn block(text: &str) -> Vec<u8> {
    match judge::fill(text.as_bytes()) {
        Outcome::Made { result, answer } if answer.first == text.len() as u64 => result,
        other => panic!("{text:?}: {other:?}"),
    }
}

/// Move lines, numbered from 1.
fn numbered<'a>(head: &str, moves: impl IntoIterator<Item = &'a str>) -> Vec<u8> {
    let moves: String = moves.into_iter().zip(1..).map(|(m, ply)| format!("{ply} {m}\n")).collect();
    block(&format!("{head}手数\n{moves}"))
}

/// Number and figures with a buffer of this length.
fn answered(block: &[u8], line: u64, entry: u64, room: usize) -> (u64, u64, u64) {
    let answer = judge::position(block, line, entry).answer_in(room);
    (answer.number, answer.first, answer.second)
}

/// The position is just this one, and the figures are its length and its turn.
fn shows(block: &[u8], line: u64, entry: u64, sfen: &str) {
    let result = sfen::position(sfen).to_vec();
    let answer = judge::answer(0, 100, result[2].into());
    assert_eq!(judge::position(block, line, entry), Outcome::Made { result, answer }, "line {line}, entry {entry}");
}

/// From 平手, whatever colours the block has, and the same from its diagram.
pub fn openings() {
    let moves = || OPENING.iter().map(|(m, _)| *m);
    let played = numbered("", moves());
    let mut record = decode(&played).expect("the reader's block");
    record.lines[0].entries.iter_mut().for_each(|entry| {
        if let What::Move(m) = &mut entry.what {
            m.colour = 1;
        }
    });
    let coloured = encode(&record);
    record.position = Position { preset: 16, diagram: Some(diagram(EVEN)) };
    for block in [played, coloured, encode(&record), numbered("手合割：平手\na：b\n", moves())] {
        shows(&block, 0, 0, EVEN);
        OPENING.iter().zip(1..).for_each(|((_, sfen), entry)| shows(&block, 0, entry, sfen));
        assert_eq!(answered(&block, 0, 13, 100), (16, 0, 13));
    }
}

/// The diagram of a position.
fn diagram(sfen: &str) -> Diagram {
    let bytes = sfen::position(sfen);
    Diagram { turn: bytes[2], cells: bytes[4..85].try_into().unwrap(), hands: bytes[85..99].try_into().unwrap() }
}

/// From a diagram with White to move; behind it all a drop onto a piece.
pub fn diagrams() {
    let block = numbered(DIAGRAM, FROM_DIAGRAM.iter().map(|(m, _)| *m).chain(["４二金打"]));
    shows(&block, 0, 0, FROM_DIAGRAM[0].1);
    FROM_DIAGRAM.iter().zip(1..).for_each(|((_, sfen), entry)| shows(&block, 0, entry, sfen));
    assert_eq!(answered(&block, 0, 9, 100), (17, 0, 9));
    assert_eq!(judge::stop_of_play(&block, 0, 9), Some(DropOnPiece));
}

/// Where and why play stops, before which it goes on; and that each reason is among them, but for two whose records are made by hand.
pub fn stops() {
    let mut met = vec![ToOffBoard, HandFull];
    for (moves, reason) in STOPS {
        let block = numbered("", moves.iter().copied().chain(["投了"]));
        let stop = moves.len() as u64;
        assert_eq!(answered(&block, 0, stop - 1, 100).0, 0, "{moves:?}");
        for entry in [stop, stop + 1] {
            assert_eq!(answered(&block, 0, entry, 100), (17, 0, stop), "{moves:?}");
            assert_eq!(judge::stop_of_play(&block, 0, entry), Some(reason), "{moves:?}");
        }
        met.push(reason);
    }
    assert!(REASONS.iter().all(|reason| met.contains(reason)));
    for moves in GOING {
        let block = numbered("", moves.iter().copied());
        assert_eq!(answered(&block, 0, moves.len() as u64, 100).0, 0, "{moves:?}");
    }
}

/// A record of this position and of one move.
fn moved(sfen: &str, m: Move) -> Record {
    let mut record = decode(&numbered("", ["７六歩(77)"])).expect("the reader's block");
    record.position = Position { preset: 16, diagram: Some(diagram(sfen)) };
    record.lines[0].entries[1].what = What::Move(m);
    record
}

/// What no reader gives: places off the board, a drop without an origin; each kind with 成; and hands that are full.
pub fn made_by_hand() {
    let pawn = Move { colour: 1, piece: 1, promote: 0, to: Some((7, 6)), from: Some((7, 7)) };
    let stop = |sfen: &str, m: &Move| judge::stop_of_play(&encode(&moved(sfen, m.clone())), 0, 1);
    for place in [(0, 0), (0, 6), (7, 0), (10, 6), (7, 10), (16, 1), (255, 255)] {
        assert_eq!(stop(EVEN, &Move { to: Some(place), ..pawn.clone() }), Some(ToOffBoard), "{place:?}");
        let from = Some(place).filter(|place| *place != (0, 0));
        let reason = if from.is_some() { FromOffBoard } else { NotInHand };
        assert_eq!(stop(EVEN, &Move { from, ..pawn.clone() }), Some(reason), "{place:?}");
    }
    let dropped = Move { from: None, ..pawn.clone() };
    assert_eq!(stop("4k4/9/9/9/9/9/9/9/9 b p", &dropped), Some(NotInHand));
    shows(&encode(&moved("4k4/9/9/9/9/9/9/9/9 b P", dropped.clone())), 0, 1, "4k4/9/9/9/9/2P6/9/9/9 w -");
    shows(&encode(&moved("4k4/9/9/9/9/9/9/9/9 w p", dropped)), 0, 1, "4k4/9/9/9/9/2p6/9/9/9 b -");
    promotions(&pawn);
    full_hands(&pawn);
}

/// Six kinds have a promotion; without one, and with 不成, every kind stays what it is.
fn promotions(pawn: &Move) {
    let kinds = ["P", "L", "N", "S", "G", "B", "R", "K", "+P", "+L", "+N", "+S", "+B", "+R"];
    for (kind, piece) in kinds.into_iter().zip(1..) {
        let before = format!("9/9/9/9/9/9/2{kind}6/9/9 b -");
        let after = |kind| format!("9/9/9/9/9/2{kind}6/9/9/9 w -");
        for promote in 0..2 {
            let m = Move { piece, promote, ..pawn.clone() };
            shows(&encode(&moved(&before, m)), 0, 1, &after(kind.to_string()));
        }
        let block = encode(&moved(&before, Move { piece, promote: 2, ..pawn.clone() }));
        match kind {
            "P" | "L" | "N" | "S" | "B" | "R" => shows(&block, 0, 1, &after(format!("+{kind}"))),
            _ => assert_eq!(judge::stop_of_play(&block, 0, 1), Some(NoPromotion), "{kind}"),
        }
    }
}

/// The 256th piece of a kind in a hand, and none else, also of a promoted kind; the other side's hand does not count.
fn full_hands(pawn: &Move) {
    let taken = [("p", "P"), ("+p", "P"), ("+l", "L"), ("+n", "N"), ("+s", "S"), ("g", "G"), ("+b", "B"), ("+r", "R")];
    for (cell, kind) in taken {
        let held = |count: u8| format!("9/9/9/9/9/2{cell}6/2P6/9/9 b {count}{kind}255{}", kind.to_lowercase());
        let block = encode(&moved(&held(254), pawn.clone()));
        shows(&block, 0, 1, &format!("9/9/9/9/9/2P6/9/9/9 w 255{kind}255{}", kind.to_lowercase()));
        let full = encode(&moved(&held(255), pawn.clone()));
        assert_eq!(judge::stop_of_play(&full, 0, 1), Some(HandFull), "{cell}");
        assert_eq!(answered(&full, 0, 1, 100), (17, 0, 1));
    }
}

/// Without a diagram all presets but 平手 are refused; with one there is none but その他.
pub fn presets() {
    for (preset, name) in (0..).zip(PRESETS) {
        let block = numbered(&format!("手合割：{name}\n"), ["７六歩(77)"]);
        for entry in [0, 1] {
            let due = if preset == 0 { (0, 100, entry) } else { (15, preset, 0) };
            assert_eq!(answered(&block, 0, entry, 100), due, "{name}");
        }
    }
    shows(&block("手合割：平手\n"), 0, 0, EVEN);
}

pub fn variations() {
    let tree = block(TREE);
    OF_TREE.into_iter().for_each(|(line, entry, sfen)| shows(&tree, line, entry, sfen));
    assert_eq!([0, 1].map(|entry| answered(&tree, 6, entry, 100)), [(17, 6, 0); 2]);
    assert_eq!(judge::stop_of_play(&tree, 6, 1), Some(SameFirst));
    let stopped = block(STOPPED_TREE);
    for ((line, entry), due) in OF_STOPPED_TREE {
        assert_eq!(answered(&stopped, line, entry, 100), due, "line {line}, entry {entry}");
    }
}

/// 7, 10, 15, 16, 17, and 5 last; large numbers are not cut short.
pub fn orders() {
    let preset = block("手合割：香落ち\n手数\n1 ５五銀打\n2投了\n");
    let stopped = block("手数\n1 ５五銀打\n2投了\n変化\n1 ７六歩(77)\n");
    assert_eq!(answered(&[&preset[..], &[0]].concat(), 9, 9, 0), (7, 0, 0));
    assert_eq!(answered(&[], 0, 0, LIMIT), (7, 0, 0));
    assert_eq!(answered(&preset, 9, 9, 0), (10, 9, 0));
    assert_eq!(answered(&preset, 0, 9, 0), (15, 1, 0));
    assert_eq!(answered(&stopped, 0, 3, 0), (16, 0, 3));
    assert_eq!(answered(&stopped, 1, 1, 0), (16, 1, 1));
    assert_eq!(answered(&stopped, 0, 2, 0), (17, 0, 1));
    assert_eq!([0, 99, 100, 101].map(|room| answered(&stopped, 0, 0, room).0), [5, 5, 0, 0]);
    assert_eq!(answered(&stopped, 1, 0, 99), (5, 100, 0));
    assert_eq!(answered(&stopped, 1, 0, 100), (0, 100, 1));
    for large in [1 << 8, 1 << 16, 1 << 32, (1 << 32) + 1, 1 << 63, u64::MAX] {
        assert_eq!(answered(&stopped, large, 0, 100), (10, large, 0));
        assert_eq!(answered(&stopped, 1, large, 100), (16, 1, large));
    }
}
