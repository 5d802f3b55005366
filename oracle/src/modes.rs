//! What each mode writes: known answers, by hand.   (02, xi)

use crate::record::{Clock, Diagram, Entry, Line, Move, Position, Record, Time, What};

/// What a move line has behind its number, and what modes 0, 1 and 2 write there; nothing where a mode refuses it with 9.
pub type Row = (&'static str, [&'static str; 3]);

pub const ROWS: [Row; 35] = [
    // Nothing is lost.
    ("７六歩(77)", ["７六歩(77)"; 3]),
    ("同銀成(255)", ["同　銀成(255)"; 3]),
    ("７六歩(77)(0:16/0:0:16)", ["７六歩(77)   ( 0:16/00:00:16)"; 3]),
    ("投了", ["投了"; 3]),
    // 不成, which counts no width.
    ("７六銀不成(77)", ["７六銀(77)", "７六銀不成(77)", "７六銀不成(77)"]),
    (
        "７六銀不成(77)(0:1/0:0:2)",
        ["７六銀(77)   ( 0:01/00:00:02)", "７六銀不成(77)   ( 0:01/00:00:02)", "７六銀不成(77)   ( 0:01/00:00:02)"],
    ),
    // The hour of now; 0 is an hour too.
    (
        "７六歩(77)(1:2:3/4:5:6)",
        ["７六歩(77)   ( 2:03/04:05:06)", "７六歩(77)   ( 1:02:03/04:05:06)", "７六歩(77)   ( 1:02:03/04:05:06)"],
    ),
    (
        "７六歩(77)(0:2:3/0:5:6)",
        ["７六歩(77)   ( 2:03/00:05:06)", "７六歩(77)   ( 0:02:03/00:05:06)", "７六歩(77)   ( 0:02:03/00:05:06)"],
    ),
    // A total without hour.
    (
        "７六歩(77)(2:3/5:6)",
        ["７六歩(77)   ( 2:03/00:05:06)", "７六歩(77)   ( 2:03/05:06)", "７六歩(77)   ( 2:03/05:06)"],
    ),
    // Both, with figures of one, two and three digits first and last.
    (
        "７六歩(77)(1:2:3/5:6)",
        ["７六歩(77)   ( 2:03/00:05:06)", "７六歩(77)   ( 1:02:03/05:06)", "７六歩(77)   ( 1:02:03/05:06)"],
    ),
    (
        "７六歩(77)(12:59:10/90:11)",
        ["７六歩(77)   (59:10/00:90:11)", "７六歩(77)   (12:59:10/90:11)", "７六歩(77)   (12:59:10/90:11)"],
    ),
    (
        "７六歩(77)(255:255:255/255:255)",
        [
            "７六歩(77)   (255:255/00:255:255)", "７六歩(77)   (255:255:255/255:255)",
            "７六歩(77)   (255:255:255/255:255)",
        ],
    ),
    ("７六歩(77)(100:0/100:0:9)", ["７六歩(77)   (100:00/100:00:09)"; 3]),
    // All three.
    (
        "同　銀不成(77)(1:2:3/5:6)",
        ["同　銀(77)   ( 2:03/00:05:06)", "同　銀不成(77)   ( 1:02:03/05:06)", "同　銀不成(77)   ( 1:02:03/05:06)"],
    ),
    // An origin of (0,0) is 打 in mode 2 alone, and counts two columns fewer; no other is.
    ("７六歩打", ["７六歩(00)", "７六歩(00)", "７六歩打"]),
    ("７六歩(0)", ["７六歩(00)", "７六歩(00)", "７六歩打"]),
    ("７六歩(7)", ["７六歩(07)"; 3]),
    ("７六歩(70)", ["７六歩(70)"; 3]),
    (
        "７六歩打(0:1/0:0:2)",
        ["７六歩(00)   ( 0:01/00:00:02)", "７六歩(00)   ( 0:01/00:00:02)", "７六歩打     ( 0:01/00:00:02)"],
    ),
    (
        "７六歩不成打(0:1/0:0:2)",
        ["７六歩(00)   ( 0:01/00:00:02)", "７六歩不成(00)   ( 0:01/00:00:02)", "７六歩不成打     ( 0:01/00:00:02)"],
    ),
    // Width 12 leaves one space, with 不成 as without.
    ("７六歩成(77)(0:1/0:0:2)", ["７六歩成(77) ( 0:01/00:00:02)"; 3]),
    ("７六成香(77)(0:1/0:0:2)", ["７六成香(77) ( 0:01/00:00:02)"; 3]),
    (
        "７六成香不成(77)(0:1/0:0:2)",
        ["７六成香(77) ( 0:01/00:00:02)", "７六成香不成(77) ( 0:01/00:00:02)", "７六成香不成(77) ( 0:01/00:00:02)"],
    ),
    (
        "７六成桂不成打(0:1/0:0:2)",
        ["７六成桂(00) ( 0:01/00:00:02)", "７六成桂不成(00) ( 0:01/00:00:02)", "７六成桂不成打   ( 0:01/00:00:02)"],
    ),
    (
        "７六歩成打(1:0:1/0:2)",
        ["７六歩成(00) ( 0:01/00:00:02)", "７六歩成(00) ( 1:00:01/00:02)", "７六歩成打   ( 1:00:01/00:02)"],
    ),
    // Width 14 has no room for a time; 打 makes it 12.
    ("７六成香成(77)", ["７六成香成(77)"; 3]),
    ("７六成香成(77)(0:1/0:0:2)", [""; 3]),
    ("同全成(77)(1:2:3/5:6)", [""; 3]),
    ("７六成銀成打", ["７六成銀成(00)", "７六成銀成(00)", "７六成銀成打"]),
    ("７六成銀成打(0:1/0:0:2)", ["", "", "７六成銀成打 ( 0:01/00:00:02)"]),
    ("同成桂成(00)(1:2:3/5:6)", ["", "", "同　成桂成打 ( 1:02:03/05:06)"]),
    // Specials with a time: two columns a character, and none for 中断.
    (
        "投了(1:2:3/5:6)",
        ["投了         ( 2:03/00:05:06)", "投了         ( 1:02:03/05:06)", "投了         ( 1:02:03/05:06)"],
    ),
    (
        "中断(1:2:3/5:6)",
        ["中断             ( 2:03/00:05:06)", "中断             ( 1:02:03/05:06)", "中断             ( 1:02:03/05:06)"],
    ),
    ("千日手(2:3/5:6)", ["千日手       ( 2:03/00:05:06)", "千日手       ( 2:03/05:06)", "千日手       ( 2:03/05:06)"]),
    (
        "反則負け(1:2:3/4:5:6)",
        ["反則負け     ( 2:03/04:05:06)", "反則負け     ( 1:02:03/04:05:06)", "反則負け     ( 1:02:03/04:05:06)"],
    ),
];

/// A whole game: header, diagram, remarks, and variations of which one hangs on another.
pub const GAME: &str = "\
b：1
先手：x
手合割：その他
後手の持駒：なし
  ９ ８ ７ ６ ５ ４ ３ ２ １
+---------------------------+
| ・ ・ ・ ・v玉 ・ ・ ・ ・|一
| ・ ・ ・ ・ ・ ・ ・ ・ ・|二
| ・ ・ ・ ・ ・ ・ ・ ・ ・|三
| ・ ・ ・ ・ ・ ・ ・ ・ ・|四
| ・ ・ ・ ・ ・ ・ ・ ・ ・|五
| ・ ・ ・ ・ ・ ・ ・ ・ ・|六
| ・ ・ ・ ・ ・ ・ ・ ・ ・|七
| ・ ・ ・ ・ ・ ・ ・ ・ ・|八
| ・ ・ ・ ・ ・ ・ ・ ・ ・|九
+---------------------------+
先手の持駒：金　銀二　
手数--
&mark
*remark
1 ５二銀打(1:0:1/1:0:1)
*
2 ４一玉(51)(0:2/0:2)
3 投了(0:0/0:0:0)

変化：2手
2 ６一玉(51)
3 同　銀不成(52)

変化：3手
3 ６二金打(0:3:4/5:6)

変化：1手
1 詰み
";

/// As it is written, a move from (0,0) so.
pub fn game_written(drop: &str) -> String {
    let (head, _) = GAME.split_once("手数--").expect("its moves follow this line");
    let head = head.replace("b：1\n先手：x\n", "先手：x\nb：1\n");
    format!(
        "\
{head}手数----指手---------消費時間--
&mark
*remark
   1 ５二銀{drop}( 1:00:01/01:00:01)
*
   2 ４一玉(51)   ( 0:02/00:02)
   3 投了         ( 0:00/00:00:00)

変化：2手
   2 ６一玉(51)
   3 同　銀不成(52)

変化：3手
   3 ６二金{drop}( 0:03:04/05:06)

変化：1手
   1 詰み
"
    )
}

/// A header line that no reader gives, though a sound block may hold it.
pub const UNCOVERED_HEADERS: [(&str, &str); 14] = [
    ("手合割", "平手"),
    ("手合割", "その他　 "),
    ("先手の持駒", ""),
    ("後手の持駒", "なし"),
    ("下手の持駒", "歩"),
    ("上手の持駒", "x"),
    ("#", ""),
    ("#a", "b"),
    ("", ""),
    ("", "a"),
    ("a：b", "c"),
    ("：", ""),
    ("a", "b\nc"),
    ("a\r", "b"),
];

/// A header line that comes near one of those, and comes back.
pub const COVERED_HEADERS: [(&str, &str); 14] = [
    ("手合割", ""),
    ("手合割", "平手x"),
    ("手合割", " 平手"),
    ("手合割", "平手\t"),
    ("手合割 ", "平手"),
    ("\u{feff}手合割", "平手"),
    ("先手の持駒 ", "x"),
    ("の持駒", "x"),
    ("先手番", ""),
    (" #", "#"),
    ("\u{feff}#", "：："),
    ("*", "*"),
    (" 1 ７六歩(77) ", ""),
    ("変化", "1手"),
];

/// Each thing else that 02 asks of a record, taken from one whose last entries are a move and a special with a comment.
pub const SPOILED: [fn(&mut Record); 13] = [
    |record| with_origin(record, None),
    |record| with_origin(record, Some((1, 10))),
    |record| with_origin(record, Some((25, 6))),
    |record| with_origin(record, Some((255, 0))),
    |record| with_special(record, 5),
    |record| with_special(record, 6),
    |record| with_special(record, 9),
    |record| with_special(record, 10),
    |record| with_special(record, 12),
    |record| with_special(record, 13),
    |record| with_comment(record, "c\nd"),
    |record| with_comment(record, "c\r"),
    |record| with_comment(record, "\n*c"),
];

fn with_origin(record: &mut Record, origin: Option<(u8, u8)>) {
    if let What::Move(m) = &mut record.lines[0].entries[1].what {
        m.from = origin;
    }
}

fn with_special(record: &mut Record, number: u8) {
    record.lines[0].entries[2].what = What::Special(number);
}

fn with_comment(record: &mut Record, comment: &str) {
    record.lines[0].entries[2].comments = vec![comment.into()];
}

/// A move to a place off the board.
pub fn off_board(record: &mut Record) {
    if let What::Move(m) = &mut record.lines[0].entries[1].what {
        m.to = Some((0, 5));
    }
}

/// A hand of White with 100 gold pieces, side 1 and kind 4.
pub fn with_hundred(record: &mut Record) {
    let hands = std::array::from_fn(|place| if place == 11 { 100 } else { 0 });
    record.position = Position { preset: 16, diagram: Some(Diagram { turn: 1, cells: [0; 81], hands }) };
}

/// As many moves as a block holds, each as long as a written one can be: 58 bytes for 20.
pub fn longest() -> Record {
    let m = Move { colour: 0, piece: 10, promote: 1, to: None, from: Some((255, 255)) };
    let clock = || Clock { h: Some(255), m: 255, s: 255 };
    let time = Some(Time { now: clock(), total: clock() });
    let longest = Entry { what: What::Move(m), time, comments: vec![] };
    let mut entries = vec![longest; 3_269];
    entries[0] = Entry { what: What::Slot, time: None, comments: vec![] };
    let main = Line { start: 0, parent: 0, entries };
    Record { version: 1, header: vec![], position: Position { preset: 0, diagram: None }, lines: vec![main] }
}
