//! Texts in which reading stops, each with the number and the figures that 02 (ii) gives it: all by hand.

/// A preset and the line of 手数, 38 bytes; the first move line, 19 bytes, and two that follow it.
const H: &str = "手合割：平手\n手数----指手--\n";
const M: &str = "   1 ７六歩(77)\n";
const M2: &str = "   2 ３四歩(33)\n";
const M3: &str = "   3 ２六歩(27)\n";

/// A text in pieces; its number and its figures up to the last that is not 0.
type Case = (&'static [&'static str], &'static [u64]);

/// A move line that is not taken for one of its parts.
const SPOILED: [Case; 31] = [
    (&[H, M, "   2 反則勝ち\n"], &[0, 57, 3, 62]),
    (&[H, M, "   2 ３四歩\n"], &[0, 57, 5, 71]),
    (&[H, M, "   2 ５二金右(61)\n"], &[0, 57, 5, 71]),
    (&[H, "   1 76歩(77)\n"], &[0, 38, 3, 43]),
    (&[H, "   1 ７6歩(77)\n"], &[0, 38, 3, 46]),
    (&[H, M, "   2 同 歩(33)\n"], &[0, 57, 4, 65]),
    (&[H, M, "   2 同　　歩(33)\n"], &[0, 57, 4, 68]),
    (&[H, "   1 ７六步(77)\n"], &[0, 38, 4, 49]),
    (&[H, "   1 ２二角生(88)\n"], &[0, 38, 5, 52]),
    (&[H, "   1 ２二角成不成(88)\n"], &[0, 38, 5, 55]),
    (&[H, "   1 ７六歩（77）\n"], &[0, 38, 5, 52]),
    (&[H, "   1 ７六歩()\n"], &[0, 38, 5, 53]),
    (&[H, "   1 ７六歩(７７)\n"], &[0, 38, 5, 53]),
    (&[H, "   1 ７六歩(77\n"], &[0, 38, 5, 55]),
    (&[H, "   1 ７六歩(256)\n"], &[0, 38, 2, 53]),
    (&[H, "   1 ７六歩(256\n"], &[0, 38, 2, 53]),
    (&[H, "   1 ７六歩(255\n"], &[0, 38, 5, 56]),
    (&[H, "   1 ７六歩(18446744073709551616)\n"], &[0, 38, 2, 53]),
    (&[H, "   18446744073709551616 ７六歩(77)\n"], &[0, 38, 2, 41]),
    (&[H, "   18446744073709551616"], &[0, 38, 2, 41]),
    (&[H, "   18446744073709551615 76歩(77)\n"], &[0, 38, 3, 62]),
    (&[H, "   1　７六歩(77)\n"], &[0, 38, 3, 42]),
    (&[H, "1. ７六歩(77)\n"], &[0, 38, 3, 39]),
    (&[H, "▲７六歩 △３四歩\n"], &[0, 38, 1, 38]),
    (&[H, "△３四歩"], &[0, 38, 1, 38]),
    (&[H, M, "  \n   2 ３四歩(33)\n"], &[0, 57, 1, 59]),
    (&[H, M, "   "], &[0, 57, 1, 60]),
    (&[H, "   1"], &[0, 38, 3, 42]),
    (&[H, "   1 ７六"], &[0, 38, 4, 49]),
    (&[" foo：bar"], &[0, 0, 1, 1]),
    (
        &["手合割：その他\n", "  ９ ８ ７ ６ ５ ４ ３ ２ １\n", "+---------------------------+\n", "|x\n"],
        &[0, 22, 1, 24],
    ),
];

/// A line without a break, or one that is cut off before it.
const UNBROKEN: [Case; 12] = [
    (&[H, "   1 ７六歩(77)"], &[0, 38, 6, 56]),
    (&[H, "   1 投了 (0:1/0:2)"], &[0, 38, 6, 59]),
    (&[H, M, "*abc"], &[0, 57, 6, 61]),
    (&[H, M, "&abc\r"], &[0, 57, 6, 61]),
    (&["*abc"], &[0, 0, 6, 4]),
    (&[H, M, "まで1手"], &[0, 57, 6, 67]),
    (&[H, "   1 ７六歩(77)\r   2 ３四歩(33)\r"], &[0, 38, 6, 56]),
    (&["手合割：平手\r手数--\r"], &[0, 0, 6, 18]),
    (&[H, M, "\n"], &[0, 57, 6, 58]),
    (&[H, M, "\r"], &[0, 57, 6, 58]),
    (&["x"], &[0, 0, 6, 1]),
    (&["手数\n\n"], &[0, 7, 6, 8]),
];

/// A comment where none is read, and texts at whose end nothing but skip lines is left, or nothing.
const PASSED: [Case; 17] = [
    (&[H, M, "\r\n\r\n"], &[0, 59, 8, 61]),
    (&[H, M, "まで1手で中断\na\nb\n"], &[0, 77, 8, 81]),
    (&[H, M, "変化：1手\n*c\n   1 ２六歩(27)\n"], &[0, 71, 7, 71]),
    (&[H, M, "a\nb\n*c\n"], &[0, 59, 7, 61]),
    (&[H, M, "a\n*c"], &[0, 59, 7, 59]),
    (&[H, "x\n*c\n"], &[0, 38, 7, 40]),
    (&[H, M, "\n変化：1手\n"], &[0, 72, 8, 72]),
    (&[H, M, "\r\n変化：1手\r\n"], &[0, 59, 8, 74]),
    (&[H, "７六歩(77)\n３四歩(33)\n"], &[0, 38, 8, 66]),
    (&[H, "１ ７六歩(77)\n"], &[0, 38, 8, 56]),
    (&["手合割：平手\n\n手数--\n", M], &[0, 48, 8, 48]),
    (&["\u{feff}手合割：平手\n手数--\n", M], &[0, 50, 8, 50]),
    (&[H, M], &[0, 57, 8, 57]),
    (&[H, M, "*c\n"], &[0, 60, 8, 60]),
    (&[H], &[0, 38, 8, 38]),
    (&["a：b\n"], &[0, 6, 8, 6]),
    (&[""], &[0, 0, 8, 0]),
];

/// A last line led by a TAB: where move line and skip line fail at one byte, the first tried tells. After a move, a comment or
/// the line of 手数 that is the move line; at the head, after a line's one skip line and after skip lines not taken, the other.
const TABBED: [Case; 19] = [
    (&[H, M, "\t2 ３四歩"], &[0, 57, 5, 69]),
    (&[H, M, "x\n\t2 ３四歩"], &[0, 59, 6, 71]),
    (&[H, M, "x\ny\n\t2 ３四歩"], &[0, 59, 6, 73]),
    (&[H, M, "*c\n\t2 ３四歩"], &[0, 60, 5, 72]),
    (&[H, "\t1 ７六歩"], &[0, 38, 5, 50]),
    (&["手数\n*c\n\t1 ７六歩"], &[0, 10, 5, 22]),
    (&["*c\n\t1 ７六歩"], &[0, 3, 5, 15]),
    (&["\t1 ７六歩"], &[0, 0, 6, 12]),
    (&["手合割：平手\n\t1 ７六歩"], &[0, 19, 6, 31]),
    (&[H, M, "変化：1手\n", M, "\t2 ３四歩"], &[0, 90, 5, 102]),
    (&[H, M, "\t"], &[0, 57, 1, 58]),
    (&[H, M, "\t2"], &[0, 57, 3, 59]),
    (&[H, M, "\t2 ３"], &[0, 57, 3, 63]),
    (&[H, M, "\t2 ３四"], &[0, 57, 4, 66]),
    (&[H, M, "\t2 ３四歩(33"], &[0, 57, 5, 72]),
    (&[H, M, "\t2 ３四歩(256"], &[0, 57, 6, 73]),
    (&[H, M, "\t2 ３四歩(33)"], &[0, 57, 6, 73]),
    (&[H, M, "\t2 ３四歩\rx\n"], &[0, 57, 5, 69]),
    (&[H, M, "\t2 ３四歩x"], &[0, 57, 6, 70]),
];

/// Refusals 3 and 6.
const REFUSED: [Case; 8] = [
    (&["手合割：その他\n先手の持駒：歩2\n"], &[3, 22]),
    (&["先手の持駒：玉\n"], &[3, 0]),
    (&["#c\n後手の持駒：なし"], &[3, 3]),
    (&[H, M, M2, "\n", M3, "   4 ８四歩(83)\n"], &[6, 1, 4, 0, 0, 2, 96]),
    (&["手合割：平手\r\n\r\n手数--\r\n   1 ７六歩(77)\r\n"], &[6, 1, 1, 0, 0, 0, 32]),
    (&["\u{feff}#KIF\n手合割：平手\n手数--\n", M], &[6, 1, 1, 0, 0, 0, 36]),
    (&[H, M, M2, M3, "\n変化：2手\n", M2, M3, "\n変化：9手\n", "   9 ９六歩(97)\n"], &[6, 2, 9, 1, 2, 3, 163]),
    (&[H, M, "x\n18446744073709551615投了\n76歩\n"], &[6, 1, u64::MAX, 0, 0, 1, 59]),
];

/// Every case: the text, its number and its six figures.
pub fn cases() -> impl Iterator<Item = (Vec<u8>, [u64; 7])> {
    let tables: [&[Case]; 5] = [&SPOILED, &UNBROKEN, &PASSED, &TABBED, &REFUSED];
    let told = tables.concat().into_iter().map(|(pieces, figures)| (pieces.concat().into_bytes(), filled_up(figures)));
    let in_shift_jis = ["手数\n".as_bytes(), b"\x8e\xe8\x8d\x87\x8a\x84"].concat();
    told.chain([(in_shift_jis, filled_up(&[2, 7]))])
}

/// The figures with zeros for those left out.
fn filled_up(figures: &[u64]) -> [u64; 7] {
    std::array::from_fn(|k| figures.get(k).copied().unwrap_or(0))
}
