//! What may stand where a move line has its time.   (02, iv)

/// Cases of one cause: whether a time is read there, and whether one is lost.
pub struct Row {
    pub read: bool,
    pub lost: bool,
    pub times: &'static [&'static str],
}

pub const ROWS: [Row; 10] = [
    // 255 is read, whatever zeros stand before it; a second bracket is tail.
    Row {
        read: true,
        lost: false,
        times: &[
            "(255:00/1:00:00)", "(00000000000000000001:00/0:0)", "( 0:01/0:0) (300:00/0:0)", "( 0:16/00:00:16)",
            "(255:255:255/255:255:255)", "(00000000000000000000255:0/0:255)", "( 1:2\t/ 3:4 )300", "(1:2:3/4:5)(300)",
        ],
    },
    // The first or the second figure of now.
    Row {
        read: false,
        lost: true,
        times: &[
            "(300:00/1:00:00)", "(256:00/1:00:00)", "(1:300/1:00:00)", "(1:300:2/1:00:00)", "(256:00/..)",
            "(1:300/..)", "(1:300:2/..)", "(255:256/0:0)", "(257:0/0:0)",
        ],
    },
    // The third, though m:s is read.
    Row { read: false, lost: true, times: &["(1:2:300/0:0)", "(255:255:256/0:0)", "(1:2:256", "(1:2:300)"] },
    // A figure of total, now and / being read.
    Row {
        read: false,
        lost: true,
        times: &[
            "(0:01/300:00:00)", "(0:01/0:0:300)", "(0:1/300)", "(0:1/256:0)", "(0:1/0:256)", "(0:1:2/0:256:0)",
            "(0:1:2/255:255:256)", "(0:1/300", "(255:255:255/256",
        ],
    },
    // What follows the figure is not asked.
    Row {
        read: false,
        lost: true,
        times: &[
            "(300)", "(300", "(300:)", "(2024/1/1)", "(1:300", "(1:300x", "(256 0:1/0:1)", "(300:00/0:0)(0:1/0:1)",
        ],
    },
    // Blanks stand around a clock.
    Row {
        read: false,
        lost: true,
        times: &[
            "( 300 : 00 / 0:0 )", "(\t300:00/0:0)", "( 1:2 / 300:00:00 )", "( \t 1:2:3 \t /\t 4:256 )", "(1:2 / 256",
        ],
    },
    // Figures of twenty digits and more, and such as a narrow number wraps round.
    Row {
        read: false,
        lost: true,
        times: &[
            "(99999999999999999999:00/0:0)", "(00000000000000000000300:00/0:0)", "(00000000000000000000300:00/..)",
            "(18446744073709551617:0/0:0)", "(1:2:18446744073709551872/0:0)", "(0:1/0000000000000000000000000256)",
            "(1000:0/0:0)", "(65537:0/0:0)", "(4294967297:0/0:0)",
        ],
    },
    // The time failed before the figure was come to.
    Row {
        read: false,
        lost: false,
        times: &[
            "(0:1.5/0:0)", "(0:1.5/..)", "(0:1.500/0:0)", "(0:1.500/..)", "(0:1:2:300/0:0)", "(0:1 300:00:00)",
            "(0:1/0:0 300)", "(0:1/0:0:0:300)", "(1/300:00)", "(0:1)/(300:00)", "(0:1 0:1/300:0)", "(0:1/)300",
            "(0:1/0:1",
        ],
    },
    // Blanks stand around no figure; or no figure stands there.
    Row {
        read: false,
        lost: false,
        times: &[
            "(1: 300/0:0)", "(1: 300/..)", "( 1 : 300/0:0)", "( 1 : 300/..)", "(1:2: 300/0:0)", "(1:2: 300/..)",
            "(:300/0:0)", "(:300/..)", "(1::300/0:0)", "(1::300/..)", "(0:1/:300)", "(0:1/0: 300)", "(0:1/0:0: 300)",
            "(-300:00/0:0)", "(+300:00/0:0)", "(/300:00)", "(0:1//300:00)", "()", "(",
        ],
    },
    // No bracket, or no figure after it, where the time would stand.
    Row {
        read: false,
        lost: false,
        times: &[
            "", "300:00", "x(300:00/0:0)", "x(300:00/..)", "　(300:00/0:0)", "　(300..", "（300:00/0:0)", "（300..",
            "(３００:00/0:0)", "(３００:..", "((300:00/0:0)", "((300..", "(　300:00/0:0)", "\u{a0}(300:00/0:0)",
        ],
    },
];

/// Every case, whether a time is read there, and whether one is lost.
pub fn cases() -> impl Iterator<Item = (&'static str, bool, bool)> {
    ROWS.iter().flat_map(|row| row.times.iter().map(|&time| (time, row.read, row.lost)))
}
