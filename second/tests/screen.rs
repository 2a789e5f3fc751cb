//! What the second screen shows after some bytes, by the tables of docs/TERMINAL.md.
use second::picture::Picture;
use second::screen::Screen;

/// Size, bytes, rows joined by `/`, cursor (row and column from 1), reports.
type Case = (usize, usize, &'static str, &'static str, (usize, usize), &'static str);

const CASES: &[Case] = &[
    // Pending wrap: it arises in the last column, is done by the next character and ended by what sets the cursor.
    (3, 2, "abc", "abc/", (1, 3), ""),
    (3, 2, "abcd", "abc/d", (2, 2), ""),
    (3, 2, "abc\rd", "dbc/", (1, 2), ""),
    (3, 2, "abc\x1b[md", "abc/d", (2, 2), ""),
    (3, 2, "abc\x1b7\x1b8d", "abd/", (1, 3), ""),
    (3, 2, "abc\x1b[?7ld", "abc/d", (2, 2), ""),
    (3, 2, "\x1b[?7labcd", "abd/", (1, 3), ""),
    (1, 3, "abcd", "b/c/d", (3, 1), ""),
    (3, 2, "abc\x1b[Kd", "ab/d", (2, 2), ""),
    // Regions and origin mode.
    (3, 4, "a\r\nb\r\nc\r\nd\x1b[2;3r\x1b[3;1H\nx", "a/c/x/d", (3, 2), ""),
    (3, 4, "\x1b[2;3r\x1b[?6hx\x1b[9;9Hy\x1b[6n", "/x/  y/", (3, 3), "\x1b[2;3R"),
    (3, 4, "\x1b[2;3r\x1b[4;1H\n\nz\x1b[9A", "///z", (2, 2), ""),
    (3, 4, "a\r\nb\r\nc\x1b[2;4r\x1b[2;1H\x1b[L", "a//b/c", (2, 1), ""),
    (3, 4, "a\r\nb\r\nc\x1b[2;2r", "a/b/c/", (3, 2), ""),
    (3, 3, "a\r\nb\r\nc\x1b[H\x1bM", "/a/b", (1, 1), ""),
    // Parameters: huge ones, too many, none; what is ignored.
    (3, 2, "\x1b[99999999999999999999;2Hx", "/ x", (2, 3), ""),
    (3, 2, "\x1b[0;0;0;0;0;0;0;0;0;0;0;0;0;0;0;0;5n\x1b[5n", "/", (1, 1), "\x1b[0n"),
    (3, 2, "a\x1b[?6nb\x1b[1:2Hc\x1b(0d", "abc/", (1, 3), ""),
    (3, 2, "a\x1b[1\x08;1Hb\x1b[2\x18Hc", "bHc/", (1, 3), ""),
    // Control strings end by BEL or ESC \ only.
    (3, 2, "a\x1b]0;x\x1a\ny\x07b", "ab/", (1, 3), ""),
    (3, 2, "a\x1b]0;x\x1b\x1b\\b\x1b]\x1bx\x1b\x7f\\c", "abc/", (1, 3), ""),
    // Edits in a row; insert mode; a full reset keeps reports.
    (5, 1, "abcde\x1b[2G\x1b[2@", "a  bc", (1, 2), ""),
    (5, 1, "abcde\x1b[2G\x1b[2P", "ade", (1, 2), ""),
    (5, 1, "abcde\x1b[2G\x1b[2X", "a  de", (1, 2), ""),
    (5, 1, "abc\x1b[4h\x1b[Gx", "xabc", (1, 2), ""),
    (5, 2, "abc\x1b[5n\x1bcd\x1b[6n", "d/", (1, 2), "\x1b[0n\x1b[1;2R"),
    (20, 1, "a\tb\x08\x08c", "a      cb", (1, 9), ""),
];

#[test]
fn bytes_do_what_the_tables_say() {
    for (columns, rows, bytes, shown, (row, column), reports) in CASES {
        let mut screen = Screen::new(*columns, *rows);
        screen.write(bytes.as_bytes());
        let wanted = format!("{}\ncursor {row} {column}\n", shown.replace('/', "\n"));
        assert_eq!(Picture::on(&screen).written_out(), wanted, "after {bytes:?}");
        assert_eq!(screen.reports, reports.as_bytes(), "after {bytes:?}");
    }
}

#[test]
fn another_size_keeps_the_cursor_on_the_screen() {
    let mut screen = Screen::new(4, 4);
    screen.write(b"one\r\ntwo\r\nfour");
    screen.resize(3, 2);
    assert_eq!(Picture::on(&screen).written_out(), "two\nfou\ncursor 2 3\n");
    screen.resize(5, 3);
    screen.write(b"x");
    assert_eq!(Picture::on(&screen).written_out(), "two\nfox\n\ncursor 2 4\n");
}
