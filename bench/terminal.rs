// Measures the proved terminal beside a plain one over the same bytes, in the same run, and prints a table.
// The plain one is a hand-written loop over rows of cells; it knows what the measured bytes need: printing with pending wrap, CR, LF, BS, HT, CUP, SGR,
// EL and ED. The screens of both are compared before anything is measured.
extern "C" {
    fn terminal_write(wide: usize, high: usize, cells: *mut u64, count: usize, bytes: *const u8, length: usize) -> bool;
    // C's, in millionths of a second.
    fn clock() -> i64;
}

#[derive(Clone, Copy, PartialEq)]
struct Style {
    marks: u16,
    fore: u8,
    ground: u8,
}

#[derive(Clone, Copy, PartialEq)]
struct Cell {
    sign: u32,
    style: Style,
}

const PLAIN: Style = Style { marks: 0, fore: 9, ground: 9 };
const BLANK: Cell = Cell { sign: 32, style: PLAIN };

enum Parser {
    Ground,
    Escape,
    Sequence,
}

struct Plain {
    wide: usize,
    high: usize,
    rows: Vec<Vec<Cell>>,
    row: usize,
    col: usize,
    pending: bool,
    style: Style,
    parser: Parser,
    numbers: Vec<usize>,
}

impl Plain {
    fn new(wide: usize, high: usize) -> Plain {
        Plain {
            wide,
            high,
            rows: vec![vec![BLANK; wide]; high],
            row: 0,
            col: 0,
            pending: false,
            style: PLAIN,
            parser: Parser::Ground,
            numbers: Vec::new(),
        }
    }

    fn set(&mut self, row: usize, col: usize) {
        self.row = row;
        self.col = col;
        self.pending = false;
    }

    fn index(&mut self) {
        if self.row + 1 == self.high {
            self.rows.rotate_left(1);
            self.rows[self.high - 1].fill(BLANK);
            self.set(self.row, self.col);
        } else {
            self.set(self.row + 1, self.col);
        }
    }

    fn print(&mut self, b: u8) {
        if self.pending {
            self.index();
            self.col = 0;
        }
        self.rows[self.row][self.col] = Cell { sign: b as u32, style: self.style };
        if self.col + 1 < self.wide {
            self.col += 1;
        } else {
            self.pending = true;
        }
    }

    fn number(&self, k: usize) -> usize {
        self.numbers.get(k).copied().unwrap_or(0)
    }

    fn sgr(&mut self) {
        if self.numbers.is_empty() {
            self.numbers.push(0);
        }
        for k in 0..self.numbers.len() {
            match self.numbers[k] {
                0 => self.style = PLAIN,
                1 => self.style.marks |= 1,
                4 => self.style.marks |= 2,
                7 => self.style.marks |= 4,
                n @ 30..=37 => self.style.fore = (n - 30) as u8,
                n @ 40..=47 => self.style.ground = (n - 40) as u8,
                39 => self.style.fore = 9,
                49 => self.style.ground = 9,
                _ => {}
            }
        }
    }

    fn done(&mut self, b: u8) {
        match b {
            b'H' => {
                let row = self.number(0).max(1).min(self.high) - 1;
                let col = self.number(1).max(1).min(self.wide) - 1;
                self.set(row, col);
            }
            b'm' => self.sgr(),
            b'K' => self.rows[self.row][self.col..].fill(BLANK),
            b'J' => {
                if self.number(0) == 2 {
                    for row in &mut self.rows {
                        row.fill(BLANK);
                    }
                }
            }
            _ => {}
        }
    }

    fn feed(&mut self, bytes: &[u8]) {
        for &b in bytes {
            match (&self.parser, b) {
                (_, 27) => self.parser = Parser::Escape,
                (_, 8) => self.set(self.row, self.col.saturating_sub(1)),
                (_, 9) => self.set(self.row, (8 * (self.col / 8 + 1)).min(self.wide - 1)),
                (_, 10) => self.index(),
                (_, 13) => self.set(self.row, 0),
                (_, 0..=31 | 127) => {}
                (Parser::Ground, _) => self.print(if b >= 128 { b'?' } else { b }),
                (Parser::Escape, b'[') => {
                    self.numbers.clear();
                    self.parser = Parser::Sequence;
                }
                (Parser::Escape, _) => self.parser = Parser::Ground,
                (Parser::Sequence, b'0'..=b'9') => {
                    if self.numbers.is_empty() {
                        self.numbers.push(0);
                    }
                    let n = self.numbers.last_mut().unwrap();
                    *n = (10 * *n + (b - b'0') as usize).min(9999);
                }
                (Parser::Sequence, b';') => {
                    if self.numbers.is_empty() {
                        self.numbers.push(0);
                    }
                    self.numbers.push(0);
                }
                (Parser::Sequence, _) => {
                    self.parser = Parser::Ground;
                    self.done(b);
                }
            }
        }
    }

    fn packed(&self) -> Vec<u64> {
        self.rows
            .iter()
            .flatten()
            .map(|c| c.sign as u64 | (c.style.marks as u64) << 32 | (c.style.fore as u64) << 48 | (c.style.ground as u64) << 56)
            .collect()
    }
}

fn proved(wide: usize, high: usize, bytes: &[u8]) -> Vec<u64> {
    let mut cells = vec![0u64; wide * high];
    // The library reads and writes only these two rows of memory, within the lengths given.
    let done = unsafe { terminal_write(wide, high, cells.as_mut_ptr(), cells.len(), bytes.as_ptr(), bytes.len()) };
    assert!(done);
    cells
}

fn plain(wide: usize, high: usize, bytes: &[u8]) -> Vec<u64> {
    let mut term = Plain::new(wide, high);
    term.feed(bytes);
    term.packed()
}

// A row of numbers that looks random and is the same in each run.
struct Random(u64);

impl Random {
    fn below(&mut self, n: usize) -> usize {
        self.0 = self.0.wrapping_mul(6364136223846793005).wrapping_add(1442695040888963407);
        (self.0 >> 33) as usize % n
    }
}

// Lines of words, as a compiler or a log prints them.
fn text(size: usize) -> Vec<u8> {
    let mut random = Random(1);
    let mut bytes = Vec::new();
    while bytes.len() < size {
        for _ in 0..2 + random.below(12) {
            for _ in 0..1 + random.below(9) {
                bytes.push(b'a' + random.below(26) as u8);
            }
            bytes.push(b' ');
        }
        bytes.extend_from_slice(b"\r\n");
    }
    bytes
}

// One long line: nothing but printing, and a wrap at the end of each row.
fn wrapped(size: usize) -> Vec<u8> {
    let mut random = Random(3);
    (0..size).map(|_| 33 + random.below(94) as u8).collect()
}

// Places all over the screen, each with a style and a word, as a full-screen program writes.
fn addressed(size: usize, wide: usize, high: usize) -> Vec<u8> {
    let mut random = Random(2);
    let mut bytes = Vec::new();
    while bytes.len() < size {
        let (row, col) = (1 + random.below(high), 1 + random.below(wide));
        let colour = 30 + random.below(8);
        bytes.extend_from_slice(format!("\x1b[{row};{col}H\x1b[0;1;{colour}m").as_bytes());
        for _ in 0..1 + random.below(12) {
            bytes.push(b'a' + random.below(26) as u8);
        }
        if random.below(4) == 0 {
            bytes.extend_from_slice(b"\x1b[K");
        }
    }
    bytes
}

// Seconds of processor time for one run, which other work on the machine disturbs least.
fn seconds(f: fn(usize, usize, &[u8]) -> Vec<u64>, wide: usize, high: usize, bytes: &[u8]) -> f64 {
    let start = unsafe { clock() };
    let cells = f(wide, high, bytes);
    let took = unsafe { clock() } - start;
    assert_eq!(cells.len(), wide * high);
    took as f64 / 1e6
}

// The best of several runs of each, by turns, in millions of bytes a second.
fn speeds(wide: usize, high: usize, bytes: &[u8]) -> (f64, f64) {
    let (mut a, mut b) = (f64::MAX, f64::MAX);
    for _ in 0..15 {
        a = a.min(seconds(proved, wide, high, bytes));
        b = b.min(seconds(plain, wide, high, bytes));
    }
    let mega = bytes.len() as f64 / 1e6;
    (mega / a, mega / b)
}

fn main() {
    let size: usize = std::env::args().nth(1).map_or(4_000_000, |s| s.parse().expect("bytes in each input"));
    println!("| Input | Screen | Proved, MB/s | Plain Rust, MB/s | Ratio |");
    println!("|---|---|---|---|---|");
    for (wide, high) in [(80, 24), (200, 60)] {
        for (name, bytes) in [("lines of words", text(size)), ("one long line", wrapped(size)), ("cursor-addressed", addressed(size, wide, high))] {
            assert!(proved(wide, high, &bytes) == plain(wide, high, &bytes), "the screens differ");
            let (a, b) = speeds(wide, high, &bytes);
            println!("| {name} | {wide} x {high} | {a:.0} | {b:.0} | {:.2} |", a / b);
        }
    }
}
