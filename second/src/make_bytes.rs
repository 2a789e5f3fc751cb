//! Makes what a program in a pane might write: text and every control function, with numbers of every sort, so that pending wrap, origin mode in a
//! region, and save and restore meet often.
use crate::random::Random;

/// Final bytes of CSI sequences that do something, and a few that don't.
const FINALS: &[u8] = b"ABCDEFGdHfJKLM@PXSTrmhlnsuABCDHJKLMPXSTrmIZ`cgqty";
const STYLES: &[usize] = &[0, 1, 4, 7, 22, 24, 27, 30, 31, 34, 37, 39, 40, 42, 47, 49, 2, 5, 38, 48, 90, 107];
const MODES: &[usize] = &[4, 6, 7, 25, 6, 7, 25, 1, 20, 0];

/// Sequences with something where it doesn't belong, or with a control in them.
const ODD: &[&str] = &[
    "\x1b(B",
    "\x1b#8",
    "\x1b[6?7l",
    "\x1b[??7l",
    "\x1b[;?25l",
    "\x1b[4?h",
    "\x1b[ ?6h",
    "\x1b[\x07?25l",
    "\x1b[\x7f?7l",
    "\x1b[?\n6h",
    "\x1b\x0d[3C",
    "\x1b\x7fM",
];

/// What a burst of bytes is mostly about.
#[derive(Clone, Copy)]
enum Theme {
    Mixed,
    Wrap,
    Origin,
    Save,
    Colours,
    Noise,
}

const THEMES: [Theme; 9] =
    [Theme::Mixed, Theme::Mixed, Theme::Wrap, Theme::Wrap, Theme::Origin, Theme::Origin, Theme::Save, Theme::Colours, Theme::Noise];

pub struct Burst<'r> {
    random: &'r mut Random,
    columns: usize,
    rows: usize,
    bytes: Vec<u8>,
}

/// A burst for a terminal of this size, at most so many bytes or little more.
pub fn burst(random: &mut Random, columns: usize, rows: usize, most: usize) -> Vec<u8> {
    let mut burst = Burst { random, columns, rows, bytes: Vec::new() };
    let theme = *burst.random.pick(&THEMES);
    while burst.bytes.len() < most {
        burst.phrase(theme);
    }
    burst.bytes
}

/// Text that fills much of a large terminal, with a style here and there.
pub fn page(random: &mut Random, columns: usize, rows: usize, most: usize) -> Vec<u8> {
    let mut burst = Burst { random, columns, rows, bytes: Vec::new() };
    while burst.bytes.len() < most {
        (0..burst.random.between(20, 300)).for_each(|_| burst.character());
        burst.add_one_of(&["\r\n", "", "\x1b[0;7m", "\x1b[0;1;31m", "\x1b[m"]);
    }
    burst.bytes
}

impl Burst<'_> {
    fn phrase(&mut self, theme: Theme) {
        if self.random.chance(30) {
            return self.any_phrase();
        }
        match theme {
            Theme::Mixed => self.any_phrase(),
            Theme::Wrap => self.at_last_column(),
            Theme::Origin => self.in_region(),
            Theme::Save => self.saving(),
            Theme::Colours => self.coloured(),
            Theme::Noise => self.noise(),
        }
    }

    fn any_phrase(&mut self) {
        match self.random.below(16) {
            0..=3 => self.text(),
            4..=6 => self.function(),
            7 => self.style(),
            8 => self.mode(),
            9 => self.control(),
            10 => self.at_last_column(),
            11 => self.in_region(),
            12 => self.saving(),
            13 => self.report(),
            14 => self.control_string(),
            _ => self.noise(),
        }
    }

    fn add(&mut self, text: &str) {
        self.bytes.extend_from_slice(text.as_bytes());
    }

    fn add_one_of(&mut self, texts: &[&str]) {
        let text = *self.random.pick(texts);
        self.add(text);
    }

    fn character(&mut self) {
        let code = match self.random.below(20) {
            0 => self.random.between(128, 255) as u8,
            1 => b' ',
            2 => self.random.between(32, 126) as u8,
            _ => self.random.between(usize::from(b'a'), usize::from(b'z')) as u8,
        };
        self.bytes.push(code);
    }

    fn text(&mut self) {
        let most = if self.random.chance(20) { 2 * self.columns } else { 6 };
        for _ in 0..self.random.between(1, most) {
            self.character();
        }
    }

    /// A parameter: missing, zero, small, about the size of the screen, or huge.
    fn parameter(&mut self) -> String {
        match self.random.below(12) {
            0 => String::new(),
            1 => "0".to_string(),
            2..=5 => self.random.between(1, 4).to_string(),
            6 => self.random.between(self.columns.saturating_sub(1), self.columns + 1).to_string(),
            7 => self.random.between(self.rows.saturating_sub(1), self.rows + 1).to_string(),
            8 => self.random.between(1, self.columns.max(self.rows)).to_string(),
            9 => format!("00{}", self.random.between(1, 7)),
            10 => self.random.pick(&["9998", "9999", "10000", "65535", "65537"]).to_string(),
            _ => self.random.pick(&["4294967296", "4294967298", "18446744073709551617", "99999999999999999999999"]).to_string(),
        }
    }

    fn parameters(&mut self) -> String {
        let count = match self.random.below(20) {
            0..=2 => 0,
            3..=10 => 1,
            11..=16 => 2,
            17..=18 => 3,
            _ => self.random.between(15, 40),
        };
        let all: Vec<String> = (0..count).map(|_| self.parameter()).collect();
        all.join(";")
    }

    /// Any CSI sequence.
    fn function(&mut self) {
        let private = if self.random.chance(8) { "?" } else { "" };
        let last = char::from(*self.random.pick(FINALS));
        let parameters = self.parameters();
        self.add(&format!("\x1b[{private}{parameters}{last}"));
    }

    fn list(&mut self, from: &[usize]) -> String {
        let most = if self.random.chance(5) { 20 } else { 3 };
        let all: Vec<String> = (0..self.random.between(0, most)).map(|_| self.random.pick(from).to_string()).collect();
        all.join(";")
    }

    fn style(&mut self) {
        let list = self.list(STYLES);
        self.add(&format!("\x1b[{list}m"));
    }

    /// Characters in a style each, so that showing them takes many bytes.
    fn coloured(&mut self) {
        for _ in 0..self.random.between(1, 8) {
            let parameter = *self.random.pick(STYLES);
            self.add(&format!("\x1b[{parameter}m"));
            self.character();
        }
    }

    fn mode(&mut self) {
        let private = if self.random.chance(70) { "?" } else { "" };
        let list = self.list(MODES);
        let last = if self.random.chance(50) { 'h' } else { 'l' };
        self.add(&format!("\x1b[{private}{list}{last}"));
    }

    fn control(&mut self) {
        let code = *self.random.pick(b"\x08\x09\x0a\x0b\x0c\x0d\x0a\x0d\x00\x07\x0e\x18\x1a\x1f\x7f");
        self.bytes.push(code);
    }

    /// ESC and one byte, mostly one that does something.
    fn escape(&mut self) {
        let last = if self.random.chance(3) { 'c' } else { char::from(*self.random.pick(b"78DEM78DEM=PZ")) };
        self.add(&format!("\x1b{last}"));
    }

    fn report(&mut self) {
        self.add_one_of(&["\x1b[6n", "\x1b[6n", "\x1b[5n", "\x1b[n", "\x1b[?6n", "\x1b[6;1n\x1b[5n"]);
    }

    /// A character in the last column, then something that may end the wrap that is pending, then one more.
    fn at_last_column(&mut self) {
        if self.random.chance(60) {
            let row = self.random.between(1, self.rows);
            let column = self.columns - self.random.below(2).min(self.columns - 1);
            self.add(&format!("\x1b[{row};{column}H"));
        } else {
            self.add("\x1b[999C");
        }
        for _ in 0..self.random.between(1, 3) {
            self.character();
        }
        self.between();
        self.character();
    }

    /// Any one thing, or nothing.
    fn between(&mut self) {
        match self.random.below(10) {
            0..=3 => self.function(),
            4 => self.escape(),
            5 => self.control(),
            6 => self.mode(),
            7 => self.report(),
            8 => self.style(),
            _ => {}
        }
    }

    /// A region and origin mode, and then moves, scrolls and line feeds at its edges.
    fn in_region(&mut self) {
        if self.random.chance(50) {
            let top = self.random.between(1, self.rows);
            let bottom = self.random.between(top.saturating_sub(1), self.rows + 1);
            self.add(&format!("\x1b[{top};{bottom}r"));
        }
        if self.random.chance(40) {
            let last = if self.random.chance(70) { 'h' } else { 'l' };
            self.add(&format!("\x1b[?6{last}"));
        }
        for _ in 0..self.random.between(1, 4) {
            self.region_step();
        }
        self.text();
    }

    fn region_step(&mut self) {
        match self.random.below(8) {
            0 | 1 => {
                let (row, column) = (self.parameter(), self.parameter());
                self.add(&format!("\x1b[{row};{column}H"));
            }
            2 => self.add("\n"),
            3 => self.add("\x1bM"),
            4 => {
                let count = self.parameter();
                let last = char::from(*self.random.pick(b"ABLMSTd"));
                self.add(&format!("\x1b[{count}{last}"));
            }
            5 => self.report(),
            6 => self.character(),
            _ => self.between(),
        }
    }

    /// A save, things in between, and a restore; or one of them alone.
    fn saving(&mut self) {
        if self.random.chance(70) {
            self.add_one_of(&["\x1b7", "\x1b[s"]);
        }
        for _ in 0..self.random.below(4) {
            match self.random.below(5) {
                0 => self.style(),
                1 => self.in_region(),
                2 => self.at_last_column(),
                3 => self.between(),
                _ => self.text(),
            }
        }
        if self.random.chance(70) {
            self.add_one_of(&["\x1b8", "\x1b[u"]);
            self.text();
        }
    }

    /// A control string, ended in one of the ways or not at all.
    fn control_string(&mut self) {
        self.add("\x1b]0;");
        for _ in 0..self.random.below(8) {
            let byte = *self.random.pick(b"ahH;m \x0a\x18\x1a\x7f\xc3\xa4\x0d\x1b");
            self.bytes.push(byte);
        }
        self.add_one_of(&["\x07", "\x1b\\", "\x07", "\x1b\\", "\x1b\x7f\\", "\x1b\x1b\\", "\x1bx\x07", ""]);
    }

    /// Sequences that are ignored, broken or unlisted, and raw bytes.
    fn noise(&mut self) {
        match self.random.below(6) {
            0 => {
                let byte = self.random.byte();
                self.bytes.extend_from_slice(&[27, byte]);
            }
            1 => self.add_one_of(ODD),
            2 => self.cut_sequence(),
            3 => {
                let odd = char::from(*self.random.pick(b" !$/:<=>?"));
                let (first, second) = (self.parameters(), self.parameters());
                let last = char::from(*self.random.pick(FINALS));
                self.add(&format!("\x1b[{first}{odd}{second}{last}"));
            }
            4 => (0..self.random.between(1, 8)).for_each(|_| {
                let byte = self.random.byte();
                self.bytes.push(byte);
            }),
            _ => self.control(),
        }
    }

    /// A sequence that another one, a control or a character breaks into.
    fn cut_sequence(&mut self) {
        let parameters = self.parameters();
        self.add(&format!("\x1b[{parameters}"));
        match self.random.below(4) {
            0 => self.function(),
            1 => self.control(),
            2 => self.bytes.push(0xc3),
            _ => {}
        }
    }
}
