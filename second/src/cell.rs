//! Cells and styles of a screen.

/// What SGR sets. A colour is 0 to 7, or `None` for the default.
#[derive(Clone, Copy, PartialEq, Eq, Debug, Default)]
pub struct Style {
    pub bold: bool,
    pub underlined: bool,
    pub reverse: bool,
    pub foreground: Option<u8>,
    pub background: Option<u8>,
}

/// A character code and its style.
#[derive(Clone, Copy, PartialEq, Eq, Debug)]
pub struct Cell {
    pub code: u8,
    pub style: Style,
}

pub const PLAIN: Style = Style { bold: false, underlined: false, reverse: false, foreground: None, background: None };
pub const BLANK: Cell = Cell { code: b' ', style: PLAIN };

impl Style {
    /// One SGR parameter. Unknown ones do nothing.
    pub fn set(&mut self, parameter: usize) {
        match parameter {
            0 => *self = PLAIN,
            1 => self.bold = true,
            4 => self.underlined = true,
            7 => self.reverse = true,
            22 => self.bold = false,
            24 => self.underlined = false,
            27 => self.reverse = false,
            30..=37 => self.foreground = Some((parameter - 30) as u8),
            39 => self.foreground = None,
            40..=47 => self.background = Some((parameter - 40) as u8),
            49 => self.background = None,
            _ => {}
        }
    }
}
