//! A naive painter: it keeps the viewer's terminal as it must be by now, and sends each cell that differs.
use crate::cell::{Cell, Style, PLAIN};
use crate::faults::Fault;
use crate::picture::Picture;
use crate::screen::Screen;

pub struct Painter {
    viewer: Screen,
    bytes: Vec<u8>,
    fault: Option<Fault>,
}

impl Painter {
    pub fn new(fault: Option<Fault>) -> Painter {
        Painter { viewer: Screen::new(1, 1), bytes: Vec::new(), fault }
    }

    /// Somebody attaches: the viewer's terminal is fresh.
    pub fn attach(&mut self, columns: usize, rows: usize) {
        self.viewer = Screen::new(columns, rows);
    }

    /// The bytes that bring the viewer's terminal to this picture.
    pub fn paint(&mut self, picture: &Picture) -> Vec<u8> {
        for (row, cells) in picture.cells.iter().enumerate() {
            for (column, cell) in cells.iter().enumerate() {
                if self.viewer.cells[row][column] != *cell || self.has(Fault::EverythingSentAgain) {
                    self.put(row, column, *cell);
                }
            }
        }
        self.set_cursor(picture.cursor);
        std::mem::take(&mut self.bytes)
    }

    fn has(&self, fault: Fault) -> bool {
        self.fault == Some(fault)
    }

    fn emit(&mut self, bytes: &[u8]) {
        self.viewer.write(bytes);
        self.bytes.extend_from_slice(bytes);
    }

    fn put(&mut self, row: usize, column: usize, cell: Cell) {
        self.address(row, column);
        let leave_on = self.has(Fault::ColourLeftOn) && cell.style == PLAIN;
        if self.viewer.style != cell.style && !leave_on {
            self.emit(select(cell.style).as_bytes());
        }
        self.emit(&[cell.code]);
    }

    /// A pending wrap would take the next character to another row, so that it needs an address too.
    fn address(&mut self, row: usize, column: usize) {
        if (self.viewer.row, self.viewer.column) != (row, column) || self.viewer.pending_wrap {
            self.emit(format!("\x1b[{};{}H", row + 1, column + 1).as_bytes());
        }
    }

    fn set_cursor(&mut self, cursor: Option<(usize, usize)>) {
        if let Some((row, column)) = cursor {
            if !self.has(Fault::CursorLeftBehind) {
                self.address(row, column);
            }
        }
        let visible = cursor.is_some() || self.has(Fault::HiddenCursorShown);
        if self.viewer.visible != visible {
            self.emit(if visible { b"\x1b[?25h" } else { b"\x1b[?25l" });
        }
    }
}

fn select(style: Style) -> String {
    let mut text = String::from("\x1b[0");
    for (on, parameter) in [(style.bold, 1), (style.underlined, 4), (style.reverse, 7)] {
        if on {
            text += &format!(";{parameter}");
        }
    }
    for (colour, first) in [(style.foreground, 30), (style.background, 40)] {
        if let Some(colour) = colour {
            text += &format!(";{}", first + colour);
        }
    }
    text + "m"
}
