//! The second terminal: its state, and the edits that control functions are made of. Rows and columns count from 0.
use crate::cell::{Cell, Style, BLANK, PLAIN};
use crate::parser::Parser;

/// What DECSC keeps.
#[derive(Clone, Copy, PartialEq, Eq, Debug)]
pub struct Saved {
    pub row: usize,
    pub column: usize,
    pub style: Style,
    pub origin: bool,
}

const NOTHING_SAVED: Saved = Saved { row: 0, column: 0, style: PLAIN, origin: false };

#[derive(Clone, PartialEq, Eq, Debug)]
pub struct Screen {
    pub cells: Vec<Vec<Cell>>,
    pub row: usize,
    pub column: usize,
    pub pending_wrap: bool,
    pub style: Style,
    pub top: usize,
    pub bottom: usize,
    pub insert: bool,
    pub autowrap: bool,
    pub origin: bool,
    pub visible: bool,
    pub saved: Saved,
    pub parser: Parser,
    pub reports: Vec<u8>,
}

impl Screen {
    pub fn new(columns: usize, rows: usize) -> Screen {
        Screen {
            cells: vec![vec![BLANK; columns]; rows],
            row: 0,
            column: 0,
            pending_wrap: false,
            style: PLAIN,
            top: 0,
            bottom: rows - 1,
            insert: false,
            autowrap: true,
            origin: false,
            visible: true,
            saved: NOTHING_SAVED,
            parser: Parser::Ground,
            reports: Vec::new(),
        }
    }

    pub fn rows(&self) -> usize {
        self.cells.len()
    }

    pub fn columns(&self) -> usize {
        self.cells[0].len()
    }

    /// As it was when it came up, but for reports that are still to be sent.
    pub fn reset(&mut self) {
        let reports = std::mem::take(&mut self.reports);
        *self = Screen::new(self.columns(), self.rows());
        self.reports = reports;
    }

    /// Another size, in one go. The rows that the cursor would lose below are lost above instead.
    pub fn resize(&mut self, columns: usize, rows: usize) {
        let lost = (self.row + 1).saturating_sub(rows);
        self.cells.drain(..lost);
        self.cells.resize(rows, Vec::new());
        for row in &mut self.cells {
            row.resize(columns, BLANK);
        }
        self.set_cursor(self.row - lost, self.column.min(columns - 1));
        self.origin = false;
        self.top = 0;
        self.bottom = rows - 1;
        self.saved = NOTHING_SAVED;
    }

    pub fn set_cursor(&mut self, row: usize, column: usize) {
        self.row = row;
        self.column = column;
        self.pending_wrap = false;
    }

    /// Addressed from the region's top in origin mode, and then not beyond its bottom.
    pub fn address(&mut self, row: usize, column: usize) {
        let row = if self.origin { (self.top + row).min(self.bottom) } else { row.min(self.rows() - 1) };
        self.set_cursor(row, column.min(self.columns() - 1));
    }

    pub fn print(&mut self, code: u8) {
        if self.pending_wrap {
            self.index();
            self.set_cursor(self.row, 0);
        }
        if self.insert {
            self.insert_cells(1);
        }
        self.cells[self.row][self.column] = Cell { code, style: self.style };
        if self.column + 1 < self.columns() {
            self.set_cursor(self.row, self.column + 1);
        } else {
            self.pending_wrap = self.autowrap;
        }
    }

    pub fn scroll_up(&mut self, first: usize, last: usize, count: usize) {
        let part = &mut self.cells[first..=last];
        let count = count.min(part.len());
        part.rotate_left(count);
        let kept = part.len() - count;
        part[kept..].iter_mut().for_each(|row| row.fill(BLANK));
    }

    pub fn scroll_down(&mut self, first: usize, last: usize, count: usize) {
        let part = &mut self.cells[first..=last];
        let count = count.min(part.len());
        part.rotate_right(count);
        part[..count].iter_mut().for_each(|row| row.fill(BLANK));
    }

    pub fn index(&mut self) {
        let below = (self.row + 1).min(self.rows() - 1);
        if self.row == self.bottom {
            self.scroll_up(self.top, self.bottom, 1);
            self.set_cursor(self.row, self.column);
        } else {
            self.set_cursor(below, self.column);
        }
    }

    pub fn reverse_index(&mut self) {
        if self.row == self.top {
            self.scroll_down(self.top, self.bottom, 1);
            self.set_cursor(self.row, self.column);
        } else {
            self.set_cursor(self.row.saturating_sub(1), self.column);
        }
    }

    pub fn in_region(&self) -> bool {
        (self.top..=self.bottom).contains(&self.row)
    }

    /// The cells from the cursor to the end of its row.
    fn rest_of_row(&mut self) -> &mut [Cell] {
        &mut self.cells[self.row][self.column..]
    }

    pub fn insert_cells(&mut self, count: usize) {
        let rest = self.rest_of_row();
        let count = count.min(rest.len());
        rest.rotate_right(count);
        rest[..count].fill(BLANK);
    }

    pub fn delete_cells(&mut self, count: usize) {
        let rest = self.rest_of_row();
        let count = count.min(rest.len());
        rest.rotate_left(count);
        let kept = rest.len() - count;
        rest[kept..].fill(BLANK);
    }

    pub fn erase_cells(&mut self, count: usize) {
        let rest = self.rest_of_row();
        let count = count.min(rest.len());
        rest[..count].fill(BLANK);
    }

    /// EL: 0 from the cursor on, 1 up to and with it, 2 the whole row.
    pub fn erase_in_row(&mut self, which: usize) {
        let column = self.column;
        let row = &mut self.cells[self.row];
        match which {
            0 => row[column..].fill(BLANK),
            1 => row[..=column].fill(BLANK),
            2 => row.fill(BLANK),
            _ => {}
        }
    }

    /// ED: 0 from the cursor on, 1 up to and with it, 2 the whole screen.
    pub fn erase_in_screen(&mut self, which: usize) {
        let rows = match which {
            0 => self.row + 1..self.rows(),
            1 => 0..self.row,
            2 => 0..self.rows(),
            _ => return,
        };
        self.erase_in_row(which);
        for row in &mut self.cells[rows] {
            row.fill(BLANK);
        }
    }

    pub fn save(&mut self) {
        self.saved = Saved { row: self.row, column: self.column, style: self.style, origin: self.origin };
    }

    pub fn restore(&mut self) {
        let saved = self.saved;
        self.set_cursor(saved.row.min(self.rows() - 1), saved.column.min(self.columns() - 1));
        self.style = saved.style;
        self.origin = saved.origin;
    }
}
