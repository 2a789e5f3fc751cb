//! What the second terminal does for each byte: C0 controls, ESC and CSI sequences, modes and reports.
use crate::parser::{Event, Sequence};
use crate::screen::Screen;

impl Screen {
    pub fn write(&mut self, bytes: &[u8]) {
        for &byte in bytes {
            match self.parser.take(byte) {
                Event::Nothing => {}
                Event::Print(code) => self.print(code),
                Event::Control(code) => self.control(code),
                Event::Escape(last) => self.escape(last),
                Event::Sequence(sequence, last) if sequence.private => self.private_sequence(&sequence, last),
                Event::Sequence(sequence, last) => self.sequence(&sequence, last),
            }
        }
    }

    fn control(&mut self, code: u8) {
        match code {
            8 => self.set_cursor(self.row, self.column.saturating_sub(1)),
            9 => self.set_cursor(self.row, ((self.column / 8 + 1) * 8).min(self.columns() - 1)),
            10..=12 => self.index(),
            13 => self.set_cursor(self.row, 0),
            _ => {}
        }
    }

    fn escape(&mut self, last: u8) {
        match last {
            b'7' => self.save(),
            b'8' => self.restore(),
            b'D' => self.index(),
            b'E' => {
                self.index();
                self.set_cursor(self.row, 0);
            }
            b'M' => self.reverse_index(),
            b'c' => self.reset(),
            _ => {}
        }
    }

    fn private_sequence(&mut self, sequence: &Sequence, last: u8) {
        if last == b'h' || last == b'l' {
            for &mode in &sequence.parameters {
                self.set_private_mode(mode, last == b'h');
            }
        }
    }

    fn set_private_mode(&mut self, mode: usize, on: bool) {
        match mode {
            6 => {
                self.origin = on;
                self.address(0, 0);
            }
            7 => self.autowrap = on,
            25 => self.visible = on,
            _ => {}
        }
    }

    fn sequence(&mut self, sequence: &Sequence, last: u8) {
        let count = sequence.at(0).max(1);
        match last {
            b'A'..=b'H' | b'd' | b'f' => self.move_cursor(count, sequence.at(1).max(1), last),
            b'J' => self.erase_in_screen(sequence.at(0)),
            b'K' => self.erase_in_row(sequence.at(0)),
            b'L' | b'M' if self.in_region() => self.shift_lines(count, last),
            b'@' => self.insert_cells(count),
            b'P' => self.delete_cells(count),
            b'X' => self.erase_cells(count),
            b'S' => self.scroll_up(self.top, self.bottom, count),
            b'T' => self.scroll_down(self.top, self.bottom, count),
            b'r' => self.set_region(count, sequence.at(1)),
            b'm' => self.select_style(&sequence.parameters),
            b'h' | b'l' if sequence.parameters.contains(&4) => self.insert = last == b'h',
            b'n' => self.report(sequence.at(0)),
            b's' => self.save(),
            b'u' => self.restore(),
            _ => {}
        }
    }

    fn move_cursor(&mut self, count: usize, second: usize, last: u8) {
        let rightmost = self.columns() - 1;
        match last {
            b'A' => self.set_cursor(self.row_above(count), self.column),
            b'B' => self.set_cursor(self.row_below(count), self.column),
            b'C' => self.set_cursor(self.row, (self.column + count).min(rightmost)),
            b'D' => self.set_cursor(self.row, self.column.saturating_sub(count)),
            b'E' => self.set_cursor(self.row_below(count), 0),
            b'F' => self.set_cursor(self.row_above(count), 0),
            b'G' => self.set_cursor(self.row, (count - 1).min(rightmost)),
            b'd' => self.address(count - 1, self.column),
            _ => self.address(count - 1, second - 1),
        }
    }

    fn row_above(&self, count: usize) -> usize {
        let highest = if self.row >= self.top { self.top } else { 0 };
        self.row.saturating_sub(count).max(highest)
    }

    fn row_below(&self, count: usize) -> usize {
        let lowest = if self.row <= self.bottom { self.bottom } else { self.rows() - 1 };
        (self.row + count).min(lowest)
    }

    fn shift_lines(&mut self, count: usize, last: u8) {
        if last == b'L' {
            self.scroll_down(self.row, self.bottom, count);
        } else {
            self.scroll_up(self.row, self.bottom, count);
        }
        self.set_cursor(self.row, 0);
    }

    fn set_region(&mut self, first: usize, last: usize) {
        let last = if last == 0 { self.rows() } else { last.min(self.rows()) };
        if first < last {
            self.top = first - 1;
            self.bottom = last - 1;
            self.address(0, 0);
        }
    }

    fn select_style(&mut self, parameters: &[usize]) {
        let parameters = if parameters.is_empty() { &[0] } else { parameters };
        for &parameter in parameters {
            self.style.set(parameter);
        }
    }

    fn report(&mut self, what: usize) {
        if what == 5 {
            self.reports.extend_from_slice(b"\x1b[0n");
        }
        if what == 6 {
            let row = if self.origin { self.row.saturating_sub(self.top) } else { self.row };
            let place = format!("\x1b[{};{}R", row + 1, self.column + 1);
            self.reports.extend_from_slice(place.as_bytes());
        }
    }
}
