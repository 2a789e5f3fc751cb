//! The picture of the second plain glass: what the viewer is to see, and where the cursor is.
use crate::cell::{Cell, Style, BLANK, PLAIN};
use crate::glass::{Glass, Window};
use crate::layout::{Rectangle, Split};
use crate::screen::Screen;

#[derive(Clone, PartialEq, Eq, Debug)]
pub struct Picture {
    pub cells: Vec<Vec<Cell>>,
    /// Row and column, if it is visible.
    pub cursor: Option<(usize, usize)>,
}

impl Picture {
    /// The picture of a glass that has a window.
    pub fn of(glass: &Glass) -> Picture {
        let mut picture = Picture { cells: vec![vec![BLANK; glass.columns]; glass.rows], cursor: None };
        if let Some(window) = glass.current_window() {
            picture.draw_lines(window, glass.room());
            picture.draw_panes(glass, window);
        }
        picture.draw_status(glass);
        picture
    }

    /// What a screen shows.
    pub fn on(screen: &Screen) -> Picture {
        Picture { cells: screen.cells.clone(), cursor: screen.visible.then_some((screen.row, screen.column)) }
    }

    fn draw_lines(&mut self, window: &Window, room: Rectangle) {
        for (split, line) in window.layout.lines(room) {
            let code = if split == Split::Beside { b'|' } else { b'-' };
            for row in self.cells.iter_mut().skip(line.y).take(line.rows) {
                row.iter_mut().skip(line.x).take(line.columns).for_each(|cell| *cell = Cell { code, style: PLAIN });
            }
        }
    }

    fn draw_panes(&mut self, glass: &Glass, window: &Window) {
        for (number, place) in window.layout.places(glass.room()) {
            let Some(pane) = glass.pane(number) else { continue };
            self.draw_pane(&pane.screen, place);
            if number == window.focus {
                self.cursor = cursor_in(&pane.screen, place);
            }
        }
    }

    fn draw_pane(&mut self, screen: &Screen, place: Rectangle) {
        for (y, row) in screen.cells.iter().take(place.rows).enumerate() {
            for (x, cell) in row.iter().take(place.columns).enumerate() {
                self.cells[place.y + y][place.x + x] = *cell;
            }
        }
    }

    fn draw_status(&mut self, glass: &Glass) {
        let mut text = String::new();
        for index in 0..glass.windows.len() {
            text += &format!(" {index}{}", if index == glass.current { '*' } else { ' ' });
        }
        let style = Style { reverse: true, ..PLAIN };
        let codes = text.bytes().chain(std::iter::repeat(b' '));
        let last = self.cells.last_mut().expect("a picture has rows");
        for (cell, code) in last.iter_mut().zip(codes) {
            *cell = Cell { code, style };
        }
    }

    /// In how many cells two pictures of one size differ.
    pub fn differing(&self, other: &Picture) -> usize {
        let pairs = self.cells.iter().flatten().zip(other.cells.iter().flatten());
        pairs.filter(|(a, b)| a != b).count()
    }

    /// The rows with the spaces at their ends cut off, and then the line of the cursor.
    pub fn written_out(&self) -> String {
        let mut text = String::new();
        for row in &self.cells {
            let codes: String = row.iter().map(|cell| char::from(cell.code)).collect();
            text += codes.trim_end_matches(' ');
            text.push('\n');
        }
        text + &self.cursor_line() + "\n"
    }

    pub fn cursor_line(&self) -> String {
        match self.cursor {
            Some((row, column)) => format!("cursor {} {}", row + 1, column + 1),
            None => "cursor hidden".to_string(),
        }
    }
}

fn cursor_in(screen: &Screen, place: Rectangle) -> Option<(usize, usize)> {
    let inside = screen.row < place.rows && screen.column < place.columns;
    (screen.visible && inside).then_some((place.y + screen.row, place.x + screen.column))
}
