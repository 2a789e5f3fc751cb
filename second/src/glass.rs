//! The second plain glass: windows, panes and what is said for each thing that comes.
use crate::day::{Said, Thing};
use crate::known::Known;
use crate::layout::{Layout, Rectangle, Split};
use crate::screen::Screen;

pub const PREFIX: u8 = 1;
const MOST_WINDOWS: usize = 8;
const MOST_PANES: usize = 32;

#[derive(Clone, Debug)]
pub struct Window {
    pub layout: Layout,
    pub focus: u64,
}

#[derive(Clone, Debug)]
pub struct Pane {
    pub number: u64,
    pub screen: Screen,
}

#[derive(Clone, Debug)]
pub struct Glass {
    known: Known,
    pub columns: usize,
    pub rows: usize,
    pub attached: bool,
    pub windows: Vec<Window>,
    pub current: usize,
    pub panes: Vec<Pane>,
    next: u64,
    pub prefix: bool,
}

impl Glass {
    pub fn new(known: Known) -> Glass {
        Glass { known, columns: 1, rows: 1, attached: false, windows: Vec::new(), current: 0, panes: Vec::new(), next: 1, prefix: false }
    }

    /// One thing comes; what is said, in order.
    pub fn turn(&mut self, thing: &Thing) -> Vec<Said> {
        let mut said = Vec::new();
        match thing {
            Thing::Look { columns, rows } => self.attach(*columns, *rows, &mut said),
            Thing::Key(key) => self.key(*key, &mut said),
            Thing::From { pane, bytes } => self.output(*pane, bytes, &mut said),
            Thing::Gone { pane } => self.end(*pane, &mut said),
        }
        said
    }

    pub fn pane(&self, number: u64) -> Option<&Pane> {
        self.panes.iter().find(|pane| pane.number == number)
    }

    pub fn pane_mut(&mut self, number: u64) -> Option<&mut Pane> {
        self.panes.iter_mut().find(|pane| pane.number == number)
    }

    pub fn current_window(&self) -> Option<&Window> {
        self.windows.get(self.current)
    }

    pub fn focus(&self) -> Option<u64> {
        self.current_window().map(|window| window.focus)
    }

    /// The rectangle of every window: all rows but the last.
    pub fn room(&self) -> Rectangle {
        Rectangle { x: 0, y: 0, columns: self.columns, rows: self.rows - 1 }
    }

    fn attach(&mut self, columns: usize, rows: usize, said: &mut Vec<Said>) {
        self.columns = columns;
        self.rows = rows;
        self.attached = true;
        self.prefix = false;
        if self.windows.is_empty() {
            self.open_window(said);
        } else {
            self.settle(said);
        }
    }

    fn output(&mut self, number: u64, bytes: &[u8], said: &mut Vec<Said>) {
        let Some(pane) = self.pane_mut(number) else { return };
        pane.screen.write(bytes);
        let reports = std::mem::take(&mut pane.screen.reports);
        if !reports.is_empty() {
            said.push(Said::Send { pane: number, bytes: reports });
        }
    }

    /// With somebody attached there is a window, unless all is over; and nothing is promised of keys after that.
    fn key(&mut self, key: u8, said: &mut Vec<Said>) {
        if !self.attached || self.windows.is_empty() {
            return;
        }
        if self.prefix {
            self.prefix = false;
            self.command(key, said);
        } else if key == PREFIX {
            self.prefix = true;
        } else {
            self.send_key(key, said);
        }
    }

    fn send_key(&mut self, key: u8, said: &mut Vec<Said>) {
        said.extend(self.focus().map(|pane| Said::Send { pane, bytes: vec![key] }));
    }

    fn command(&mut self, key: u8, said: &mut Vec<Said>) {
        match key {
            PREFIX => self.send_key(PREFIX, said),
            _ if !self.known.has(key) => {}
            b'c' if self.windows.len() < MOST_WINDOWS && self.panes.len() < MOST_PANES => self.open_window(said),
            b'n' => self.current = (self.current + 1) % self.windows.len(),
            b'p' => self.current = (self.current + self.windows.len() - 1) % self.windows.len(),
            b'|' => self.split(Split::Beside, said),
            b'-' => self.split(Split::Above, said),
            b'o' => self.focus_next(),
            b'x' => said.extend(self.focus().map(|pane| Said::Stop { pane })),
            b'd' => {
                self.attached = false;
                said.push(Said::Leave);
            }
            _ => {}
        }
    }

    fn open_window(&mut self, said: &mut Vec<Said>) {
        self.windows.push(Window { layout: Layout::Pane(self.next), focus: self.next });
        self.current = self.windows.len() - 1;
        self.start_pane(said);
    }

    /// The next pane, which has its place in the current window's layout already.
    fn start_pane(&mut self, said: &mut Vec<Said>) {
        let number = self.next;
        self.next += 1;
        let place = self.place_in(self.current, number).expect("a new pane has a place");
        let (columns, rows) = (place.columns.max(1), place.rows.max(1));
        self.panes.push(Pane { number, screen: Screen::new(columns, rows) });
        said.push(Said::Start { pane: number, columns, rows });
        self.settle(said);
    }

    fn place_in(&self, window: usize, pane: u64) -> Option<Rectangle> {
        let places = self.windows[window].layout.places(self.room());
        places.into_iter().find(|(number, _)| *number == pane).map(|(_, place)| place)
    }

    fn split(&mut self, split: Split, said: &mut Vec<Said>) {
        let Some(focus) = self.focus() else { return };
        let Some(place) = self.place_in(self.current, focus) else { return };
        let length = if split == Split::Beside { place.columns } else { place.rows };
        if length < 3 || self.panes.len() >= MOST_PANES {
            return;
        }
        let new = self.next;
        let window = &mut self.windows[self.current];
        window.layout.split(focus, split, new);
        window.focus = new;
        self.start_pane(said);
    }

    fn focus_next(&mut self) {
        let window = &mut self.windows[self.current];
        let panes = window.layout.panes();
        let at = panes.iter().position(|&pane| pane == window.focus).unwrap_or(0);
        window.focus = panes[(at + 1) % panes.len()];
    }

    fn settle(&mut self, said: &mut Vec<Said>) {
        let room = self.room();
        let places: Vec<_> = self.windows.iter().flat_map(|window| window.layout.places(room)).collect();
        for (number, place) in places {
            let (columns, rows) = (place.columns.max(1), place.rows.max(1));
            let Some(pane) = self.pane_mut(number) else { continue };
            if (pane.screen.columns(), pane.screen.rows()) != (columns, rows) {
                pane.screen.resize(columns, rows);
                said.push(Said::Size { pane: number, columns, rows });
            }
        }
    }

    fn end(&mut self, number: u64, said: &mut Vec<Said>) {
        if self.pane(number).is_none() {
            return;
        }
        self.panes.retain(|pane| pane.number != number);
        let holds = |window: &Window| window.layout.panes().contains(&number);
        let at = self.windows.iter().position(holds).expect("every pane stands in a window");
        self.leave_window(at, number);
        if self.windows.is_empty() {
            said.push(Said::Over);
        } else {
            self.settle(said);
        }
    }

    /// The pane goes out of this window's layout, and the window goes if it was the last there.
    fn leave_window(&mut self, at: usize, number: u64) {
        let Some(layout) = self.windows[at].layout.clone().without(number) else {
            self.close_window(at);
            return;
        };
        let window = &mut self.windows[at];
        if window.focus == number {
            window.focus = layout.panes()[0];
        }
        window.layout = layout;
    }

    fn close_window(&mut self, at: usize) {
        self.windows.remove(at);
        if at < self.current {
            self.current -= 1;
        }
        self.current = self.current.min(self.windows.len().saturating_sub(1));
    }
}
