//! Layouts of a window: which pane has which rectangle, and where the lines between them are.

#[derive(Clone, Copy, PartialEq, Eq, Debug)]
pub struct Rectangle {
    pub x: usize,
    pub y: usize,
    pub columns: usize,
    pub rows: usize,
}

#[derive(Clone, Copy, PartialEq, Eq, Debug)]
pub enum Split {
    Beside,
    Above,
}

#[derive(Clone, PartialEq, Eq, Debug)]
pub enum Layout {
    Pane(u64),
    Two(Split, Box<Layout>, Box<Layout>),
}

impl Rectangle {
    /// First part, line, second part.
    fn parts(self, split: Split) -> (Rectangle, Rectangle, Rectangle) {
        let Rectangle { x, y, columns, rows } = self;
        match split {
            Split::Beside => {
                let (a, line, b) = divided(columns);
                let part = |from, columns| Rectangle { x: x + from, columns, ..self };
                (part(0, a), part(a, line), part(a + 1, b))
            }
            Split::Above => {
                let (a, line, b) = divided(rows);
                let part = |from, rows| Rectangle { y: y + from, rows, ..self };
                (part(0, a), part(a, line), part(a + 1, b))
            }
        }
    }
}

/// How much of a length the first part, the line and the second part have.
fn divided(length: usize) -> (usize, usize, usize) {
    let rest = length.saturating_sub(1);
    (rest / 2, length.min(1), rest - rest / 2)
}

impl Layout {
    /// Each pane with its rectangle, in order of place.
    pub fn places(&self, rectangle: Rectangle) -> Vec<(u64, Rectangle)> {
        match self {
            Layout::Pane(pane) => vec![(*pane, rectangle)],
            Layout::Two(split, first, second) => {
                let (a, _, b) = rectangle.parts(*split);
                let mut places = first.places(a);
                places.extend(second.places(b));
                places
            }
        }
    }

    /// The lines, each split's own before those of its parts.
    pub fn lines(&self, rectangle: Rectangle) -> Vec<(Split, Rectangle)> {
        match self {
            Layout::Pane(_) => Vec::new(),
            Layout::Two(split, first, second) => {
                let (a, line, b) = rectangle.parts(*split);
                let mut lines = vec![(*split, line)];
                lines.extend(first.lines(a));
                lines.extend(second.lines(b));
                lines
            }
        }
    }

    pub fn panes(&self) -> Vec<u64> {
        match self {
            Layout::Pane(pane) => vec![*pane],
            Layout::Two(_, first, second) => [first.panes(), second.panes()].concat(),
        }
    }

    /// The pane becomes two parts: itself, and then the new one.
    pub fn split(&mut self, pane: u64, split: Split, new: u64) {
        match self {
            Layout::Pane(number) if *number == pane => {
                *self = Layout::Two(split, Box::new(Layout::Pane(pane)), Box::new(Layout::Pane(new)));
            }
            Layout::Pane(_) => {}
            Layout::Two(_, first, second) => {
                first.split(pane, split, new);
                second.split(pane, split, new);
            }
        }
    }

    /// What is left without this pane; a part that goes leaves its room to the other.
    pub fn without(self, pane: u64) -> Option<Layout> {
        match self {
            Layout::Pane(number) => (number != pane).then_some(Layout::Pane(number)),
            Layout::Two(split, first, second) => match (first.without(pane), second.without(pane)) {
                (Some(first), Some(second)) => Some(Layout::Two(split, Box::new(first), Box::new(second))),
                (first, second) => first.or(second),
            },
        }
    }
}
