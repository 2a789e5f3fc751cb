//! Runs a machine through a day beside the second plain glass, and compares after every thing that comes.
use crate::cell::Cell;
use crate::day::{print_said, Said, Thing};
use crate::glass::Glass;
use crate::host::{Act, Host};
use crate::known::Known;
use crate::machine::{Machine, Told};
use crate::picture::Picture;
use crate::screen::Screen;

/// A machine that doesn't wait after so many steps is taken never to.
const MOST_STEPS: usize = 20_000;
const BYTES_ALWAYS: usize = 64;
const BYTES_A_CELL: usize = 32;

/// What was wrong, after which thing (counted from 1), and both screens then.
#[derive(Clone, Debug)]
pub struct Difference {
    pub thing: usize,
    pub what: String,
    pub wanted: String,
    pub found: String,
}

/// A day as far as it has come.
pub struct Trial<'m> {
    host: Host<'m>,
    glass: Glass,
    viewer: Screen,
    pub things: usize,
    pub bytes_sent: usize,
    pub bytes_granted: usize,
    pub said: Vec<Said>,
    pub is_over: bool,
}

/// The first difference on this day, if there is one.
pub fn difference(machine: &mut dyn Machine, known: Known, day: &[Thing]) -> Option<Difference> {
    let mut trial = Trial::new(machine, known);
    for thing in day {
        if let Err(difference) = trial.comes(thing) {
            return Some(difference);
        }
        if trial.is_over {
            return None;
        }
    }
    None
}

impl<'m> Trial<'m> {
    pub fn new(machine: &'m mut dyn Machine, known: Known) -> Trial<'m> {
        Trial {
            host: Host::new(machine),
            glass: Glass::new(known),
            viewer: Screen::new(1, 1),
            things: 0,
            bytes_sent: 0,
            bytes_granted: 0,
            said: Vec::new(),
            is_over: false,
        }
    }

    /// One thing comes, and all that is promised of it is compared.
    pub fn comes(&mut self, thing: &Thing) -> Result<(), Difference> {
        self.things += 1;
        self.check(thing).map_err(|what| Difference {
            thing: self.things,
            what,
            wanted: Picture::of(&self.glass).written_out(),
            found: Picture::on(&self.viewer).written_out(),
        })
    }

    pub fn screen(&self) -> Picture {
        Picture::on(&self.viewer)
    }

    fn check(&mut self, thing: &Thing) -> Result<(), String> {
        if let Thing::Look { columns, rows } = thing {
            self.viewer = Screen::new(*columns, *rows);
        }
        let before = Picture::on(&self.viewer);
        let wanted = self.glass.turn(thing);
        self.is_over = wanted.contains(&Said::Over);
        self.said.clear();
        let bytes = self.run(thing)?;
        compare_said(&wanted, &self.said)?;
        self.compare_bytes(&before, bytes)?;
        self.compare_screen()
    }

    /// Told this thing, and then to go on until it waits; how many bytes it wrote.
    fn run(&mut self, thing: &Thing) -> Result<usize, String> {
        let mut bytes = 0;
        let mut told = Told::of(thing);
        for _ in 0..MOST_STEPS {
            match self.host.step(told)? {
                Act::Refused => return Err("the machine refuses".to_string()),
                Act::Write(_) if !self.glass.attached => return Err("written while nobody looks".to_string()),
                Act::Write(piece) => {
                    self.viewer.write(&piece);
                    bytes += piece.len();
                }
                Act::Say(said) => self.said.push(said),
                Act::Wait => return Ok(bytes),
            }
            told = Told::GO_ON;
        }
        Err(format!("no wait within {MOST_STEPS} steps"))
    }

    fn shows(&self) -> bool {
        self.glass.attached && !self.glass.windows.is_empty()
    }

    fn compare_bytes(&mut self, before: &Picture, bytes: usize) -> Result<(), String> {
        let granted = if self.shows() {
            BYTES_ALWAYS + BYTES_A_CELL * before.differing(&Picture::of(&self.glass))
        } else if self.glass.attached {
            BYTES_ALWAYS
        } else {
            0
        };
        self.bytes_sent += bytes;
        self.bytes_granted += granted;
        if bytes > granted {
            return Err(format!("{bytes} bytes written where {granted} are granted"));
        }
        Ok(())
    }

    fn compare_screen(&self) -> Result<(), String> {
        if !self.shows() {
            return Ok(());
        }
        let (wanted, found) = (Picture::of(&self.glass), Picture::on(&self.viewer));
        for (row, (wanted, found)) in wanted.cells.iter().zip(&found.cells).enumerate() {
            if let Some(column) = (0..wanted.len()).find(|&column| wanted[column] != found[column]) {
                let (wanted, found) = (print_cell(wanted[column]), print_cell(found[column]));
                return Err(format!("the cell in row {}, column {} is {found} instead of {wanted}", row + 1, column + 1));
            }
        }
        if wanted.cursor != found.cursor {
            return Err(format!("`{}` instead of `{}`", found.cursor_line(), wanted.cursor_line()));
        }
        Ok(())
    }
}

fn compare_said(wanted: &[Said], found: &[Said]) -> Result<(), String> {
    if wanted == found {
        return Ok(());
    }
    let list = |said: &[Said]| said.iter().map(print_said).collect::<Vec<_>>().join(", ");
    Err(format!("said: [{}] instead of [{}]", list(found), list(wanted)))
}

fn print_cell(cell: Cell) -> String {
    let style = cell.style;
    let colour = |colour: Option<u8>| colour.map_or("default".to_string(), |colour| colour.to_string());
    let mut text = format!("'{}'", char::from(cell.code));
    for (on, name) in [(style.bold, "bold"), (style.underlined, "underlined"), (style.reverse, "reverse")] {
        if on {
            text += &format!(" {name}");
        }
    }
    text + &format!(" {} on {}", colour(style.foreground), colour(style.background))
}
