//! What a machine under test is: one step over memory that is lent to it, by the numbers of the C entry.
use crate::day::{Thing, MOST_BYTES, MOST_COLUMNS, MOST_ROWS};

/// How many numbers the memory has.
pub const NUMBERS: usize = 238_304;
/// How many bytes the out row has.
pub const ROOM: usize = 65_536;

pub const REFUSED: u64 = 0;
pub const WRITE: u64 = 1;
pub const SEND: u64 = 2;
pub const START: u64 = 3;
pub const SIZE: u64 = 4;
pub const STOP: u64 = 5;
pub const LEAVE: u64 = 6;
pub const OVER: u64 = 7;
pub const WAIT: u64 = 8;

pub const KEY: u64 = 0;
pub const FROM: u64 = 1;
pub const GONE: u64 = 2;
pub const LOOK: u64 = 3;
pub const GO_ON: u64 = 4;

/// What a machine is told, as numbers.
#[derive(Clone, Copy, Debug)]
pub struct Told<'a> {
    pub kind: u64,
    pub a: u64,
    pub b: u64,
    pub bytes: &'a [u8],
}

pub trait Machine {
    /// One step. It answers one of the cases above, and the case's number in `value`.
    fn step(&mut self, memory: &mut [u64], told: Told, out: &mut [u8], value: &mut [u64]) -> u64;
}

impl Told<'_> {
    pub const GO_ON: Told<'static> = Told { kind: GO_ON, a: 0, b: 0, bytes: &[] };

    pub fn of(thing: &Thing) -> Told<'_> {
        match thing {
            Thing::Key(key) => Told { kind: KEY, a: u64::from(*key), b: 0, bytes: &[] },
            Thing::From { pane, bytes } => Told { kind: FROM, a: *pane, b: 0, bytes },
            Thing::Gone { pane } => Told { kind: GONE, a: *pane, b: 0, bytes: &[] },
            Thing::Look { columns, rows } => Told { kind: LOOK, a: *columns as u64, b: *rows as u64, bytes: &[] },
        }
    }

    /// Whether this is something that may come: a machine waits at what isn't, and keeps its memory.
    pub fn is_proper(&self) -> bool {
        match self.kind {
            KEY => self.a < 256,
            FROM => self.bytes.len() <= MOST_BYTES,
            LOOK => (1..=MOST_COLUMNS as u64).contains(&self.a) && (2..=MOST_ROWS as u64).contains(&self.b),
            _ => true,
        }
    }

    /// The thing that comes, or nothing for going on and for what may not come.
    pub fn thing(&self) -> Option<Thing> {
        if !self.is_proper() {
            return None;
        }
        match self.kind {
            KEY => Some(Thing::Key(self.a as u8)),
            FROM => Some(Thing::From { pane: self.a, bytes: self.bytes.to_vec() }),
            GONE => Some(Thing::Gone { pane: self.a }),
            LOOK => Some(Thing::Look { columns: self.a as usize, rows: self.b as usize }),
            _ => None,
        }
    }
}
