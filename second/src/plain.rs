//! The plain machine: a glass, a naive painter and a queue of acts, and at most one fault. It needs no memory but its own.
use crate::day::{Said, Thing, MOST_BYTES};
use crate::faults::Fault;
use crate::glass::Glass;
use crate::known::Known;
use crate::machine::*;
use crate::painter::Painter;
use crate::picture::Picture;
use std::collections::VecDeque;

enum Act {
    Write(Vec<u8>),
    Say(Said),
}

pub struct Plain {
    glass: Glass,
    painter: Painter,
    queue: VecDeque<Act>,
    fault: Option<Fault>,
}

impl Plain {
    pub fn new(known: Known, fault: Option<Fault>) -> Plain {
        Plain { glass: Glass::new(known), painter: Painter::new(fault), queue: VecDeque::new(), fault }
    }

    fn has(&self, fault: Fault) -> bool {
        self.fault == Some(fault)
    }

    fn take(&mut self, thing: &Thing) {
        if let Thing::Look { columns, rows } = thing {
            self.painter.attach(*columns, *rows);
        }
        let said = match self.fault {
            Some(fault) => fault.turn(&mut self.glass, thing),
            None => self.glass.turn(thing),
        };
        self.queue.extend(said.into_iter().map(Act::Say));
        self.paint();
    }

    fn paint(&mut self) {
        if self.glass.windows.is_empty() || !self.glass.attached {
            if self.has(Fault::WrittenWhileNobodyLooks) {
                self.queue.push_back(Act::Write(vec![b'!']));
            }
            return;
        }
        let bytes = self.painter.paint(&Picture::of(&self.glass));
        let longest = if self.has(Fault::WriteTooLong) { ROOM } else { MOST_BYTES };
        self.queue.extend(bytes.chunks(longest).map(|piece| Act::Write(piece.to_vec())));
    }
}

impl Machine for Plain {
    fn step(&mut self, memory: &mut [u64], told: Told, out: &mut [u8], value: &mut [u64]) -> u64 {
        value[0] = 0;
        if memory.len() != NUMBERS || told.kind > GO_ON || out.len() < ROOM {
            return REFUSED;
        }
        if !told.is_proper() {
            return WAIT;
        }
        if let Some(thing) = told.thing() {
            self.take(&thing);
        }
        if self.has(Fault::OutTouchedBehindAnswer) {
            out[ROOM - 1] = 0;
        }
        match self.queue.pop_front() {
            Some(Act::Write(bytes)) => answer_bytes(WRITE, 0, &bytes, out, value),
            Some(Act::Say(said)) => answer_said(&said, out, value),
            None if self.has(Fault::NeverWaits) => answer_bytes(WRITE, 0, &[], out, value),
            None => WAIT,
        }
    }
}

fn answer_bytes(case: u64, pane: u64, bytes: &[u8], out: &mut [u8], value: &mut [u64]) -> u64 {
    out[..bytes.len()].copy_from_slice(bytes);
    value[0] = 65_536 * pane + bytes.len() as u64;
    case
}

fn answer_said(said: &Said, out: &mut [u8], value: &mut [u64]) -> u64 {
    let sized = |pane: u64, columns: usize, rows: usize| 65_536 * pane + 256 * columns as u64 + rows as u64;
    let (case, number) = match said {
        Said::Send { pane, bytes } => return answer_bytes(SEND, *pane, bytes, out, value),
        Said::Start { pane, columns, rows } => (START, sized(*pane, *columns, *rows)),
        Said::Size { pane, columns, rows } => (SIZE, sized(*pane, *columns, *rows)),
        Said::Stop { pane } => (STOP, *pane),
        Said::Leave => (LEAVE, 0),
        Said::Over => (OVER, 0),
    };
    value[0] = number;
    case
}
