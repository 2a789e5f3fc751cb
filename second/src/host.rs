//! Carries one machine: lends it memory with guard zones, tells it things, and reads its answers as acts.
use crate::day::{print_said, print_text, Said, MOST_BYTES};
use crate::guarded::{pattern, Guarded};
use crate::machine::*;

#[derive(Clone, PartialEq, Eq, Debug)]
pub enum Act {
    Refused,
    Write(Vec<u8>),
    Say(Said),
    Wait,
}

pub struct Host<'m> {
    machine: &'m mut dyn Machine,
    pub memory: Guarded<u64>,
    out: Guarded<u8>,
    value: Guarded<u64>,
    untouched: Vec<u8>,
}

const NO_VALUE: u64 = u64::MAX;

impl<'m> Host<'m> {
    /// With all numbers of the memory 0, as a machine begins.
    pub fn new(machine: &'m mut dyn Machine) -> Host<'m> {
        Host::with(machine, &vec![0; NUMBERS], ROOM)
    }

    pub fn with(machine: &'m mut dyn Machine, memory: &[u64], room: usize) -> Host<'m> {
        let untouched = pattern(room);
        Host { machine, memory: Guarded::new(memory), out: Guarded::new(&untouched), value: Guarded::new(&[NO_VALUE]), untouched }
    }

    /// One step: its act, or what is wrong with the answer whatever the machine was told.
    pub fn step(&mut self, told: Told) -> Result<Act, String> {
        self.value.middle_mut()[0] = NO_VALUE;
        let case = self.machine.step(self.memory.middle_mut(), told, self.out.middle_mut(), self.value.middle_mut());
        if !(self.memory.is_intact() && self.out.is_intact() && self.value.is_intact()) {
            return Err("memory outside of the rows that were lent was touched".to_string());
        }
        let value = self.value.middle()[0];
        let bytes = self.taken(bytes_of(case, value)?)?;
        act(case, value, bytes)
    }

    /// The answer's bytes; what is behind them must be as it was, and so is all of the row afterwards.
    fn taken(&mut self, count: usize) -> Result<Vec<u8>, String> {
        let row = self.out.middle_mut();
        if count > row.len() {
            return Err(format!("{count} bytes are told, more than the out row has"));
        }
        if row[count..] != self.untouched[count..] {
            return Err("the out row was touched behind the answer's bytes".to_string());
        }
        let bytes = row[..count].to_vec();
        row[..count].copy_from_slice(&self.untouched[..count]);
        Ok(bytes)
    }
}

fn bytes_of(case: u64, value: u64) -> Result<usize, String> {
    match case {
        WRITE if value > MOST_BYTES as u64 => Err(format!("a write of {value} bytes")),
        WRITE => Ok(value as usize),
        SEND => Ok((value % 65_536) as usize),
        _ => Ok(0),
    }
}

fn act(case: u64, value: u64, bytes: Vec<u8>) -> Result<Act, String> {
    let (pane, columns, rows) = (value / 65_536, (value / 256 % 256) as usize, (value % 256) as usize);
    Ok(match case {
        REFUSED if value == 0 || value == NO_VALUE => Act::Refused,
        WRITE => Act::Write(bytes),
        SEND => Act::Say(Said::Send { pane, bytes }),
        START => Act::Say(Said::Start { pane, columns, rows }),
        SIZE => Act::Say(Said::Size { pane, columns, rows }),
        STOP => Act::Say(Said::Stop { pane: value }),
        LEAVE if value == 0 => Act::Say(Said::Leave),
        OVER if value == 0 => Act::Say(Said::Over),
        WAIT if value == 0 => Act::Wait,
        _ => return Err(format!("case {case} with value {value} is no answer")),
    })
}

pub fn print_act(act: &Act) -> String {
    match act {
        Act::Refused => "refused".to_string(),
        Act::Write(bytes) => format!("write {}", print_text(bytes)),
        Act::Say(said) => print_said(said),
        Act::Wait => "wait".to_string(),
    }
}
