//! The words of the command line.
use crate::faults::Fault;
use crate::known::{self, Known};
use crate::machine::Machine;
use crate::plain::Plain;

pub const USAGE: &str = "\
usage: second COMMAND [OPTIONS]
  gate         the fixed seeds: a random day for each, and garbage for some
  soak         seed after seed until stopped, with a progress line
  seed N       the day of this seed, and its garbage
  show N       prints the day of this seed
  play FILE    a day from a file: the screen at each `show`, and how many bytes were sent and granted
  faults       for each fault of the plain machine the first of the gate's seeds that finds it
options
  --machine proved|plain   the machine under test (proved, if it is linked)
  --known core|leave|windows|everything   which keys after the prefix do something (core)
  --fault NAME             a fault of the plain machine; `faults` lists them
  --seeds N                how many seeds the gate has
  --from N                 the first seed
  --trace on|off           says each seed before it is tried, to find one on which the program crashes (off)
status: 0 nothing differs, 1 something does or a day cannot be read, 2 the command line is wrong";

/// Whether the proved machine is linked.
pub const LINKED: bool = cfg!(feature = "proved");
/// Seeds of the gate.
pub const SEEDS: u64 = 4_000;

#[derive(Clone, PartialEq, Eq, Debug)]
pub enum Command {
    Gate,
    Soak,
    Seed(u64),
    Show(u64),
    Play(String),
    Faults,
}

#[derive(Clone, Debug)]
pub struct Options {
    pub command: Command,
    pub proved: bool,
    pub known: Known,
    pub fault: Option<Fault>,
    pub seeds: u64,
    pub from: Option<u64>,
    pub trace: bool,
}

impl Options {
    pub fn read(words: &[String]) -> Result<Options, String> {
        let mut words = words.iter().map(String::as_str);
        let command = read_command(&mut words)?;
        let mut options = Options { command, proved: LINKED, known: known::TODAY, fault: None, seeds: SEEDS, from: None, trace: false };
        while let Some(word) = words.next() {
            options.set(word, words.next().ok_or(format!("{word} needs a value"))?)?;
        }
        if options.proved && options.fault.is_some() {
            return Err("only the plain machine has faults: --machine plain".to_string());
        }
        Ok(options)
    }

    fn set(&mut self, option: &str, value: &str) -> Result<(), String> {
        match option {
            "--machine" => self.proved = read_machine(value)?,
            "--known" => self.known = Known::named(value).ok_or(format!("no set of keys is called {value}"))?,
            "--fault" => self.fault = Some(Fault::named(value).ok_or(format!("no fault is called {value}"))?),
            "--seeds" => self.seeds = read_number(value)?,
            "--from" => self.from = Some(read_number(value)?),
            "--trace" => self.trace = read_switch(value)?,
            _ => return Err(format!("unknown option {option}")),
        }
        Ok(())
    }

    /// A new machine, as it begins.
    pub fn machine(&self) -> Box<dyn Machine> {
        #[cfg(feature = "proved")]
        if self.proved {
            return Box::new(crate::proved::Proved);
        }
        Box::new(Plain::new(self.known, self.fault))
    }

    pub fn machine_name(&self) -> String {
        match self.fault {
            _ if self.proved => "proved machine".to_string(),
            Some(fault) => format!("plain machine with {}", fault.name()),
            None => "plain machine".to_string(),
        }
    }
}

fn read_command<'a>(words: &mut impl Iterator<Item = &'a str>) -> Result<Command, String> {
    let name = words.next().ok_or("no command")?;
    let mut operand = || words.next().ok_or(format!("{name} needs one more word"));
    Ok(match name {
        "gate" => Command::Gate,
        "soak" => Command::Soak,
        "seed" => Command::Seed(read_number(operand()?)?),
        "show" => Command::Show(read_number(operand()?)?),
        "play" => Command::Play(operand()?.to_string()),
        "faults" => Command::Faults,
        _ => return Err(format!("unknown command {name}")),
    })
}

fn read_number(word: &str) -> Result<u64, String> {
    word.parse().map_err(|_| format!("{word} is no number"))
}

fn read_switch(value: &str) -> Result<bool, String> {
    match value {
        "on" => Ok(true),
        "off" => Ok(false),
        _ => Err(format!("{value} is neither on nor off")),
    }
}

fn read_machine(name: &str) -> Result<bool, String> {
    match name {
        "plain" => Ok(false),
        "proved" if LINKED => Ok(true),
        "proved" => Err("the proved machine is not linked: build with --features proved".to_string()),
        _ => Err(format!("no machine is called {name}")),
    }
}
