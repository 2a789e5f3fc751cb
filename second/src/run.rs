//! The commands: seeds of the gate, soaking, one seed, a day from a file, and the table of faults.
use crate::check::{difference, Difference, Trial};
use crate::day::{print_day, read_day, Line, Thing};
use crate::faults::{self, Fault};
use crate::garbage::check_garbage;
use crate::known::{Known, CORE, EVERYTHING};
use crate::make_day::make_day;
use crate::options::{Command, Options};
use crate::plain::Plain;
use crate::shrink::shrink;
use std::time::{Duration, Instant, SystemTime};

/// Every so manieth seed has garbage too.
const GARBAGE_EVERY: u64 = 4;

/// Whether nothing differed.
pub fn run(options: &Options) -> bool {
    match &options.command {
        Command::Gate => gate(options),
        Command::Soak => soak(options),
        Command::Seed(seed) => one_seed(options, *seed),
        Command::Show(seed) => {
            print!("{}", print_day(&make_day(*seed, options.known)));
            true
        }
        Command::Play(file) => play(options, file),
        Command::Faults => print_faults(options),
    }
}

/// Counts of what has been tried, and the line that tells of them.
struct Progress {
    begun: Instant,
    told: Instant,
    days: u64,
    things: usize,
}

impl Progress {
    fn new() -> Progress {
        Progress { begun: Instant::now(), told: Instant::now(), days: 0, things: 0 }
    }

    fn tell_sometimes(&mut self, seed: u64) {
        if self.told.elapsed() >= Duration::from_secs(5) {
            self.told = Instant::now();
            eprintln!("{} (at seed {seed})", self.line());
        }
    }

    fn line(&self) -> String {
        format!("{} days, {} things in {:.1} s: nothing differs", self.days, self.things, self.begun.elapsed().as_secs_f64())
    }
}

fn gate(options: &Options) -> bool {
    let first = options.from.unwrap_or(0);
    let mut progress = Progress::new();
    let good = (first..first + options.seeds).all(|seed| try_seed(options, seed, seed % GARBAGE_EVERY == 0, &mut progress));
    if good {
        println!("{}, {}: {}", options.machine_name(), options.known.name, progress.line());
    }
    good
}

/// From a seed of the clock's on, if none is named, so that every time other days are tried.
fn soak(options: &Options) -> bool {
    let clock = || SystemTime::now().duration_since(SystemTime::UNIX_EPOCH).map_or(0, |time| time.as_secs() << 24);
    let first = options.from.unwrap_or_else(clock);
    let mut progress = Progress::new();
    (first..).all(|seed| try_seed(options, seed, seed % GARBAGE_EVERY == 0, &mut progress))
}

fn one_seed(options: &Options, seed: u64) -> bool {
    let mut progress = Progress::new();
    let good = try_seed(options, seed, true, &mut progress);
    if good {
        println!("seed {seed}, {}, {}: {}", options.machine_name(), options.known.name, progress.line());
    }
    good
}

fn try_seed(options: &Options, seed: u64, garbage: bool, progress: &mut Progress) -> bool {
    progress.tell_sometimes(seed);
    if options.trace {
        eprintln!("seed {seed}");
    }
    let day = make_day(seed, options.known);
    progress.days += 1;
    progress.things += day.len();
    if let Some(found) = differs_on(options, &day) {
        println!("seed {seed}, {}, keys: {}", options.machine_name(), options.known.name);
        report(options, &day[..found.thing]);
        return false;
    }
    if let Err(what) = if garbage { check_garbage(&mut *options.machine(), seed) } else { Ok(()) } {
        println!("seed {seed}, {}, garbage: {what}", options.machine_name());
        return false;
    }
    true
}

fn differs_on(options: &Options, day: &[Thing]) -> Option<Difference> {
    difference(&mut *options.machine(), options.known, day)
}

/// The shortest day that still differs, what differs on it, and both screens. This day ends with the thing after which something differs.
fn report(options: &Options, day: &[Thing]) {
    let day = shrink(day, &mut |day| differs_on(options, day).is_some());
    let Some(difference) = differs_on(options, &day) else { return };
    print!("\nthe shortest day found:\n{}", print_day(&day));
    print_difference(&difference);
}

fn print_difference(difference: &Difference) {
    println!("\nafter thing {}: {}", difference.thing, difference.what);
    print!("\nthe picture of the second glass:\n{}", difference.wanted);
    print!("\nthe viewer's screen:\n{}", difference.found);
}

fn play(options: &Options, file: &str) -> bool {
    let read = std::fs::read(file).map_err(|error| format!("{file}: {error}"));
    match read.and_then(|text| read_day(&text)) {
        Ok(day) => play_day(options, &day),
        Err(wrong) => {
            eprintln!("{wrong}");
            false
        }
    }
}

fn play_day(options: &Options, day: &[Line]) -> bool {
    let mut machine = options.machine();
    let mut trial = Trial::new(&mut *machine, options.known);
    for line in day {
        match line {
            _ if trial.is_over => break,
            Line::Show => print!("{}", trial.screen().written_out()),
            Line::Comes(thing) => {
                if let Err(difference) = trial.comes(thing) {
                    print_difference(&difference);
                    return false;
                }
            }
        }
    }
    println!("{} things, {} bytes sent, {} granted", trial.things, trial.bytes_sent, trial.bytes_granted);
    true
}

/// The first of the gate's seeds on which a plain machine with this fault differs, and what differs.
pub fn found_by(fault: Fault, known: Known, seeds: u64) -> Option<(u64, String)> {
    (0..seeds).find_map(|seed| {
        let mut machine = Plain::new(known, Some(fault));
        difference(&mut machine, known, &make_day(seed, known)).map(|found| (seed, found.what))
    })
}

fn print_faults(options: &Options) -> bool {
    println!("| Fault | First seed, core | First seed, everything | What differs |\n|---|---|---|---|");
    let mut all = true;
    for fault in faults::ALL {
        let in_core = found_by(fault, CORE, options.seeds);
        let found = found_by(fault, EVERYTHING, options.seeds);
        all &= found.is_some();
        let seed = |found: &Option<(u64, String)>| found.as_ref().map_or("–".to_string(), |(seed, _)| seed.to_string());
        println!("| `{}` | {} | {} | {} |", fault.name(), seed(&in_core), seed(&found), found.map_or(String::new(), |(_, what)| what));
    }
    all
}
