//! Garbage in: memories that no machine has made and numbers that nothing means. A machine must answer, and touch nothing that it should not.
use crate::day::Thing;
use crate::host::{print_act, Act, Host};
use crate::known::TODAY;
use crate::machine::*;
use crate::make_day::make_day;
use crate::random::Random;

/// Parts of the memory where a wrong number does most: headers of the machine and of its panes, the viewer's cells, the panes' cells.
const PARTS: [(usize, usize); 6] = [(0, 16), (0, 256), (256, 320), (256, 2_304), (2_304, 2_700), (38_304, 38_700)];
const TELLS: usize = 8;

/// What a machine is told, with its bytes.
#[derive(Debug)]
struct Tell {
    kind: u64,
    a: u64,
    b: u64,
    bytes: Vec<u8>,
}

impl Tell {
    fn told(&self) -> Told<'_> {
        Told { kind: self.kind, a: self.a, b: self.b, bytes: &self.bytes }
    }
}

/// One row of garbage on memories of the right length, and one on rows of the wrong one.
pub fn check_garbage(machine: &mut dyn Machine, seed: u64) -> Result<(), String> {
    let mut random = Random::new(seed ^ 0x0067_6172_6261_6765);
    let memory = match random.below(3) {
        0 => random_memory(&mut random),
        _ => spoilt_memory(machine, &mut random)?,
    };
    let mut host = Host::with(machine, &memory, ROOM);
    for _ in 0..TELLS {
        let tell = random_tell(&mut random);
        poke(&mut host, &tell, true).map_err(|what| describe(&tell, &what))?;
        for _ in 0..random.below(4) {
            let tell = Tell { kind: GO_ON, a: random.number(), b: 0, bytes: Vec::new() };
            poke(&mut host, &tell, true).map_err(|what| describe(&tell, &what))?;
        }
    }
    check_wrong_rows(machine, &memory, &mut random)
}

fn describe(tell: &Tell, what: &str) -> String {
    format!("{what}; told kind {}, a {}, b {}, {} bytes", tell.kind, tell.a, tell.b, tell.bytes.len())
}

/// A memory or an out row of another length is refused, whatever is told.
fn check_wrong_rows(machine: &mut dyn Machine, memory: &[u64], random: &mut Random) -> Result<(), String> {
    let longer = [memory, &[1, 2, 3]].concat();
    let lengths = [0, 1, random.below(NUMBERS), NUMBERS - 1, NUMBERS + 1, NUMBERS + 3];
    let length = *random.pick(&lengths);
    let rooms = [0, 1, random.below(ROOM), ROOM - 1];
    let room = *random.pick(&rooms);
    for (memory, room) in [(&longer[..length], ROOM), (memory, room), (&longer[..length], room)] {
        let tell = random_tell(random);
        let mut host = Host::with(machine, memory, room);
        let rows = format!("; with {} numbers and {room} bytes of room", memory.len());
        poke(&mut host, &tell, false).map_err(|what| describe(&tell, &what) + &rows)?;
    }
    Ok(())
}

/// One step; whether it had to be refused or to wait is known from what was told.
fn poke(host: &mut Host, tell: &Tell, fits: bool) -> Result<(), String> {
    let before = host.memory.middle().to_vec();
    let act = host.step(tell.told())?;
    let refuse = !fits || tell.kind > GO_ON;
    if refuse != (act == Act::Refused) {
        return Err(format!("answered by {}", print_act(&act)));
    }
    let improper = !tell.told().is_proper();
    if improper && !refuse && act != Act::Wait {
        return Err(format!("what may not come is answered by {}", print_act(&act)));
    }
    if (refuse || improper) && host.memory.middle() != before {
        return Err("memory was changed".to_string());
    }
    Ok(())
}

fn random_memory(random: &mut Random) -> Vec<u64> {
    match random.below(3) {
        0 => (0..NUMBERS).map(|_| random.number()).collect(),
        1 => (0..NUMBERS).map(|_| random.number() % 64).collect(),
        _ => (0..NUMBERS).map(|_| if random.chance(1) { random_number(random) } else { 0 }).collect(),
    }
}

/// The memory of a machine at work, stopped anywhere on a day, and then changed in some numbers.
fn spoilt_memory(machine: &mut dyn Machine, random: &mut Random) -> Result<Vec<u64>, String> {
    let mut memory = memory_at_work(machine, random)?;
    for _ in 0..random.below(6) {
        let (first, end) = *random.pick(&PARTS);
        let at = random.between(first, end - 1);
        memory[at] = spoilt_number(memory[at], random);
    }
    Ok(memory)
}

/// After some steps of a random day on which no program ends, so that there is something in it.
fn memory_at_work(machine: &mut dyn Machine, random: &mut Random) -> Result<Vec<u64>, String> {
    let mut host = Host::new(machine);
    let mut steps = random.between(0, 120);
    let day = make_day(random.number(), TODAY);
    for thing in day.iter().filter(|thing| !matches!(thing, Thing::Gone { .. })) {
        let mut told = Told::of(thing);
        while steps > 0 {
            steps -= 1;
            if host.step(told)? == Act::Wait {
                break;
            }
            told = Told::GO_ON;
        }
    }
    Ok(host.memory.middle().to_vec())
}

fn spoilt_number(number: u64, random: &mut Random) -> u64 {
    match random.below(4) {
        0 => number ^ 1 << random.below(64),
        1 => number.wrapping_add(1),
        2 => number.wrapping_sub(1),
        _ => random_number(random),
    }
}

/// Small, at an edge, or anything.
fn random_number(random: &mut Random) -> u64 {
    match random.below(6) {
        0 => random.number() % 4,
        1 => random.number() % 64,
        2 => random.number() % 300,
        3 => (1 << random.below(64)) - 1,
        4 => 1 << random.below(64),
        _ => random.number(),
    }
}

fn random_tell(random: &mut Random) -> Tell {
    let kind = if random.chance(95) { random.number() % 5 } else { 5 + random_number(random) % (u64::MAX - 5) };
    let (a, b) = match kind {
        FROM | GONE if random.chance(70) => (1, random_number(random)),
        LOOK if random.chance(60) => (random.between(1, 200) as u64, random.between(2, 60) as u64),
        _ => (random_number(random), random_number(random)),
    };
    Tell { kind, a, b, bytes: random_bytes(random) }
}

fn random_bytes(random: &mut Random) -> Vec<u8> {
    let length = *random.pick(&[0, 1, 5, 60, 300, 4_095, 4_096, 4_097, 5_000]);
    if random.chance(50) {
        return (0..length).map(|_| random.byte()).collect();
    }
    let mut bytes = crate::make_bytes::burst(random, 80, 24, length);
    bytes.truncate(length);
    bytes
}
