//! A machine that does what it should not with garbage is found, and one that doesn't is not.
use second::garbage::check_garbage;
use second::known::EVERYTHING;
use second::machine::*;
use second::plain::Plain;

/// A plain machine of which each answer can be bent.
struct Bent {
    plain: Plain,
    bend: Bend,
}

/// Is given what was told, the memory, the out row, the value and the case, and gives the case that is answered.
type Bend = fn(&Told, &mut [u64], &mut [u8], &mut [u64], u64) -> u64;

impl Machine for Bent {
    fn step(&mut self, memory: &mut [u64], told: Told, out: &mut [u8], value: &mut [u64]) -> u64 {
        let case = self.plain.step(memory, told, out, value);
        (self.bend)(&told, memory, out, value, case)
    }
}

fn is_found(bend: Bend) -> bool {
    (0..40).any(|seed| check_garbage(&mut Bent { plain: Plain::new(EVERYTHING, None), bend }, seed).is_err())
}

fn touch(memory: &mut [u64]) {
    if let Some(number) = memory.last_mut() {
        *number ^= 1;
    }
}

const BENDS: [(&str, Bend); 8] = [
    ("no such case", |_, _, _, _, case| if case == START { 9 } else { case }),
    ("waits instead of refusing", |_, _, _, _, case| if case == REFUSED { WAIT } else { case }),
    ("refuses what may not come", |told, _, _, _, case| if told.is_proper() { case } else { REFUSED }),
    ("memory changed when it refuses", |_, memory, _, _, case| {
        if case == REFUSED {
            touch(memory);
        }
        case
    }),
    ("memory changed by what may not come", |told, memory, _, _, case| {
        if !told.is_proper() {
            touch(memory);
        }
        case
    }),
    ("a wait with a value", |_, _, _, value, case| {
        value[0] += u64::from(case == WAIT);
        case
    }),
    ("out touched by a wait", |_, _, out, _, case| {
        if case == WAIT && !out.is_empty() {
            out[0] ^= 1;
        }
        case
    }),
    ("a write that is too long", |_, _, _, value, case| {
        if case == WRITE {
            value[0] = 4_097;
        }
        case
    }),
];

#[test]
fn a_bent_machine_is_found() {
    for (name, bend) in BENDS {
        assert!(is_found(bend), "{name}");
    }
    assert!(!is_found(|_, _, _, _, case| case), "a straight machine");
}
