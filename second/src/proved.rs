//! The proved machine, called in its static library. This is the only file with unsafe code.
#![allow(unsafe_code)]
use crate::machine::{Machine, Told};

extern "C" {
    fn glass_step(
        memory: *mut u64,
        numbers: usize,
        kind: u64,
        a: u64,
        b: u64,
        bytes: *const u8,
        length: usize,
        out: *mut u8,
        room: usize,
        value: *mut u64,
        values: usize,
    ) -> u64;
}

/// It keeps nothing itself: all is in the memory that it is lent.
pub struct Proved;

impl Machine for Proved {
    fn step(&mut self, memory: &mut [u64], told: Told, out: &mut [u8], value: &mut [u64]) -> u64 {
        let Told { kind, a, b, bytes } = told;
        // The library reads and writes only these rows, within the lengths given; guard zones around them show if it does not.
        unsafe {
            glass_step(
                memory.as_mut_ptr(),
                memory.len(),
                kind,
                a,
                b,
                bytes.as_ptr(),
                bytes.len(),
                out.as_mut_ptr(),
                out.len(),
                value.as_mut_ptr(),
                value.len(),
            )
        }
    }
}
