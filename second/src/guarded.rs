//! Rows of memory that are lent to a machine, with guard zones before and behind them that no machine may touch.

const ZONE: usize = 4_096;

/// What a guard zone, or an out row that nothing has been put in, holds at each place.
pub trait Pattern: Copy + PartialEq {
    fn at(place: usize) -> Self;
}

impl Pattern for u8 {
    fn at(place: usize) -> u8 {
        (place.wrapping_mul(37) ^ (place >> 8)) as u8 | 1
    }
}

impl Pattern for u64 {
    fn at(place: usize) -> u64 {
        (place as u64 + 1).wrapping_mul(0x9E37_79B9_7F4A_7C15) | 1 << 63
    }
}

pub fn pattern<T: Pattern>(length: usize) -> Vec<T> {
    (0..length).map(T::at).collect()
}

pub struct Guarded<T> {
    all: Vec<T>,
    zone: Vec<T>,
}

impl<T: Pattern> Guarded<T> {
    pub fn new(middle: &[T]) -> Guarded<T> {
        let zone = pattern(ZONE);
        Guarded { all: [&zone[..], middle, &zone[..]].concat(), zone }
    }

    pub fn middle(&self) -> &[T] {
        &self.all[ZONE..self.all.len() - ZONE]
    }

    pub fn middle_mut(&mut self) -> &mut [T] {
        let end = self.all.len() - ZONE;
        &mut self.all[ZONE..end]
    }

    /// Whether both zones are as they were made. What the compiler thinks it knows of them doesn't count.
    pub fn is_intact(&self) -> bool {
        let all = std::hint::black_box(&self.all);
        all.starts_with(&self.zone) && all.ends_with(&self.zone)
    }
}

#[cfg(test)]
mod tests {
    use super::*;

    #[test]
    fn a_touched_zone_is_seen() {
        for (touched, intact) in [(ZONE - 1, false), (ZONE, true), (ZONE + 2, true), (ZONE + 3, false), (0, false)] {
            let mut row = Guarded::new(&[0u64; 3]);
            row.all[touched] = 5;
            assert_eq!(row.is_intact(), intact, "at {touched}");
        }
    }
}
