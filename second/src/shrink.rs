//! Makes a day on which something differs as short as it can, while something still does.
use crate::day::Thing;

/// A day is tried at most so many times.
const MOST_TRIES: usize = 8_000;

struct Shrinker<'f> {
    differs: &'f mut dyn FnMut(&[Thing]) -> bool,
    tries: usize,
    day: Vec<Thing>,
}

/// The shortest day found on which `differs` still holds.
pub fn shrink(day: &[Thing], differs: &mut dyn FnMut(&[Thing]) -> bool) -> Vec<Thing> {
    let mut shrinker = Shrinker { differs, tries: 0, day: day.to_vec() };
    while shrinker.round() && shrinker.tries < MOST_TRIES {}
    shrinker.day
}

impl Shrinker<'_> {
    /// Every way of shrinking once; whether one of them got further.
    fn round(&mut self) -> bool {
        let things = self.drop_things();
        let bytes = self.drop_bytes();
        let simple = self.simplify();
        things || bytes || simple
    }

    fn take_if_differs(&mut self, day: Vec<Thing>) -> bool {
        self.tries += 1;
        let better = self.tries <= MOST_TRIES && (self.differs)(&day);
        if better {
            self.day = day;
        }
        better
    }

    fn drop_things(&mut self) -> bool {
        let mut any = false;
        let mut size = self.day.len();
        while size > 0 {
            let mut at = 0;
            while at < self.day.len() {
                if self.drop_at(at, size) {
                    any = true;
                } else {
                    at += size.div_ceil(2);
                }
            }
            size /= 2;
        }
        any
    }

    /// Without these things; or without them and with all panes numbered one lower, if it was there that a pane came.
    fn drop_at(&mut self, at: usize, size: usize) -> bool {
        let day = without(&self.day, at, size);
        let lowered = day.iter().map(|thing| with_pane(thing, |pane| pane.saturating_sub(1).max(1))).collect();
        self.take_if_differs(day) || size <= 2 && self.take_if_differs(lowered)
    }

    fn drop_bytes(&mut self) -> bool {
        let mut any = false;
        for at in 0..self.day.len() {
            any |= self.drop_bytes_of(at);
        }
        any
    }

    fn drop_bytes_of(&mut self, thing: usize) -> bool {
        let mut any = false;
        let mut size = self.bytes_of(thing).len();
        while size > 0 {
            let mut at = 0;
            while at < self.bytes_of(thing).len() {
                let bytes = without(self.bytes_of(thing), at, size);
                if self.take_if_differs(self.with_bytes(thing, bytes)) {
                    any = true;
                } else {
                    at += size;
                }
            }
            size /= 2;
        }
        any
    }

    fn bytes_of(&self, thing: usize) -> &[u8] {
        match &self.day[thing] {
            Thing::From { bytes, .. } => bytes,
            _ => &[],
        }
    }

    fn with_bytes(&self, thing: usize, new: Vec<u8>) -> Vec<Thing> {
        let mut day = self.day.clone();
        if let Thing::From { bytes, .. } = &mut day[thing] {
            *bytes = new;
        }
        day
    }

    /// Smaller sizes, lower panes, and one key for all that are printable.
    fn simplify(&mut self) -> bool {
        let mut any = false;
        for at in 0..self.day.len() {
            for simpler in simpler(&self.day[at]) {
                let mut day = self.day.clone();
                day[at] = simpler;
                any = self.take_if_differs(day) || any;
            }
        }
        any
    }
}

fn without<T: Clone>(row: &[T], at: usize, count: usize) -> Vec<T> {
    let end = (at + count).min(row.len());
    [&row[..at], &row[end..]].concat()
}

fn with_pane(thing: &Thing, change: impl Fn(u64) -> u64) -> Thing {
    let mut thing = thing.clone();
    if let Thing::From { pane, .. } | Thing::Gone { pane } = &mut thing {
        *pane = change(*pane);
    }
    thing
}

fn simpler(thing: &Thing) -> Vec<Thing> {
    match *thing {
        Thing::Look { columns, rows } => {
            let sizes = [(10, 3), (columns / 2, rows), (columns, rows / 2), (columns - 1, rows), (columns, rows - 1)];
            let smaller = sizes.into_iter().filter(|&(c, r)| c >= 1 && r >= 2 && c <= columns && r <= rows && (c, r) != (columns, rows));
            smaller.map(|(columns, rows)| Thing::Look { columns, rows }).collect()
        }
        Thing::Key(key @ 33..=126) if key != b'a' => vec![Thing::Key(b'a')],
        Thing::From { pane: 2.., .. } | Thing::Gone { pane: 2.. } => vec![with_pane(thing, |_| 1), with_pane(thing, |pane| pane - 1)],
        _ => Vec::new(),
    }
}

#[cfg(test)]
mod tests {
    use super::*;

    #[test]
    fn only_what_matters_is_left() {
        let from = |bytes: &[u8]| Thing::From { pane: 1, bytes: bytes.to_vec() };
        let day = [Thing::Look { columns: 80, rows: 24 }, Thing::Key(b'q'), from(b"one two"), Thing::Gone { pane: 3 }, from(b"three")];
        let mut differs = |day: &[Thing]| day.iter().any(|thing| matches!(thing, Thing::From { bytes, .. } if bytes.contains(&b'w')));
        assert_eq!(shrink(&day, &mut differs), [from(b"w")]);
        let mut differs = |day: &[Thing]| day.contains(&Thing::Gone { pane: 3 });
        assert_eq!(shrink(&day, &mut differs), [Thing::Gone { pane: 3 }]);
    }
}
