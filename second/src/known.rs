//! Which keys after the prefix do something. The prefix itself always does.

/// A set of keys, with the name by which it is asked for.
#[derive(Clone, Copy, PartialEq, Eq, Debug)]
pub struct Known {
    pub name: &'static str,
    keys: &'static [u8],
}

pub const CORE: Known = Known { name: "core", keys: b"" };
pub const LEAVE: Known = Known { name: "leave", keys: b"d" };
pub const WINDOWS: Known = Known { name: "windows", keys: b"dcnp" };
pub const EVERYTHING: Known = Known { name: "everything", keys: b"dcnp|-ox" };

/// What the proved machine knows today. Widen it here when the machine is widened.
pub const TODAY: Known = LEAVE;

const ALL: [Known; 4] = [CORE, LEAVE, WINDOWS, EVERYTHING];

impl Known {
    pub fn named(name: &str) -> Option<Known> {
        ALL.into_iter().find(|known| known.name == name)
    }

    pub fn has(&self, key: u8) -> bool {
        self.keys.contains(&key)
    }
}
