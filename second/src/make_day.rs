//! Makes a random day from a seed. A glass goes along with it, so that most things come to panes that are there and fit their sizes.
use crate::day::{Thing, MOST_COLUMNS, MOST_ROWS};
use crate::glass::{Glass, PREFIX};
use crate::known::Known;
use crate::make_bytes::{burst, page};
use crate::random::Random;

struct Maker {
    random: Random,
    /// Large screens with much on them, so that one write doesn't do.
    large: bool,
    glass: Glass,
    /// What a pane's program has still to write, where a burst was cut.
    rest: Vec<(u64, Vec<u8>)>,
    day: Vec<Thing>,
}

pub fn make_day(seed: u64, known: Known) -> Vec<Thing> {
    let mut random = Random::new(seed);
    let large = random.chance(8);
    let crowded = known.has(b'c') && random.chance(12);
    let mut maker = Maker { random, large, glass: Glass::new(known), rest: Vec::new(), day: Vec::new() };
    maker.begin();
    if crowded {
        maker.crowd();
    }
    let length = if maker.random.chance(10) { maker.random.between(60, 150) } else { maker.random.between(4, 50) };
    let end = maker.day.len() + length;
    while maker.day.len() < end && !maker.is_over() {
        maker.next();
    }
    if maker.random.chance(30) {
        maker.end_all();
    }
    maker.day
}

impl Maker {
    fn come(&mut self, thing: Thing) {
        self.glass.turn(&thing);
        self.day.push(thing);
    }

    fn is_over(&self) -> bool {
        self.day.iter().any(|thing| matches!(thing, Thing::Look { .. })) && self.glass.windows.is_empty()
    }

    fn begin(&mut self) {
        if self.random.chance(10) {
            for _ in 0..self.random.between(1, 3) {
                self.before_anybody();
            }
        }
        self.look();
    }

    fn before_anybody(&mut self) {
        match self.random.below(3) {
            0 => self.key(),
            1 => self.come(Thing::Gone { pane: 1 }),
            _ => self.come(Thing::From { pane: 1, bytes: b"early\x1b[6n".to_vec() }),
        }
    }

    /// Windows and panes up to their limits, and then ends and a small screen, on which not all of them have room.
    fn crowd(&mut self) {
        self.look_between((20, 10), (MOST_COLUMNS, MOST_ROWS));
        for _ in 0..self.random.between(20, 80) {
            let key = *self.random.pick(b"ccc||||----nno");
            self.come(Thing::Key(PREFIX));
            self.come(Thing::Key(key));
        }
        for _ in 0..self.random.below(20) {
            self.end();
        }
        if self.random.chance(70) {
            self.look_between((1, 2), (9, 6));
        }
    }

    fn next(&mut self) {
        let away = if self.glass.attached { 0 } else { 25 };
        match self.random.below(100 + away) {
            0..=56 => self.output(),
            57..=64 => self.rest_of_output(),
            65..=84 => self.key(),
            85..=87 => self.command(),
            88..=92 => self.end(),
            93 => self.stranger(),
            _ => self.look(),
        }
    }

    /// Mostly small, where wraps and edges meet often; sometimes any size, one of the outermost, or the same again.
    fn look(&mut self) {
        match self.random.below(20) {
            _ if self.large => self.look_between((100, 30), (MOST_COLUMNS, MOST_ROWS)),
            0..=11 => self.look_between((1, 2), (16, 8)),
            12..=15 => self.look_between((1, 2), (80, 25)),
            16 => self.come(Thing::Look { columns: self.glass.columns, rows: self.glass.rows.max(2) }),
            17 => {
                let (columns, rows) = (*self.random.pick(&[1, 2, 199, 200]), *self.random.pick(&[2, 3, 59, 60]));
                self.come(Thing::Look { columns, rows });
            }
            _ => self.look_between((1, 2), (MOST_COLUMNS, MOST_ROWS)),
        }
    }

    /// Both sizes are columns and rows.
    fn look_between(&mut self, least: (usize, usize), most: (usize, usize)) {
        let columns = self.random.between(least.0, most.0);
        let rows = self.random.between(least.1, most.1);
        self.come(Thing::Look { columns, rows });
    }

    /// The pane with the focus, mostly, or any other.
    fn some_pane(&mut self) -> Option<u64> {
        let focus = self.glass.focus()?;
        let any = self.random.pick(&self.glass.panes).number;
        Some(if self.random.chance(50) { focus } else { any })
    }

    fn output(&mut self) {
        let Some(pane) = self.some_pane() else { return self.stranger() };
        let Some(screen) = self.glass.pane(pane).map(|pane| &pane.screen) else { return };
        let (columns, rows) = (screen.columns(), screen.rows());
        let most = match self.random.below(40) {
            0 => 3_500,
            _ if self.large => self.random.between(1, 3_500),
            1..=6 => 400,
            _ => self.random.between(1, 60),
        };
        let make = if self.large && self.random.chance(40) { page } else { burst };
        let mut bytes = make(&mut self.random, columns, rows, most);
        bytes.truncate(4_000);
        self.cut(pane, bytes);
    }

    /// What is left of this pane's burst comes first; the new one is cut anywhere, or not.
    fn cut(&mut self, pane: u64, new: Vec<u8>) {
        let mut bytes = self.take_rest(pane).unwrap_or_default();
        bytes.extend(new);
        bytes.truncate(4_096);
        if self.random.chance(50) {
            let rest = bytes.split_off(self.random.between(0, bytes.len()));
            self.rest.push((pane, rest));
        }
        self.come(Thing::From { pane, bytes });
    }

    fn take_rest(&mut self, pane: u64) -> Option<Vec<u8>> {
        let at = self.rest.iter().position(|(owner, _)| *owner == pane)?;
        Some(self.rest.swap_remove(at).1)
    }

    fn rest_of_output(&mut self) {
        match self.rest.pop() {
            Some((pane, bytes)) => self.come(Thing::From { pane, bytes }),
            None => self.output(),
        }
    }

    fn key(&mut self) {
        let key = match self.random.below(10) {
            0..=3 => self.random.between(32, 126) as u8,
            4 => 27,
            5 => 13,
            6 | 7 => PREFIX,
            _ => self.random.byte(),
        };
        self.come(Thing::Key(key));
        if key == PREFIX {
            self.after_prefix();
        }
    }

    /// Mostly another key; or somebody attaches, by which the prefix is forgotten; or anything.
    fn after_prefix(&mut self) {
        match self.random.below(10) {
            0..=6 => self.command_key(),
            7 => self.look(),
            _ => {}
        }
    }

    fn command(&mut self) {
        self.come(Thing::Key(PREFIX));
        self.command_key();
    }

    fn command_key(&mut self) {
        let key = *self.random.pick(b"||||----ccccnnppooooxd\x01\x01zC");
        self.come(Thing::Key(key));
    }

    /// A program ends; the last one rarely, since the day is over then.
    fn end(&mut self) {
        let Some(pane) = self.some_pane() else { return };
        if self.glass.panes.len() > 1 || self.random.chance(10) {
            self.come(Thing::Gone { pane });
        }
    }

    /// A pane that isn't there, or has gone.
    fn stranger(&mut self) {
        let any = self.random.between(0, 40) as u64;
        let pane = *self.random.pick(&[0, 33, 65_536, 65_537, 4_294_967_297, 9_999_999_999, any]);
        if self.glass.pane(pane).is_some() {
            return;
        }
        let thing = if self.random.chance(70) { Thing::From { pane, bytes: b"who\x1b[6n\x1b".to_vec() } } else { Thing::Gone { pane } };
        self.come(thing);
    }

    fn end_all(&mut self) {
        while let Some(pane) = self.some_pane() {
            self.come(Thing::Gone { pane });
        }
    }
}
