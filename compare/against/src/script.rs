//! A script: the commands so far, and beside each the report that the original's answer makes of it.
use crate::host::{self, Command, Report};
use original::Original;

pub const ROWS: usize = 256;

#[derive(Clone, Debug)]
pub enum Call {
    Head(u16, u32),
    After(u16, u16, u32),
    Index(u32, u16, u32),
    Push(u16, u32),
    Splice(u32, Vec<u16>, Vec<u32>),
    RemoveKey(u16),
    RemoveIndex(u32),
    IndexOf(u16),
    KeyOf(u32),
}

/// How much was compared.
#[derive(Default, Clone, Copy)]
pub struct Tally {
    pub scripts: u64,
    pub calls: u64,
    pub refusals: u64,
    pub reports: u64,
    pub links: u64,
    pub damaged: u64,
    pub differences: u64,
}

impl std::ops::AddAssign for Tally {
    fn add_assign(&mut self, other: Tally) {
        self.scripts += other.scripts;
        self.calls += other.calls;
        self.refusals += other.refusals;
        self.reports += other.reports;
        self.links += other.links;
        self.damaged += other.damaged;
        self.differences += other.differences;
    }
}

#[derive(Clone)]
pub struct Script {
    pub original: Original<u16>,
    pub commands: Vec<Command>,
    pub expected: Vec<Report>,
    pub links: u64,
    pub calls: u64,
    pub refusals: u64,
    junk: u8,
}

impl Script {
    pub fn new(junk: u8) -> Script {
        Script { original: Original::new(), commands: vec![], expected: vec![], links: 0, calls: 0, refusals: 0, junk }
    }

    pub fn add(&mut self, command: Command, report: Report) {
        self.commands.push(command);
        self.expected.push(report);
    }

    pub fn present(&self, key: u16) -> bool {
        self.original.level_of(key).is_some()
    }

    /// The refusal of an insertion of the key at a place, or after a key, by the table of refusals.
    fn refusal(&self, key: u16, place: Option<u32>, before: Option<u16>) -> Option<u8> {
        if self.present(key) {
            Some(1)
        } else if before.is_some_and(|before| !self.present(before)) {
            Some(2)
        } else if place.is_some_and(|place| place as usize > self.original.len()) {
            Some(3)
        } else if self.original.len() == ROWS {
            Some(4)
        } else {
            None
        }
    }

    /// An insertion: where it is accepted, its draw is fed to the original, which must answer true. A present key and a
    /// place past the end the original turns down too, by false and with no draw; a predecessor that is absent it
    /// panics at, and it is never full, so there it is not called.
    fn insert(&mut self, key: u16, draw: u32, refusal: Option<u8>, call: impl FnOnce(&mut Original<u16>) -> bool) -> Report {
        match refusal {
            None => {
                rand::feed(&[draw]);
                assert!(call(&mut self.original), "the original turned an accepted insertion of {key} down");
                assert!(rand::drain().is_empty(), "the original left a draw");
                host::done()
            }
            Some(n) => {
                if n == 1 || n == 3 {
                    assert!(!call(&mut self.original), "the original accepted what is refused with {n}");
                }
                self.refusals += 1;
                host::refused(n)
            }
        }
    }

    fn splice(&mut self, place: u32, keys: &[u16], draws: &[u32]) -> Report {
        for &key in keys {
            self.add(host::command(b'Q', None, Some(key), None, None, self.junk), host::done());
        }
        for &draw in draws {
            self.add(host::command(b'W', None, None, None, Some(draw), self.junk), host::done());
        }
        let length = self.original.len();
        let refusal = if keys.len() != draws.len() {
            5
        } else if place as usize > length {
            3
        } else if length + keys.len() > ROWS {
            4
        } else {
            let mut fresh: Vec<u16> = vec![];
            for (&key, &draw) in keys.iter().zip(draws) {
                if !self.present(key) && !fresh.contains(&key) {
                    fresh.push(key);
                    rand::feed(&[draw]);
                }
            }
            assert!(self.original.splice(place as usize, keys));
            assert!(rand::drain().is_empty(), "the original left a draw");
            return host::number((self.original.len() - length) as u32);
        };
        self.refusals += 1;
        host::refused(refusal)
    }

    /// Adds a call with the original's answer.
    pub fn call(&mut self, call: &Call) {
        self.calls += 1;
        let junk = self.junk;
        let (command, report) = match *call {
            Call::Head(key, draw) => {
                let refusal = self.refusal(key, None, None);
                (host::command(b'H', None, Some(key), None, Some(draw), junk), self.insert(key, draw, refusal, |o| o.insert_head(key)))
            }
            Call::After(before, key, draw) => {
                let refusal = self.refusal(key, None, Some(before));
                let place = u32::from(before) | u32::from(junk) << 16;
                (host::command(b'A', None, Some(key), Some(place), Some(draw), junk), self.insert(key, draw, refusal, |o| o.insert_after(before, key)))
            }
            Call::Index(place, key, draw) => {
                let refusal = self.refusal(key, Some(place), None);
                (host::command(b'I', None, Some(key), Some(place), Some(draw), junk), self.insert(key, draw, refusal, |o| o.insert_index(place as usize, key)))
            }
            Call::Push(key, draw) => {
                let refusal = self.refusal(key, None, None);
                (host::command(b'P', None, Some(key), None, Some(draw), junk), self.insert(key, draw, refusal, |o| o.push(key)))
            }
            Call::Splice(place, ref keys, ref draws) => {
                let report = self.splice(place, keys, draws);
                (host::command(b'S', None, None, Some(place), None, junk), report)
            }
            Call::RemoveKey(key) => (host::command(b'R', None, Some(key), None, None, junk), host::number_or_none(self.original.remove_key(key))),
            Call::RemoveIndex(place) => (host::command(b'X', None, None, Some(place), None, junk), host::key_or_none(self.original.remove_index(place as usize))),
            Call::IndexOf(key) => (host::command(b'i', None, Some(key), None, None, junk), host::number_or_none(self.original.index_of(key))),
            Call::KeyOf(place) => (host::command(b'k', None, None, Some(place), None, junk), host::key_or_none(self.original.key_of(place as usize))),
        };
        self.add(command, report);
    }

    /// The links of a key, or of the head, at every level, and at the first level that is not stored.
    fn look_at_links(&mut self, key: Option<u16>) {
        let levels = match key {
            Some(key) => self.original.level_of(key).unwrap(),
            None => self.original.height(),
        };
        let letter = if key.is_some() { b'l' } else { b'h' };
        for level in 0..levels {
            let report = match self.original.links(key, level) {
                Some((ahead, back)) => host::links(ahead, back),
                // A new list: the original stores no link of the head yet.
                None => {
                    assert!(key.is_none() && level == 0 && self.original.stored(None) == Some(0));
                    host::links((None, 1), (None, 0))
                }
            };
            self.links += 2;
            self.add(host::command(letter, Some(level as u8), key, None, None, self.junk), report);
        }
        for level in [levels as u8, 255] {
            self.add(host::command(letter, Some(level), key, None, None, self.junk), host::refused(8));
        }
    }

    /// Asks for all there is: length, room, every place, level and link, and of keys that are absent too.
    pub fn look(&mut self, absent: &[u16]) {
        let junk = self.junk;
        let order: Vec<u16> = self.original.iter().collect();
        self.add(host::command(b'n', None, None, None, None, junk), host::number(self.original.len() as u32));
        self.add(host::command(b'c', None, None, None, None, junk), host::number(ROWS as u32));
        self.look_at_links(None);
        for &key in &order {
            let level = self.original.level_of(key).unwrap();
            self.add(host::command(b'v', None, Some(key), None, None, junk), host::number(level as u32));
            self.call(&Call::IndexOf(key));
            self.look_at_links(Some(key));
        }
        for place in 0..=order.len() {
            self.call(&Call::KeyOf(place as u32));
        }
        for &key in absent.iter().filter(|key| !order.contains(key)) {
            self.add(host::command(b'v', None, Some(key), None, None, junk), host::none());
            self.add(host::command(b'l', Some(0), Some(key), None, None, junk), host::refused(7));
            self.call(&Call::IndexOf(key));
        }
    }

    /// Runs it through the host, and counts what differs.
    pub fn compare(&self, tally: &mut Tally) {
        let commands = self.commands.concat();
        let mut out = vec![0xa5; 16 * self.commands.len()];
        let written = host::run(&commands, &mut out);
        tally.scripts += 1;
        tally.calls += self.calls;
        tally.refusals += self.refusals;
        tally.links += self.links;
        tally.reports += self.expected.len() as u64;
        if written != out.len() {
            tally.differences += 1;
            println!("{written} bytes answered, {} expected", out.len());
        }
        for (i, (got, want)) in out.chunks(16).zip(&self.expected).enumerate() {
            if got != want {
                tally.differences += 1;
                if tally.differences <= 20 {
                    println!("command {i} {:?}: the host {got:?}, the original {want:?}", self.commands[i]);
                }
            }
        }
    }
}
