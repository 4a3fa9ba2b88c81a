//! Entries, the lent report and the eight words of an answer.

/// Stands in the report where an entry has no certificate.
const NONE: u32 = 65_535;

/// Where a rule is broken. Document 01's places also know a word: only refusals have that one.
#[derive(Clone, Copy)]
pub enum Place {
    Nothing,
    Certificate(usize),
    Pair(usize, usize),
}

#[derive(Clone, Copy)]
struct Entry {
    rule: u32,
    place: Place,
}

impl Entry {
    fn words(self) -> [u32; 3] {
        match self.place {
            Place::Nothing => [self.rule, NONE, NONE],
            Place::Certificate(i) => [self.rule, i as u32, NONE],
            Place::Pair(i, j) => [self.rule, i as u32, j as u32],
        }
    }
}

/// What is left of the lent report, and what has been said so far.
pub struct Report<'a> {
    rest: &'a mut [u32],
    first: Option<Entry>,
    total: u64,
    written: u64,
}

impl<'a> Report<'a> {
    pub fn new(lent: &'a mut [u32]) -> Self {
        Report { rest: lent, first: None, total: 0, written: 0 }
    }

    /// Counts a broken place, and writes it if a whole entry still has room.
    pub fn add(&mut self, rule: u32, place: Place) {
        let entry = Entry { rule, place };
        self.first.get_or_insert(entry);
        self.total += 1;
        if self.rest.len() < 3 {
            return;
        }
        let (room, rest) = std::mem::take(&mut self.rest).split_at_mut(3);
        room.copy_from_slice(&entry.words());
        self.rest = rest;
        self.written += 1;
    }

    /// One entry for each certificate at which the rule doesn't hold.
    pub fn each(&mut self, rule: u32, positions: std::ops::Range<usize>, holds: impl Fn(usize) -> bool) {
        for i in positions {
            if !holds(i) {
                self.add(rule, Place::Certificate(i));
            }
        }
    }

    /// Number, bundle, place kind, the place's two values, rule, total, written.
    pub fn answer(self) -> [u64; 8] {
        let Some(Entry { rule, place }) = self.first else {
            return [0; 8];
        };
        let (kind, i, j) = match place {
            Place::Nothing => (0, 0, 0),
            Place::Certificate(i) => (2, i, 0),
            Place::Pair(i, j) => (3, i, j),
        };
        [1, 0, kind, i as u64, j as u64, u64::from(rule), self.total, self.written]
    }
}

/// The answer to a bundle that isn't sound: the word's place has kind 1, and nothing is written.
pub fn refused(bundle: u64, number: u64, word: usize) -> [u64; 8] {
    [number, bundle, 1, word as u64, 0, 0, 0, 0]
}
