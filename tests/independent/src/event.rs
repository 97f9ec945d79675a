//! Events, fragments and operations as plain numbers, any number in each, and what refusals 4 and 5 ask of them.

pub const TOP: u32 = u32::MAX;
/// Places for operations in a fragment.
pub const PLACES: usize = 8;
pub const FRAGMENT_WORDS: usize = 4 + 3 * PLACES;
pub const EVENT_WORDS: usize = 1 + FRAGMENT_WORDS;

pub const FRAGMENT: u32 = 1;
pub const COMMIT: u32 = 2;
pub const ABORT: u32 = 3;

pub const MULTI: u32 = 1;
pub const LAST: u32 = 2;

pub const READ: u32 = 1;
pub const SET: u32 = 2;
pub const ADD: u32 = 3;
pub const TAKE: u32 = 4;
pub const NEED: u32 = 5;
pub const MATCH: u32 = 6;
pub const RAISE: u32 = 7;
pub const LOWER: u32 = 8;

#[derive(Clone, Copy, Debug, Default, PartialEq, Eq)]
pub struct Operation {
    pub code: u32,
    pub cell: u32,
    pub amount: u32,
}

impl Operation {
    pub fn writes(&self) -> bool {
        matches!(self.code, SET | ADD | TAKE | RAISE | LOWER)
    }

    /// The cell's content after the operation, or nothing if it fails.
    pub fn apply(&self, content: u32) -> Option<u32> {
        let v = self.amount;
        match self.code {
            READ => Some(content),
            SET => Some(v),
            ADD => content.checked_add(v),
            TAKE => content.checked_sub(v),
            NEED => (content >= v).then_some(content),
            MATCH => (content == v).then_some(content),
            RAISE => Some(content.max(v)),
            LOWER => Some(content.min(v)),
            code => unreachable!("code {code} is refused before anything runs"),
        }
    }

    fn well_formed(&self) -> bool {
        (READ..=LOWER).contains(&self.code) && (self.code != READ || self.amount == 0)
    }
}

/// A fragment with its number: an event without the kind, and a live transaction's stored first fragment.
#[derive(Clone, Copy, Debug, Default, PartialEq, Eq)]
pub struct Fragment {
    pub number: u32,
    pub flags: u32,
    pub coordinator: u32,
    pub count: u32,
    pub operations: [Operation; PLACES],
}

impl Fragment {
    pub fn is_multi(&self) -> bool {
        self.flags & MULTI != 0
    }

    pub fn is_last(&self) -> bool {
        self.flags & LAST != 0
    }

    /// The used places; all eight where the count is too large.
    pub fn used(&self) -> &[Operation] {
        &self.operations[..PLACES.min(self.count as usize)]
    }

    /// Refusal 4 of a fragment, but for the kind.
    pub fn well_formed(&self) -> bool {
        let kind_of_transaction = if self.is_multi() {
            (1..=255).contains(&self.coordinator)
        } else {
            self.is_last() && self.coordinator == 0
        };
        self.number != 0
            && self.flags & !(MULTI | LAST) == 0
            && kind_of_transaction
            && (1..=PLACES as u32).contains(&self.count)
            && self.used().iter().all(Operation::well_formed)
            && self.operations[self.used().len()..].iter().all(|unused| *unused == Operation::default())
    }

    /// Refusal 5: whether every used cell lies below the count.
    pub fn inside(&self, cells: u32) -> bool {
        self.used().iter().all(|operation| operation.cell < cells)
    }

    pub fn words(&self) -> [u32; FRAGMENT_WORDS] {
        let mut words = [0; FRAGMENT_WORDS];
        words[..4].copy_from_slice(&[self.number, self.flags, self.coordinator, self.count]);
        for (row, operation) in words[4..].chunks_exact_mut(3).zip(&self.operations) {
            row.copy_from_slice(&[operation.code, operation.cell, operation.amount]);
        }
        words
    }

    /// Reads 28 words.
    pub fn read(words: &[u32]) -> Fragment {
        let mut operations = [Operation::default(); PLACES];
        for (operation, row) in operations.iter_mut().zip(words[4..FRAGMENT_WORDS].chunks_exact(3)) {
            *operation = Operation { code: row[0], cell: row[1], amount: row[2] };
        }
        Fragment { number: words[0], flags: words[1], coordinator: words[2], count: words[3], operations }
    }
}

#[derive(Clone, Copy, Debug, Default, PartialEq, Eq)]
pub struct Event {
    pub kind: u32,
    pub fragment: Fragment,
}

impl Event {
    fn fragment(number: u32, flags: u32, coordinator: u32, row: &[(u32, u32, u32)]) -> Event {
        let mut operations = [Operation::default(); PLACES];
        for (place, &(code, cell, amount)) in operations.iter_mut().zip(row) {
            *place = Operation { code, cell, amount };
        }
        let count = row.len() as u32;
        Event { kind: FRAGMENT, fragment: Fragment { number, flags, coordinator, count, operations } }
    }

    pub fn single(number: u32, row: &[(u32, u32, u32)]) -> Event {
        Event::fragment(number, LAST, 0, row)
    }

    /// A multi's fragment that is not its last.
    pub fn open(number: u32, coordinator: u32, row: &[(u32, u32, u32)]) -> Event {
        Event::fragment(number, MULTI, coordinator, row)
    }

    /// A multi's last fragment.
    pub fn last(number: u32, coordinator: u32, row: &[(u32, u32, u32)]) -> Event {
        Event::fragment(number, MULTI | LAST, coordinator, row)
    }

    pub fn commit(number: u32) -> Event {
        Event { kind: COMMIT, fragment: Fragment { number, ..Fragment::default() } }
    }

    pub fn abort(number: u32) -> Event {
        Event { kind: ABORT, fragment: Fragment { number, ..Fragment::default() } }
    }

    /// Refusal 4.
    pub fn well_formed(&self) -> bool {
        let number = self.fragment.number;
        match self.kind {
            FRAGMENT => self.fragment.well_formed(),
            COMMIT | ABORT => number != 0 && self.fragment == Fragment { number, ..Fragment::default() },
            _ => false,
        }
    }

    pub fn words(&self) -> [u32; EVENT_WORDS] {
        let mut words = [0; EVENT_WORDS];
        words[0] = self.kind;
        words[1..].copy_from_slice(&self.fragment.words());
        words
    }

    /// Reads 29 words.
    pub fn read(words: &[u32]) -> Event {
        Event { kind: words[0], fragment: Fragment::read(&words[1..]) }
    }
}
