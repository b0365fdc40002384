//! Tables that are made once and lent to every call. Any word may index one, so that no index has to be tested.

pub type Table<T> = [T; 1 << 16];

pub fn table<T: Copy + Default>() -> Box<Table<T>> {
    vec![T::default(); 1 << 16].try_into().ok().expect("a table has as many places as there are words")
}

/// Lists of different lengths, one after the other. Each row has its own bounds.
pub struct Rows<T> {
    pub items: Box<Table<T>>,
    pub bounds: Box<Table<(u16, u16)>>,
}

impl<T: Copy + Default> Rows<T> {
    pub fn new() -> Self {
        Rows { items: table(), bounds: table() }
    }

    pub fn row(&self, i: u16) -> &[T] {
        let (begin, end) = self.bounds[usize::from(i)];
        &self.items[usize::from(begin)..usize::from(end)]
    }

    /// Empty rows from row 0 on, each with room for as many items as are counted for it.
    pub fn make_room(&mut self, counts: impl Iterator<Item = u16>) {
        let mut at = 0;
        for (bounds, count) in self.bounds.iter_mut().zip(counts) {
            *bounds = (at, at);
            at += count;
        }
    }

    pub fn push(&mut self, i: u16, item: T) {
        let end = &mut self.bounds[usize::from(i)].1;
        self.items[usize::from(*end)] = item;
        *end += 1;
    }
}

/// A set of words that is emptied without wiping: each word has the time at which it was met last.
pub struct Marks {
    now: u32,
    met: Box<Table<u32>>,
}

impl Marks {
    pub fn new() -> Self {
        Marks { now: 0, met: table() }
    }

    pub fn empty(&mut self) {
        self.now = self.now.checked_add(1).unwrap_or_else(|| {
            self.met.fill(0);
            1
        });
    }

    /// Whether the word is new; it is in the set afterwards.
    pub fn add(&mut self, word: u16) -> bool {
        std::mem::replace(&mut self.met[usize::from(word)], self.now) != self.now
    }

    pub fn has(&self, word: u16) -> bool {
        self.met[usize::from(word)] == self.now
    }
}
