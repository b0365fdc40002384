//! Lists of different lengths in one vector: chains, incident cells and reaches. The hints to inline keep the model as
//! fast wherever the compiler puts the modules that use them: it is a measure for the engine.

pub struct Rows<T> {
    items: Vec<T>,
    ends: Vec<usize>,
}

impl<T> Rows<T> {
    pub fn new() -> Self {
        Rows { items: Vec::new(), ends: vec![0] }
    }

    #[inline]
    pub fn push(&mut self, row: impl IntoIterator<Item = T>) {
        self.items.extend(row);
        self.ends.push(self.items.len());
    }

    #[inline]
    pub fn row(&self, i: usize) -> &[T] {
        &self.items[self.ends[i]..self.ends[i + 1]]
    }

    /// How many items all rows have together.
    pub fn size(&self) -> usize {
        self.items.len()
    }
}

impl Rows<usize> {
    /// For each number below `count` the given rows that have it, in the order given.
    pub fn turned(&self, rows: impl Iterator<Item = usize> + Clone, count: usize) -> Rows<usize> {
        let mut ends = vec![0; count + 1];
        for &item in rows.clone().flat_map(|i| self.row(i)) {
            ends[item + 1] += 1;
        }
        for i in 0..count {
            ends[i + 1] += ends[i];
        }
        let mut free = ends.clone();
        let mut items = vec![0; ends[count]];
        for i in rows {
            for &item in self.row(i) {
                items[free[item]] = i;
                free[item] += 1;
            }
        }
        Rows { items, ends }
    }
}
