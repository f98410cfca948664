//! Values by a number, which an engine keeps in their place.

enum Cell<T> {
    Full(T),
    Free(usize),
}

pub(crate) struct Slab<T> {
    cells: Vec<Cell<T>>,
    free: usize,
    many: usize,
}

impl<T> Slab<T> {
    pub fn new() -> Self {
        Slab { cells: Vec::new(), free: 0, many: 0 }
    }

    #[inline]
    pub fn put(&mut self, value: T) -> u64 {
        let at = self.free;
        self.many += 1;
        match self.cells.get_mut(at) {
            Some(cell) => {
                let Cell::Free(next) = std::mem::replace(cell, Cell::Full(value)) else { unreachable!("a free cell has no value") };
                self.free = next;
            }
            None => {
                self.cells.push(Cell::Full(value));
                self.free = at + 1;
            }
        }
        at as u64
    }

    pub fn at(&mut self, at: u64) -> Option<&mut T> {
        match self.cells.get_mut(at as usize) {
            Some(Cell::Full(value)) => Some(value),
            _ => None,
        }
    }

    #[inline]
    pub fn take(&mut self, at: u64) -> Option<T> {
        let cell = self.cells.get_mut(at as usize).filter(|it| matches!(it, Cell::Full(_)))?;
        let Cell::Full(value) = std::mem::replace(cell, Cell::Free(self.free)) else { return None };
        self.free = at as usize;
        self.many -= 1;
        Some(value)
    }

    pub fn iter(&self) -> impl Iterator<Item = &T> {
        self.cells.iter().filter_map(|it| if let Cell::Full(value) = it { Some(value) } else { None })
    }

    pub fn into_iter(self) -> impl Iterator<Item = T> {
        self.cells.into_iter().filter_map(|it| if let Cell::Full(value) = it { Some(value) } else { None })
    }

    pub fn many(&self) -> usize {
        self.many
    }
}
