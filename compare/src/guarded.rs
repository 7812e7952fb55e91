//! A buffer with guard zones on both sides.
const ZONE: usize = 8;

pub struct Guarded<T> {
    all: Vec<T>,
    guard: T,
}

impl<T: Copy + PartialEq> Guarded<T> {
    pub fn new(inner: &[T], guard: T) -> Guarded<T> {
        let mut all = vec![guard; inner.len() + 2 * ZONE];
        all[ZONE..ZONE + inner.len()].copy_from_slice(inner);
        Guarded { all, guard }
    }

    pub fn inner(&mut self) -> &mut [T] {
        let end = self.all.len() - ZONE;
        &mut self.all[ZONE..end]
    }

    pub fn is(&self, inner: &[T]) -> bool {
        let end = self.all.len() - ZONE;
        self.all[ZONE..end] == *inner
            && self.all[..ZONE].iter().chain(&self.all[end..]).all(|x| *x == self.guard)
    }

    /// The same for a buffer whose elements from `free` on may be anything.
    pub fn is_below(&self, free: usize, inner: &[T]) -> bool {
        let mut all = inner.to_vec();
        let end = self.all.len() - ZONE;
        all[free..].copy_from_slice(&self.all[ZONE + free..end]);
        self.is(&all)
    }
}
