//! Numbers lent to be read. They stand between guards, so that a call which reads or writes beside what it was
//! lent does not give the expected answer.

/// How many guards stand before and behind.
pub const GUARDS: usize = 4;

pub struct Guarded<T> {
    all: Vec<T>,
    guard: T,
}

impl<T: Copy + PartialEq> Guarded<T> {
    /// A copy of some numbers with guards before and behind.
    pub fn new(numbers: &[T], guard: T) -> Self {
        let guards = [guard; GUARDS];
        let all = [&guards, numbers, &guards].concat();
        Guarded { all, guard }
    }

    /// Whether the numbers and the guards are what they were.
    pub fn is_still(&self, numbers: &[T]) -> bool {
        let (front, rest) = self.all.split_at(GUARDS);
        let (middle, back) = rest.split_at(self.count());
        let mut guards = front.iter().chain(back);
        middle == numbers && guards.all(|&guard| guard == self.guard)
    }

    pub fn numbers(&mut self) -> &mut [T] {
        let end = GUARDS + self.count();
        &mut self.all[GUARDS..end]
    }

    pub fn at(&self) -> *const T {
        self.all[GUARDS..].as_ptr()
    }

    /// The same for one who may be lent NULL: nowhere if there are no numbers.
    #[cfg(any(feature = "geojson", feature = "why"))]
    pub fn place(&self) -> *const T {
        match self.count() {
            0 => std::ptr::null(),
            _ => self.at(),
        }
    }

    pub fn count(&self) -> usize {
        self.all.len() - 2 * GUARDS
    }
}
