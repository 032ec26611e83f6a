// What is lent to the library: a part filled with a pattern, or holding something, with an edge of the same pattern on
// either side; and beside it what all of that has to be afterwards.

const EDGE: usize = 64;

pub trait Pattern: Copy + PartialEq {
    fn of(mixed: u64) -> Self;
}

impl Pattern for u8 {
    fn of(mixed: u64) -> u8 {
        (mixed >> 33) as u8
    }
}

impl Pattern for u64 {
    fn of(mixed: u64) -> u64 {
        mixed ^ mixed >> 29
    }
}

pub struct Lent<T> {
    given: Vec<T>,
    want: Vec<T>,
    n: usize,
}

impl<T: Pattern> Lent<T> {
    pub fn room(n: usize, salt: u64) -> Lent<T> {
        let given: Vec<T> = (0..n + 2 * EDGE)
            .map(|i| T::of((i as u64 + 1).wrapping_add(salt).wrapping_mul(0x9E37_79B9_7F4A_7C15)))
            .collect();
        Lent { want: given.clone(), given, n }
    }

    pub fn holding(part: &[T], salt: u64) -> Lent<T> {
        let mut lent = Lent::room(part.len(), salt);
        lent.given().copy_from_slice(part);
        lent.want().copy_from_slice(part);
        lent
    }

    // A room for many calls: only so much of it is lent now.
    pub fn lend(&mut self, n: usize) {
        assert!(n + 2 * EDGE <= self.given.len());
        self.n = n;
    }

    pub fn given(&mut self) -> &mut [T] {
        &mut self.given[EDGE..EDGE + self.n]
    }

    pub fn want(&mut self) -> &mut [T] {
        &mut self.want[EDGE..EDGE + self.n]
    }

    pub fn as_wanted(&self) -> bool {
        self.given == self.want
    }

    // The first place of the lent part, or of its edges, that is not as it has to be.
    pub fn first_fault(&self) -> Option<isize> {
        let at = self.given.iter().zip(&self.want).position(|(g, w)| g != w)?;
        Some(at as isize - EDGE as isize)
    }
}
