//! The number of a case as digits, each with an end of its own: every combination of what cases are made of has its number.

pub struct Digits(usize);

impl Digits {
    pub fn of(number: u64) -> Digits {
        Digits(number as usize)
    }

    /// The next digit, from 0 to `end` − 1.
    pub fn below(&mut self, end: usize) -> usize {
        let digit = self.0 % end;
        self.0 /= end;
        digit
    }

    /// What a list has at the next digit.
    pub fn pick<T: Copy>(&mut self, list: &[T]) -> T {
        list[self.below(list.len())]
    }
}
