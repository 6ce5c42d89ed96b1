//! Memory lent to the library, with canary places before and after.

use compare::random::Random;
use std::hint::black_box;

/// Canary places on each side.
const AROUND: usize = 16;

#[derive(Clone, PartialEq, Eq, Debug)]
pub struct Lent<T> {
    places: Vec<T>,
    room: usize,
}

impl<T: Copy> Lent<T> {
    /// Room for so many places; all of them, the canaries too, hold numbers to be recognized by.
    pub fn new(room: usize, random: &mut Random, make: fn(u64) -> T) -> Lent<T> {
        let mut number = random.next();
        let places = (0..room + 2 * AROUND).map(|_| {
            number = number.wrapping_mul(0xD134_2543_DE82_EF95).wrapping_add(1);
            make(number ^ number >> 32)
        });
        Lent { places: places.collect(), room }
    }

    /// A list of values, lent to be read.
    pub fn holding(values: &[T], random: &mut Random, make: fn(u64) -> T) -> Lent<T> {
        let mut lent = Lent::new(values.len(), random, make);
        lent.part().copy_from_slice(values);
        lent
    }

    /// What is lent.
    pub fn part(&mut self) -> &mut [T] {
        let room = self.room;
        &mut black_box(&mut self.places)[AROUND..AROUND + room]
    }

    /// What was lent, to be read.
    pub fn held(&self) -> &[T] {
        &black_box(&self.places)[AROUND..AROUND + self.room]
    }

    /// Every place with its number: below 0 and from the room on are canaries.
    pub fn numbered(&self) -> impl Iterator<Item = (isize, T)> + '_ {
        black_box(&self.places).iter().enumerate().map(|(i, &place)| (i as isize - AROUND as isize, place))
    }
}

pub fn byte(number: u64) -> u8 {
    number as u8
}

pub fn unit(number: u64) -> u16 {
    number as u16
}

pub fn word(number: u64) -> u32 {
    number as u32
}

pub fn whole(number: u64) -> u64 {
    number
}
