//! Titles: their units are drawn from those at which the folder's table changes, and from all others.

use crate::random::Random;

/// The units that become letters: A to Z, and the rows of the table, large and small.
pub const ROWS: [(u16, u16); 18] = [
    (0x41, 0x5A),
    (0xC0, 0xC5),
    (0xC7, 0xC7),
    (0xC8, 0xCB),
    (0xCC, 0xCF),
    (0xD1, 0xD1),
    (0xD2, 0xD6),
    (0xD9, 0xDC),
    (0xDD, 0xDD),
    (0xE0, 0xE5),
    (0xE7, 0xE7),
    (0xE8, 0xEB),
    (0xEC, 0xEF),
    (0xF1, 0xF1),
    (0xF2, 0xF6),
    (0xF9, 0xFC),
    (0xFD, 0xFD),
    (0xFF, 0xFF),
];

/// The most units of a title.
pub const LONGEST: usize = 4096;

/// The elements of H that a vector has.
pub fn lanes(vl: u64) -> usize {
    vl as usize / 16
}

/// A title of so many units.
pub fn drawn(random: &mut Random, units: usize) -> Vec<u16> {
    (0..units).map(|_| unit(random)).collect()
}

/// Mostly the first or last of a row, or the unit beside it; else one that has only the low byte of such, one of Latin-1, or any.
pub fn unit(random: &mut Random) -> u16 {
    match random.below(8) {
        0 => border(random) & 0xFF | (1 + random.below(0xFF) as u16) << 8,
        1 => random.below(0x100) as u16,
        2 => random.below(0x1_0000) as u16,
        _ => border(random),
    }
}

fn border(random: &mut Random) -> u16 {
    let (first, last) = random.pick(&ROWS);
    random.pick(&[first - 1, first, last, last + 1])
}

#[cfg(test)]
mod tests {
    use super::*;

    /// The rows that titles are drawn from are those of the second program: a border that is missing would not be drawn.
    #[test]
    fn rows_of_the_table() {
        for unit in 0..=u16::MAX {
            let is_in_row = ROWS.iter().any(|&(first, last)| (first..=last).contains(&unit));
            let mut title = [unit];
            assert_eq!(model::fold(&mut title, 128), 0);
            assert_eq!(title != [unit], is_in_row, "{unit:#x}");
        }
    }

    #[test]
    fn borders_and_others_are_drawn() {
        let title = drawn(&mut Random::new(1, 2, 3), 20_000);
        let borders = ROWS.iter().flat_map(|&(first, last)| [first - 1, first, last, last + 1]);
        borders.for_each(|border| assert!(title.contains(&border), "{border:#x}"));
        (0..0x100).for_each(|unit| assert!(title.contains(&unit), "{unit:#x}"));
        assert!(title.iter().any(|&unit| unit > 0xFFF && (0x41..=0x5A).contains(&(unit & 0xFF))));
    }
}
