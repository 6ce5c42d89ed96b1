//! What kernels do: words and walks, mostly of their own registers.

use crate::instructions;
use crate::kernels::{self, own_p, own_x, Field};
use crate::random::Random;
use crate::routes::Route;
use model::{encode, Kernel, Row, Shared};

/// What a walk is told beside the shared state.
#[derive(Clone, Copy, PartialEq, Eq, Debug)]
pub struct Tour {
    pub size: u32,
    pub n: u32,
    pub m: u32,
    pub d: u32,
    pub k: u32,
    pub places: usize,
    pub budget: u64,
}

#[derive(Clone, Copy, PartialEq, Eq, Debug)]
pub enum Action {
    Word(u32),
    Walk(Tour),
}

/// An action of a kernel.
#[derive(Clone, Copy, PartialEq, Eq, Debug)]
pub struct Turn {
    pub kernel: Kernel,
    pub action: Action,
}

impl Tour {
    /// The walk on a state of its own, with the kernel's flags.
    pub fn on(&self, shared: &Shared, kernel: Kernel) -> Route {
        let Tour { size, n, m, d, k, places, budget } = *self;
        Route { state: shared.state_of(kernel), size, n, m, d, k, places, budget }
    }
}

/// A tour with the kernel's own registers, Xn and Xm as well as Pd and Pk different; no places, no budget.
pub fn own_tour(random: &mut Random, kernel: Kernel) -> Tour {
    let [xs, ps] = [own_x(kernel), own_p(kernel)].map(Vec::from_iter);
    let (n, m) = two_of(random, &xs);
    let (d, k) = two_of(random, &ps);
    Tour { size: random.below(4) as u32, n, m, d, k, places: 0, budget: 0 }
}

fn two_of(random: &mut Random, numbers: &[u8]) -> (u32, u32) {
    let one = random.index(numbers.len());
    let two = (one + 1 + random.index(numbers.len() - 1)) % numbers.len();
    (u32::from(numbers[one]), u32::from(numbers[two]))
}

/// A word of the kernel's own registers.
pub fn own_word(random: &mut Random, kernel: Kernel) -> u32 {
    let form = random.pick(&kernels::own_forms(kernel));
    word_of(&kernels::own_row(random, kernel, form))
}

/// A word of the kernel's own but for one field, which names a register of the other. None if the field cannot.
pub fn word_with_other(random: &mut Random, kernel: Kernel, field: &Field) -> Option<u32> {
    let others = field.others(kernel);
    if others.is_empty() {
        return None;
    }
    let mut row = kernels::own_row(random, kernel, field.form);
    row[field.place] = random.pick(&others);
    Some(word_of(&row))
}

pub fn word_of(row: &Row) -> u32 {
    encode(row).expect("its fields are in range")
}

/// The registers that a walk names.
pub const TOUR_FIELDS: [&str; 4] = ["n", "m", "d", "k"];

/// The register of a tour, by its place in `TOUR_FIELDS`.
pub fn register(tour: &mut Tour, place: usize) -> &mut u32 {
    match place {
        0 => &mut tour.n,
        1 => &mut tour.m,
        2 => &mut tour.d,
        _ => &mut tour.k,
    }
}

/// The kernel's own but for one register, which is the other's.
pub fn tour_with_other(random: &mut Random, kernel: Kernel, place: usize) -> Tour {
    let mut tour = own_tour(random, kernel);
    let mut others = own_tour(random, kernels::other(kernel));
    *register(&mut tour, place) = *register(&mut others, place);
    tour
}

/// Mostly a word or a walk of the kernel's own registers; now and then one with a register of the other, a damaged word or any
/// word, a walk that breaks the rules for its numbers.
pub fn action(random: &mut Random, kernel: Kernel) -> Action {
    match random.below(20) {
        0..=11 => Action::Word(own_word(random, kernel)),
        12 => Action::Word(own_word(random, kernel) ^ 1 << random.below(32)),
        13 => Action::Word(instructions::doubtful(random)),
        14 => Action::Word(instructions::accepted(random)),
        15 => Action::Word(with_one_other(random, kernel)),
        16 => {
            let place = random.index(TOUR_FIELDS.len());
            let tour = tour_with_other(random, kernel, place);
            Action::Walk(with_ends(random, tour))
        }
        _ => {
            let tour = own_tour(random, kernel);
            Action::Walk(with_ends(random, tour))
        }
    }
}

fn with_one_other(random: &mut Random, kernel: Kernel) -> u32 {
    let form = random.pick(&kernels::own_forms(kernel));
    let field = random.pick(&kernels::fields(form));
    word_with_other(random, kernel, &field).unwrap_or_else(|| own_word(random, kernel))
}

/// The tour with any places and any budget, now and then with another number for one of its registers, or with 31 as the limit
/// and any size.
fn with_ends(random: &mut Random, mut tour: Tour) -> Tour {
    match random.below(16) {
        0 => *register(&mut tour, random.index(TOUR_FIELDS.len())) = random.below(34) as u32,
        1 => (tour.size, tour.m) = (random.below(6) as u32, 31),
        _ => {}
    }
    tour.places = random.pick(&[0, 1, 20, 64, 64, 200]);
    tour.budget = match random.below(4) {
        0 => random.below(40),
        1 => random.below(400),
        _ => u64::MAX - random.below(2),
    };
    tour
}

/// So many turns of both kernels.
pub fn turns(random: &mut Random, count: usize) -> Vec<Turn> {
    let mut turns = Vec::new();
    for _ in 0..count {
        let kernel = random.pick(&kernels::KERNELS);
        turns.push(Turn { kernel, action: action(random, kernel) });
    }
    turns
}

/// A kernel's turns in their order, and so many others of the other kernel between them.
pub fn between(random: &mut Random, turns: &[Turn], kernel: Kernel, count: usize) -> Vec<Turn> {
    let mut mixed: Vec<Turn> = turns.iter().filter(|turn| turn.kernel == kernel).copied().collect();
    let other = kernels::other(kernel);
    for _ in 0..count {
        let turn = Turn { kernel: other, action: action(random, other) };
        mixed.insert(random.index(mixed.len() + 1), turn);
    }
    mixed
}

/// Brings the X of a kernel near each other, so that walks between them are short.
pub fn bring_near(random: &mut Random, shared: &mut Shared, kernel: Kernel) {
    let centre = if random.one_in(3) { random.next() } else { random.below(300) };
    for number in own_x(kernel) {
        shared.state.x[usize::from(number)] = centre.wrapping_add(random.below(80));
    }
}

#[cfg(test)]
mod tests {
    use super::*;
    use crate::kernels::{Part, KERNELS};

    /// The ordinary step takes a word of a kernel's own; of the state it changes that kernel's part alone.
    #[test]
    fn own_words_are_ours() {
        for (number, kernel) in (0..3000).flat_map(|number| KERNELS.map(|kernel| (number, kernel))) {
            let random = &mut Random::new(1, 0, number);
            let shared = kernels::ready(random, 256);
            let mut state = shared.state_of(kernel);
            let word = own_word(random, kernel);
            assert_eq!(model::step(&mut state, word), 0, "{word:08x}");
            let other_part = |shared: &Shared| -> Part { kernels::part_of(shared, kernels::other(kernel)) };
            assert_eq!(other_part(&shared.with(kernel, state)), other_part(&shared), "{word:08x}");
        }
    }

    /// The one kernel's turns are the same in the same order, and the other has as many as asked for.
    #[test]
    fn turns_between() {
        for (number, kernel) in (0..200).flat_map(|number| KERNELS.map(|kernel| (number, kernel))) {
            let random = &mut Random::new(1, 0, number);
            let given = turns(random, 20);
            let count = random.index(30);
            let mixed = between(random, &given, kernel, count);
            let of = |turns: &[Turn]| turns.iter().filter(|turn| turn.kernel == kernel).copied().collect::<Vec<_>>();
            assert_eq!((of(&mixed), mixed.len()), (of(&given), of(&given).len() + count));
        }
    }
}
