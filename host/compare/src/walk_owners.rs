//! Walks by each kernel, with every number of each register, and with each other refusal at the same time.

use crate::differences::{show_shared, Outcome};
use crate::digits::Digits;
use crate::kind::{Forms, Kind};
use crate::seen::Seen;
use crate::taken::{show_turn, take};
use compare::actions::{own_tour, register, Action, Tour, Turn, TOUR_FIELDS};
use compare::kernels::{self, own_p, own_x, KERNELS};
use compare::random::Random;
use compare::states::{self, LENGTHS};
use model::{Kernel, Shared};

const KIND: u64 = 34;
const DRAWS: usize = 12;

/// The numbers of X and of P: all that there are, 31 of X among them, and two past them.
const NUMBERS: [u32; TOUR_FIELDS.len()] = [34, 34, 18, 18];

/// The largest D, where both registers are there.
const FAR: u64 = 30;

/// The first refusal that comes before 15, in the order of the replies; `None` for a walk that none of them refuses.
#[derive(Clone, Copy, PartialEq, Eq, PartialOrd, Ord, Hash, Debug)]
enum Before {
    Illegal,
    Registers,
    LowLevel,
    AccessOff,
    None,
}

const BEFORE: [Before; 5] = [Before::Illegal, Before::Registers, Before::LowLevel, Before::AccessOff, Before::None];

/// What a case is made of, beside random numbers. The numbers of the cases count through all combinations.
#[derive(Clone, Copy, PartialEq, Eq, Hash, Debug)]
pub struct Case {
    kernel: Kernel,
    before: Before,
    /// The refusals that come after 15: 11 and 12.
    short: bool,
    spent: bool,
    vl: u64,
}

impl Case {
    const COUNT: usize = KERNELS.len() * BEFORE.len() * 2 * 2 * LENGTHS.len() * DRAWS;

    fn new(number: u64) -> Case {
        let mut digits = Digits::of(number);
        Case {
            kernel: digits.pick(&KERNELS),
            before: digits.pick(&BEFORE),
            short: digits.below(2) == 1,
            spent: digits.below(2) == 1,
            vl: digits.pick(&LENGTHS),
        }
    }

    /// Whether this refusal is the first, or is drawn to come with an earlier one.
    fn has(&self, random: &mut Random, before: Before) -> bool {
        self.before == before || self.before < before && random.one_in(3)
    }

    /// The walk whose register at a place has this number; the others are the kernel's own.
    fn asked(&self, random: &mut Random, place: usize, number: u32) -> Asked {
        let mut tour = own_tour(random, self.kernel);
        *register(&mut tour, place) = number;
        let mut shared = kernels::ready(random, self.vl);
        shared.state.level = 1 + random.below(3) as u8;
        set_ends(random, &mut shared, &tour);
        if self.has(random, Before::Registers) {
            misuse(random, &mut tour, place);
        }
        if self.has(random, Before::LowLevel) {
            shared.state.level = 0;
        }
        shared.state.access = !self.has(random, Before::AccessOff);
        if self.has(random, Before::Illegal) {
            states::spoil(random, &mut shared.state);
        }
        let route = tour.on(&shared, self.kernel);
        let (distance, need) = (route.distance().min(FAR) as usize, route.need());
        tour.places = if self.short { distance.saturating_sub(1) } else { distance + random.index(3) };
        tour.budget = if self.spent { random.below(need) } else { need.saturating_add(random.below(3)) };
        Asked { shared, tour, place }
    }
}

/// Sets Xn and Xm, where there are such, some way from each other.
fn set_ends(random: &mut Random, shared: &mut Shared, tour: &Tour) {
    let start = random.below(u64::MAX - FAR);
    let limit = start + 1 + random.below(FAR);
    for (number, value) in [(tour.n, start), (tour.m, limit)] {
        if let Some(x) = shared.state.x.get_mut(number as usize) {
            *x = value;
        }
    }
}

/// Breaks a rule for the numbers of a walk, without the register at a place.
fn misuse(random: &mut Random, tour: &mut Tour, place: usize) {
    match (place, random.below(3)) {
        (_, 0) => tour.size = 4 + random.below(5) as u32,
        (0 | 1, 1) => tour.d = 16 + random.below(5) as u32,
        (0 | 1, _) => tour.k = tour.d,
        (_, 1) => tour.n = 31 + random.below(5) as u32,
        _ => tour.m = tour.n,
    }
}

pub struct Asked {
    shared: Shared,
    tour: Tour,
    /// The register that alone may be the other kernel's.
    place: usize,
}

impl Asked {
    /// Whether it names a register of the other kernel.
    fn names_other(&self, kernel: Kernel) -> bool {
        let Tour { n, m, d, k, .. } = self.tour;
        let other = kernels::other(kernel);
        let is_x = |number: u32| own_x(other).any(|x| u32::from(x) == number);
        let is_p = |number: u32| own_p(other).any(|p| u32::from(p) == number);
        is_x(n) || is_x(m) || is_p(d) || is_p(k)
    }
}

pub struct WalkOwners;

impl Kind for WalkOwners {
    type Input = (Case, Vec<Asked>);
    const NAME: &'static str = "walk-owners";
    const REPLIES: &'static [u8] = &[0, 2, 3, 4, 10, 11, 12, 15];
    const FORMS: Forms = Forms::None;
    /// The names are those of a register that alone is the other kernel's.
    const NOTES: &'static [&'static str] = &[
        TOUR_FIELDS[0],
        TOUR_FIELDS[1],
        TOUR_FIELDS[2],
        TOUR_FIELDS[3],
        "ended with m = 31",
        "4, else 15",
        "10, else 15",
        "2, else 15",
        "3, else 15",
        "15, else 11",
        "15, else 12",
        "15, else 0",
        "work kept under 12",
    ];

    fn numbers() -> impl Iterator<Item = u64> {
        0..Case::COUNT as u64
    }

    fn make(seed: u64, number: u64) -> Self::Input {
        let random = &mut Random::new(seed, KIND, number);
        let case = Case::new(number);
        let places = NUMBERS.into_iter().enumerate();
        let registers = places.flat_map(|(place, end)| (0..end).map(move |number| (place, number)));
        (case, registers.map(|(place, number)| case.asked(random, place, number)).collect())
    }

    fn show((case, _): &Self::Input) -> String {
        format!("{case:?}\n")
    }

    fn compare((case, asked): &Self::Input, seen: &mut Seen) -> Outcome {
        for asked in asked {
            let turn = Turn { kernel: case.kernel, action: Action::Walk(asked.tour) };
            let with_input = |lines: Vec<String>| [vec![show_shared(&asked.shared), show_turn(&turn)], lines].concat();
            let (answer, after) = take(&asked.shared, &turn).map_err(with_input)?;
            seen.reply(answer.reply);
            note(seen, case, asked, answer.reply);
            seen.note_if(answer.reply == 12 && after != asked.shared, "work kept under 12");
        }
        Ok(())
    }
}

fn note(seen: &mut Seen, case: &Case, asked: &Asked, reply: u8) {
    let else_15 = asked.names_other(case.kernel);
    let Asked { shared, tour, place } = asked;
    match reply {
        0 => seen.note_if(tour.m == 31, "ended with m = 31"),
        2 => seen.note_if(else_15, "2, else 15"),
        3 => seen.note_if(else_15, "3, else 15"),
        4 => seen.note_if(else_15, "4, else 15"),
        10 => seen.note_if(else_15, "10, else 15"),
        15 => {
            seen.note_if(else_15, TOUR_FIELDS[*place]);
            let route = tour.on(shared, case.kernel);
            let (short, spent) = ((tour.places as u64) < route.distance(), tour.budget < route.need());
            seen.note_if(short, "15, else 11");
            seen.note_if(!short && spent, "15, else 12");
            seen.note_if(!short && !spent, "15, else 0");
        }
        _ => {}
    }
}

#[cfg(test)]
mod tests {
    use super::*;
    use std::collections::HashSet;

    /// Every number of every register, in each case; but for that register, those of the kernel's own.
    #[test]
    fn every_number_is_made() {
        let mut cases = HashSet::new();
        for number in WalkOwners::numbers().take(Case::COUNT / DRAWS) {
            let (case, asked) = WalkOwners::make(1, number);
            assert_eq!(case, Case::new(number));
            let numbers = asked.iter().map(|asked| (asked.place, *register(&mut asked.tour.clone(), asked.place)));
            let made: HashSet<(usize, u32)> = numbers.collect();
            assert_eq!([made.len(), asked.len()], [NUMBERS.iter().sum::<u32>() as usize; 2]);
            for asked in asked {
                let own = own_tour(&mut Random::new(1, 0, number), case.kernel);
                let mut tour = asked.tour;
                *register(&mut tour, asked.place) = *register(&mut own.clone(), asked.place);
                assert!(!Asked { tour, ..asked }.names_other(case.kernel), "{:?}", asked.tour);
            }
            cases.insert(case);
        }
        assert_eq!(cases.len(), Case::COUNT / DRAWS);
    }
}
