//! Inputs for the walk.

use crate::random::Random;
use crate::states;
use model::State;

/// What the walk is given, but for the list itself.
#[derive(Clone, Debug)]
pub struct Route {
    pub state: State,
    pub size: u32,
    pub n: u32,
    pub m: u32,
    pub d: u32,
    pub k: u32,
    pub places: usize,
    pub budget: u64,
}

/// Bounds for the inputs.
pub struct Bounds {
    /// The largest D, but for those far too large for any list.
    pub far: u64,
    /// Numbers past their range that still fit a byte.
    pub bytes: bool,
}

/// A walk over a legal state. Registers are mostly allowed; the list and the budget lie around what is needed.
pub fn route(random: &mut Random, vl: u64, bounds: &Bounds) -> Route {
    let mut state = states::legal(random, vl);
    if state.level == 0 && !random.one_in(4) {
        state.level = 1;
    }
    let mut route = Route { state, size: random.below(4) as u32, n: 0, m: 0, d: 0, k: 0, places: 0, budget: 0 };
    allowed_registers(random, &mut route);
    set_ends(random, &mut route, bounds.far);
    if random.one_in(10) {
        misuse(random, &mut route, bounds.bytes);
    }
    let distance = route.distance();
    route.places = places(random, distance, bounds.far);
    route.budget = budget(random, route.need());
    route
}

/// A walk that nothing refuses, of so many positions: its list has a place for each, its budget is what is needed.
pub fn accepted(random: &mut Random, vl: u64, size: u32, distance: u64) -> Route {
    let mut state = states::legal(random, vl);
    (state.level, state.access) = (1 + random.below(3) as u8, true);
    let mut route = Route { state, size, n: 0, m: 0, d: 0, k: 0, places: distance as usize, budget: 0 };
    allowed_registers(random, &mut route);
    route.m = (route.n + 1 + random.below(30) as u32) % 31; // register 31 is no limit of so many
    let start = random.below(u64::MAX - distance);
    (route.state.x[route.n as usize], route.state.x[route.m as usize]) = (start, start + distance);
    route.budget = route.need();
    route
}

fn allowed_registers(random: &mut Random, route: &mut Route) {
    route.n = random.below(31) as u32;
    route.m = (route.n + 1 + random.below(31) as u32) % 32;
    if random.one_in(16) {
        route.m = 31;
    }
    route.d = random.below(16) as u32;
    route.k = (route.d + 1 + random.below(15) as u32) % 16;
}

/// Sets Xn and Xm: a start near the ends of the numbers or anywhere, and a limit at some distance, at it, or below it.
fn set_ends(random: &mut Random, route: &mut Route, far: u64) {
    let distance = distance(random, route.elements(), far);
    let highest = u64::MAX - distance;
    let start = match random.below(5) {
        0 => random.below(1000),
        1 => highest - random.below(300).min(highest),
        2 => random.near(1 << 63, 400),
        3 => highest,
        _ => random.next(),
    };
    let start = start.min(highest);
    let limit = match random.below(20) {
        0 => start,
        1 => start - random.below(300).min(start),
        2 => random.next(), // far away: above or below
        _ => start + distance,
    };
    route.state.x[route.n as usize] = start;
    if route.m < 31 {
        route.state.x[route.m as usize] = limit;
    }
}

/// Mostly a few rounds, often around a whole number of them.
fn distance(random: &mut Random, elements: u64, far: u64) -> u64 {
    let rounds = random.below(4);
    match random.below(3) {
        0 => random.below(far.min(20) + 1),
        1 => random.below(far + 1),
        _ => (rounds * elements + random.below(3)).saturating_sub(1).min(far),
    }
}

/// Breaks one of the rules for registers and size.
fn misuse(random: &mut Random, route: &mut Route, bytes: bool) {
    let past = |random: &mut Random, number: u32, end: u32| match random.below(if bytes { 3 } else { 6 }) {
        0 => end,
        1 => end + random.below(5) as u32,
        2 => 255,
        3 => number + 256,
        4 => number | 1 << 31,
        _ => u32::MAX,
    };
    match random.below(8) {
        0 => route.size = past(random, route.size, 4),
        1 => route.n = past(random, route.n, 32),
        2 => route.m = past(random, route.m, 32),
        3 => route.d = past(random, route.d, 16),
        4 => route.k = past(random, route.k, 16),
        5 => route.n = 31,
        6 => route.m = route.n,
        _ => route.k = route.d,
    }
}

/// Around D; a list for a D past `far` is short.
fn places(random: &mut Random, distance: u64, far: u64) -> usize {
    let few = random.index(20);
    if distance > far {
        return few;
    }
    let distance = distance as usize;
    match random.below(8) {
        0 => distance.saturating_sub(1),
        1 => distance + 1,
        2 | 3 => distance + few,
        4 => few.min(distance),
        _ => distance,
    }
}

/// Around the need; the lowest and the highest numbers.
fn budget(random: &mut Random, need: u64) -> u64 {
    match random.below(12) {
        0..=4 => random.near(need, 2),
        5 => need,
        6 => random.below(need),
        7 => random.below(need.min(12)),
        8 => 0,
        9 => 1,
        10 => u64::MAX - random.below(2),
        _ => need.saturating_add(random.next() >> random.below(64)),
    }
}

impl Route {
    /// What X holds, for any number: 0 for those that are none.
    fn x(&self, number: u32) -> u64 {
        self.state.x.get(number as usize).copied().unwrap_or(0)
    }

    /// D.
    pub fn distance(&self) -> u64 {
        self.x(self.m).saturating_sub(self.x(self.n))
    }

    /// E, for any size and length.
    pub fn elements(&self) -> u64 {
        (self.state.vl / (8 << self.size.min(3))).max(1)
    }

    /// D + 3R + 2.
    pub fn need(&self) -> u64 {
        let distance = self.distance();
        let rounds = distance.div_ceil(self.elements());
        distance.saturating_add(rounds.saturating_mul(3)).saturating_add(2)
    }
}
