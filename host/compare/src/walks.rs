//! Walks.

use crate::boundary;
use crate::differences::{show_state, Differences, Outcome};
use crate::kind::{Forms, Kind};
use crate::lent::{whole, Lent};
use crate::seen::Seen;
use compare::random::Random;
use compare::routes::{route, Bounds, Route};
use compare::states::{self, spoil, Fault, LENGTHS};

pub struct Walks;

const WALKS: u64 = 120_000;
const KIND: u64 = 13;

impl Kind for Walks {
    type Input = (Route, Lent<u64>);
    const NAME: &'static str = "walks";
    const REPLIES: &'static [u8] = &[0, 2, 3, 4, 10, 11, 12];
    const FORMS: Forms = Forms::None;
    const NOTES: &'static [&'static str] = &[
        "size past 3",
        "X past 31",
        "P past 15",
        "n = 31",
        "m = 31",
        "n = m",
        "d = k",
        "D = 0",
        "start = limit",
        "start above limit",
        "D above 1,000",
        "limit near the last number",
        "D - 1 places",
        "D places",
        "D + 1 places",
        "more places",
        "no places",
        "budget 0",
        "budget 1",
        "need - 2",
        "need - 1",
        "need",
        "need + 1",
        "need + 2",
        "budget the last number",
        "ended",
        "ended after some rounds",
        "spent after some rounds",
        "illegal by FFR",
        "illegal by a count",
        "FFR not all false",
    ];

    fn numbers() -> impl Iterator<Item = u64> {
        0..WALKS
    }

    fn make(seed: u64, number: u64) -> (Route, Lent<u64>) {
        let random = &mut Random::new(seed, KIND, number);
        let vl = random.pick(&LENGTHS);
        let far = match random.below(50) {
            0 => 2_000,
            1..=19 => 300,
            _ => 60,
        };
        let mut route = route(random, vl, &Bounds { far, bytes: false });
        if random.one_in(25) {
            spoil(random, &mut route.state);
        }
        let list = Lent::new(route.places, random, whole);
        (route, list)
    }

    fn show((route, _): &(Route, Lent<u64>)) -> String {
        let Route { state, size, n, m, d, k, places, budget } = route;
        let numbers = format!("size {size} n {n} m {m} d {d} k {k}, {places} places, budget {budget}");
        format!("{}{numbers}, D {}, need {}\n", show_state(state), route.distance(), route.need())
    }

    fn compare((route, list): &(Route, Lent<u64>), seen: &mut Seen) -> Outcome {
        let (mut ours, mut theirs) = (list.clone(), list.clone());
        let library = boundary::walk(route, ours.part());
        let Route { state, size, n, m, d, k, budget, .. } = route;
        let second = model::walk(state, *size, *n, *m, *d, *k, theirs.part(), *budget);
        let mut differences = Differences::default();
        differences.field("reply", library.reply, second.reply);
        differences.field("count", library.count, second.count);
        differences.field("visited", library.visited, second.visited);
        differences.state(&library.state, &second.state);
        differences.lent("list", &ours, &theirs);
        seen.reply(second.reply);
        seen.note_if(states::is_illegal_by(state, Fault::Ffr), "illegal by FFR");
        seen.note_if(states::is_illegal_by(state, Fault::Count), "illegal by a count");
        note_registers(seen, route);
        if !matches!(second.reply, 2 | 3 | 4 | 10) {
            note_ends(seen, route);
            note_places(seen, route);
        }
        if matches!(second.reply, 0 | 12) {
            note_budget(seen, route);
            let rounds = second.state.x[*n as usize] != state.x[*n as usize];
            seen.note_if(state.ffr != [0; 4], "FFR not all false");
            seen.note_if(second.reply == 0, "ended");
            seen.note_if(second.reply == 0 && rounds, "ended after some rounds");
            seen.note_if(second.reply == 12 && rounds, "spent after some rounds");
        }
        differences.outcome()
    }
}

fn note_registers(seen: &mut Seen, route: &Route) {
    let Route { size, n, m, d, k, .. } = *route;
    seen.note_if(size > 3, "size past 3");
    seen.note_if(n > 31 || m > 31, "X past 31");
    seen.note_if(d > 15 || k > 15, "P past 15");
    seen.note_if(n == 31, "n = 31");
    seen.note_if(m == 31, "m = 31");
    seen.note_if(n == m, "n = m");
    seen.note_if(d == k, "d = k");
}

/// The registers are allowed.
fn note_ends(seen: &mut Seen, route: &Route) {
    let start = route.state.x[route.n as usize];
    let limit = route.state.x.get(route.m as usize).copied().unwrap_or(0);
    let distance = route.distance();
    seen.note_if(distance == 0, "D = 0");
    seen.note_if(start == limit, "start = limit");
    seen.note_if(start > limit, "start above limit");
    seen.note_if(distance > 1000 && distance < 10_000, "D above 1,000");
    seen.note_if(distance > 0 && limit > u64::MAX - 10, "limit near the last number");
}

fn note_places(seen: &mut Seen, route: &Route) {
    let (distance, places) = (route.distance(), route.places as u64);
    match places.wrapping_sub(distance) as i64 {
        -1 => seen.note("D - 1 places"),
        0 => seen.note("D places"),
        1 => seen.note("D + 1 places"),
        _ => seen.note_if(places > distance, "more places"),
    }
    seen.note_if(places == 0, "no places");
}

fn note_budget(seen: &mut Seen, route: &Route) {
    match route.budget.wrapping_sub(route.need()) as i64 {
        -2 => seen.note("need - 2"),
        -1 => seen.note("need - 1"),
        0 => seen.note("need"),
        1 => seen.note("need + 1"),
        2 => seen.note("need + 2"),
        _ => {}
    }
    seen.note_if(route.budget == 0, "budget 0");
    seen.note_if(route.budget == 1, "budget 1");
    seen.note_if(route.budget == u64::MAX, "budget the last number");
}
