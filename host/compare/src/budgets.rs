//! Walks at one budget after the other: whatever instruction is the last, the counts are right.

use crate::boundary;
use crate::differences::{show_state, Differences, Outcome};
use crate::kind::{Forms, Kind};
use crate::lent::{whole, Lent};
use crate::seen::Seen;
use compare::random::Random;
use compare::routes::{accepted, Route};
use compare::states::LENGTHS;
use model::Walked;

const KIND: u64 = 32;
const DRAWS: u64 = 24;

/// Every budget below this; past it, those around what is needed.
const EACH_BELOW: u64 = 200;
const AROUND: u64 = 6;

pub struct Budgets;

impl Kind for Budgets {
    type Input = Route;
    const NAME: &'static str = "budgets";
    const REPLIES: &'static [u8] = &[0, 12];
    const FORMS: Forms = Forms::None;
    const NOTES: &'static [&'static str] = &[
        "budget 0",
        "spent after PFALSE",
        "spent after WHILELO",
        "spent after PNEXT that found one",
        "spent after PNEXT that found none",
        "spent after INCP",
        "ended",
        "ended after some rounds",
        "other counts of Pd",
        "other counts of Pk",
        "counts of Pd not 0 at the end",
        "a count of Pd 256",
        "a count of Pk 1",
    ];

    /// Each length and size, so many times.
    fn numbers() -> impl Iterator<Item = u64> {
        0..LENGTHS.len() as u64 * 4 * DRAWS
    }

    fn make(seed: u64, number: u64) -> Route {
        let random = &mut Random::new(seed, KIND, number);
        let (vl, size) = (LENGTHS[number as usize % LENGTHS.len()], number as u32 / LENGTHS.len() as u32 % 4);
        let elements = vl / (8 << size);
        let distance = match random.below(4) {
            0 => random.below(elements),
            1 => elements,
            2 => elements + 1 + random.below(elements),
            _ => random.below(3),
        };
        accepted(random, vl, size, distance)
    }

    fn show(route: &Route) -> String {
        let Route { state, size, n, m, d, k, places, .. } = route;
        format!("{}size {size} n {n} m {m} d {d} k {k}, {places} places\n", show_state(state))
    }

    fn compare(route: &Route, seen: &mut Seen) -> Outcome {
        let need = route.need();
        for budget in (0..=need + 1).filter(|&budget| budget < EACH_BELOW || budget + AROUND > need) {
            let route = Route { budget, ..route.clone() };
            let walked = compare_at(&route).map_err(|lines| [vec![format!("budget {budget}")], lines].concat())?;
            seen.reply(walked.reply);
            note(seen, &route, &walked);
        }
        Ok(())
    }
}

/// The second program's walk, if the library's is the same.
fn compare_at(route: &Route) -> Result<Walked, Vec<String>> {
    let list = Lent::new(route.places, &mut Random::new(0, KIND, 0), whole);
    let (mut ours, mut theirs) = (list.clone(), list);
    let library = boundary::walk(route, ours.part());
    let Route { state, size, n, m, d, k, budget, .. } = route;
    let second = model::walk(state, *size, *n, *m, *d, *k, theirs.part(), *budget);
    let numbers = |walked: &Walked| (walked.reply, walked.count, walked.visited);
    let mut differences = Differences::default();
    differences.field("reply, count and visited", numbers(&library), numbers(&second));
    differences.state(&library.state, &second.state);
    differences.counts(&library.state);
    differences.state(&boundary::counted(&library.state), &library.state);
    differences.lent("list", &ours, &theirs);
    differences.outcome().map(|()| second)
}

/// The last instruction of a walk that was spent after so many. A round is WHILELO, a PNEXT for each lane and one more, and
/// INCP.
fn last_of(route: &Route, count: u64) -> &'static str {
    if count == 0 {
        return "budget 0";
    }
    let (mut positions, mut place) = (route.distance(), count - 1);
    let mut lanes = positions.min(route.elements());
    while place > lanes + 3 {
        (positions, place) = (positions - lanes, place - (lanes + 3));
        lanes = positions.min(route.elements());
    }
    match place {
        0 => "spent after PFALSE",
        1 => "spent after WHILELO",
        place if place == lanes + 3 => "spent after INCP",
        place if place == lanes + 2 => "spent after PNEXT that found none",
        _ => "spent after PNEXT that found one",
    }
}

fn note(seen: &mut Seen, route: &Route, walked: &Walked) {
    let rounds = walked.state.x[route.n as usize] != route.state.x[route.n as usize];
    seen.note(match walked.reply {
        0 if rounds => "ended after some rounds",
        0 => "ended",
        _ => last_of(route, walked.count),
    });
    let [d, k] = [route.d as usize, route.k as usize];
    seen.note_if(walked.state.counts[d] != route.state.counts[d], "other counts of Pd");
    seen.note_if(walked.state.counts[k] != route.state.counts[k], "other counts of Pk");
    seen.note_if(walked.count > 1 && walked.state.counts[d] != [0; 4], "counts of Pd not 0 at the end");
    seen.note_if(walked.count > 1 && walked.state.counts[d][0] == 256, "a count of Pd 256");
    seen.note_if(walked.count > 1 && walked.state.counts[k][0] == 1, "a count of Pk 1");
}
