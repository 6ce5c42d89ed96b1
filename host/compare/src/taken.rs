//! A kernel's turn on a shared state: the library's answer against the second program's.

use crate::boundary;
use crate::differences::{show_word, Differences};
use crate::lent::{whole, Lent};
use compare::actions::{Action, Tour, Turn};
use compare::random::Random;
use model::{Shared, SharedWalked};

/// What a turn is answered with, and the list after it. Of a word, the list has no places and the numbers are 0.
#[derive(Clone, PartialEq, Eq, Debug)]
pub struct Answer {
    pub reply: u8,
    pub count: u64,
    pub visited: usize,
    pub list: Lent<u64>,
}

/// The second program's answer and shared state, if the library's are the same.
pub fn take(shared: &Shared, turn: &Turn) -> Result<(Answer, Shared), Vec<String>> {
    let (ours, library) = by_library(shared, turn);
    let (theirs, second) = by_second(shared, turn);
    let numbers = |answer: &Answer| (answer.reply, answer.count, answer.visited);
    let mut differences = Differences::default();
    differences.field("reply, count and visited", numbers(&ours), numbers(&theirs));
    differences.shared(&library, &second);
    differences.lent("list", &ours.list, &theirs.list);
    let named = |lines: Vec<String>| [vec![show_turn(turn).trim_end().to_string()], lines].concat();
    differences.outcome().map(|()| (theirs, second)).map_err(named)
}

fn by_library(shared: &Shared, turn: &Turn) -> (Answer, Shared) {
    let mut list = list_for(turn);
    match turn.action {
        Action::Word(word) => {
            let (reply, shared) = boundary::shared_step(shared, turn.kernel, word);
            (Answer { reply, count: 0, visited: 0, list }, shared)
        }
        Action::Walk(tour) => {
            let walked = boundary::shared_walk(shared, turn.kernel, &tour, list.part());
            answered(walked, list)
        }
    }
}

fn by_second(shared: &Shared, turn: &Turn) -> (Answer, Shared) {
    let mut list = list_for(turn);
    match turn.action {
        Action::Word(word) => {
            let mut shared = shared.clone();
            let reply = model::shared_step(&mut shared, turn.kernel, word);
            (Answer { reply, count: 0, visited: 0, list }, shared)
        }
        Action::Walk(Tour { size, n, m, d, k, budget, .. }) => {
            let walked = model::shared_walk(shared, turn.kernel, size, n, m, d, k, list.part(), budget);
            answered(walked, list)
        }
    }
}

fn answered(walked: SharedWalked, list: Lent<u64>) -> (Answer, Shared) {
    let SharedWalked { reply, count, visited, shared } = walked;
    (Answer { reply, count, visited, list }, shared)
}

/// The list that is lent for a turn: it always holds the same before.
pub fn list_for(turn: &Turn) -> Lent<u64> {
    let places = match turn.action {
        Action::Word(_) => 0,
        Action::Walk(tour) => tour.places,
    };
    Lent::new(places, &mut Random::new(0, 0, 0), whole)
}

pub fn show_turn(turn: &Turn) -> String {
    let action = match turn.action {
        Action::Word(word) => show_word(word),
        Action::Walk(tour) => format!("{tour:?}\n"),
    };
    format!("{:?}: {action}", turn.kernel)
}
