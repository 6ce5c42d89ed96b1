//! Why each rule of ownership is there: for each there is a case in which, without it, one kernel's outcome goes by the other.
//! The library refuses it with 15; the flags it keeps for each.

use crate::differences::{show_shared, Outcome};
use crate::kind::{Forms, Kind};
use crate::seen::Seen;
use crate::taken::{list_for, show_turn, take, Answer};
use compare::actions::{self, word_of, Action, Tour, Turn, TOUR_FIELDS};
use compare::instructions::{
    short_word, FORMS, LOGIC, PFIRST, PNEXT, PTEST, RDFFR, WHILE_COUNTER, WHILE_ONE, WHILE_PAIR, WRFFR,
};
use compare::kernels::{self, fields, is_of_ffr, may_execute, other, own_p, own_row, part_of, Field, KERNELS};
use compare::random::Random;
use compare::states::{self, LENGTHS};
use model::{Kernel, Shared, Walked};

const KIND: u64 = 36;

/// At most so many are drawn until one breaks.
const DRAWS: usize = 60;

/// How far the X are from each other at most.
const FAR: u64 = 40;

/// The forms that write flags, but for FFR's.
const FLAG_WRITERS: [u8; 7] = [WHILE_ONE, WHILE_PAIR, WHILE_COUNTER, PNEXT, PFIRST, PTEST, LOGIC];

/// A rule that is broken, by what alone breaks it.
#[derive(Clone, Copy, PartialEq, Eq, Hash, Debug)]
enum Breach {
    /// A field of a word, which names a register of the other.
    Field(Field),
    /// A word of FFR's, by its form.
    Ffr(u8),
    /// A register of a walk, by its place.
    Walk(usize),
    /// Flags that are there once for both, by the form that writes them.
    Flags(u8),
    WalkFlags,
}

fn breaches(kernel: Kernel) -> Vec<Breach> {
    let forms = || 0..FORMS.len() as u8;
    let fields = forms().filter(|&form| !is_of_ffr(form)).flat_map(fields);
    let fields = fields.filter(|field| !field.others(kernel).is_empty()).map(Breach::Field);
    let ffr = forms().filter(|&form| is_of_ffr(form)).map(Breach::Ffr);
    let flags = FLAG_WRITERS.into_iter().filter(|&form| may_execute(kernel, form)).map(Breach::Flags);
    let walks = (0..TOUR_FIELDS.len()).map(Breach::Walk);
    fields.chain(ffr).chain(walks).chain(flags).chain([Breach::WalkFlags]).collect()
}

#[derive(Clone, Copy, PartialEq, Eq, Hash, Debug)]
pub struct Case {
    kernel: Kernel,
    breach: Breach,
    vl: u64,
}

fn cases() -> Vec<Case> {
    let of_kernel = |kernel| breaches(kernel).into_iter().map(move |breach| (kernel, breach));
    let pairs = KERNELS.into_iter().flat_map(of_kernel);
    pairs.flat_map(|(kernel, breach)| LENGTHS.map(|vl| Case { kernel, breach, vl })).collect()
}

/// An action, a shared state, and one that is alike in the part of the kernel that acts.
pub struct Draw {
    shared: Shared,
    alike: Shared,
    turn: Turn,
}

impl Case {
    fn draw(&self, random: &mut Random) -> Draw {
        let kernel = self.kernel;
        let mut shared = kernels::ready(random, self.vl);
        let lowest = random.below(u64::MAX - FAR);
        for x in &mut shared.state.x {
            *x = lowest + random.below(FAR);
        }
        let action = match self.breach {
            Breach::Field(field) => {
                Action::Word(actions::word_with_other(random, kernel, &field).expect("it can name one"))
            }
            Breach::Ffr(form) | Breach::Flags(form) => Action::Word(word_of(&own_row(random, kernel, form))),
            Breach::Walk(place) => Action::Walk(with_room(actions::tour_with_other(random, kernel, place))),
            Breach::WalkFlags => Action::Walk(with_room(actions::own_tour(random, kernel))),
        };
        if self.breach == Breach::Ffr(WRFFR) {
            let run = states::run(random.below(self.vl / 8 + 1));
            own_p(kernel).for_each(|number| states::put(&mut shared.state, number, run));
        }
        let alike = kernels::alike(random, &shared, kernel);
        Draw { shared, alike, turn: Turn { kernel, action } }
    }

    fn is_of_flags(&self) -> bool {
        matches!(self.breach, Breach::Flags(_) | Breach::WalkFlags)
    }
}

/// With room and budget for any two X of the state.
fn with_room(tour: Tour) -> Tour {
    Tour { places: FAR as usize, budget: u64::MAX, ..tour }
}

pub struct Why;

impl Kind for Why {
    type Input = (Case, Vec<Draw>);
    const NAME: &'static str = "why";
    const REPLIES: &'static [u8] = &[0, 15];
    const FORMS: Forms = Forms::None;
    const NOTES: &'static [&'static str] = &[READS, WRITES, FFR, FLAGS];

    fn numbers() -> impl Iterator<Item = u64> {
        0..cases().len() as u64
    }

    fn make(seed: u64, number: u64) -> Self::Input {
        let random = &mut Random::new(seed, KIND, number);
        let case = cases()[number as usize];
        (case, (0..DRAWS).map(|_| case.draw(random)).collect())
    }

    fn show((case, _): &Self::Input) -> String {
        format!("{case:?}\n")
    }

    fn compare((case, draws): &Self::Input, seen: &mut Seen) -> Outcome {
        for draw in draws {
            let (answer, after) = take(&draw.shared, &draw.turn)?;
            check_kept(case, draw, &answer, &after)?;
            let broken = if case.is_of_flags() { without_flags(draw) } else { without_15(draw) };
            if let Some(how) = broken {
                seen.reply(answer.reply);
                seen.note(how);
                return Ok(());
            }
        }
        Err(vec!["without the rule nothing was broken".to_string()])
    }
}

const READS: &str = "a kernel's outcome goes by the other's part";
const WRITES: &str = "the other's part is written";
const FFR: &str = "the other reads what was written to FFR";
const FLAGS: &str = "the flags of both are written";

/// With the rule: 15, and nothing is changed; of an accepted action, nothing of the other.
fn check_kept(case: &Case, draw: &Draw, answer: &Answer, after: &Shared) -> Outcome {
    let idle = other(case.kernel);
    let kept = if case.is_of_flags() {
        answer.reply == 0 && part_of(after, idle) == part_of(&draw.shared, idle)
    } else {
        answer.reply == 15 && *after == draw.shared
    };
    if kept {
        return Ok(());
    }
    Err(vec![show_shared(&draw.shared), show_turn(&draw.turn), format!("reply {}, or another state", answer.reply)])
}

/// What a turn does without reply 15: the ordinary step or walk on the state with that kernel's flags.
fn ordinary(shared: &Shared, turn: &Turn) -> (Answer, Shared) {
    let (mut state, mut list) = (shared.state_of(turn.kernel), list_for(turn));
    match turn.action {
        Action::Word(word) => {
            let reply = model::step(&mut state, word);
            (Answer { reply, count: 0, visited: 0, list }, shared.with(turn.kernel, state))
        }
        Action::Walk(Tour { size, n, m, d, k, budget, .. }) => {
            let Walked { reply, count, visited, state } = model::walk(&state, size, n, m, d, k, list.part(), budget);
            (Answer { reply, count, visited, list }, shared.with(turn.kernel, state))
        }
    }
}

/// How one kernel's outcome goes by the other, if it does.
fn without_15(Draw { shared, alike, turn }: &Draw) -> Option<&'static str> {
    let idle = other(turn.kernel);
    let (answer, after) = ordinary(shared, turn);
    let (again, alike_after) = ordinary(alike, turn);
    if answer != again || part_of(&after, turn.kernel) != part_of(&alike_after, turn.kernel) {
        return Some(READS);
    }
    if part_of(&after, idle) != part_of(shared, idle) {
        return Some(WRITES);
    }
    let rdffr = Turn { kernel: idle, action: Action::Word(short_word(RDFFR, &[own_p(idle).start])) };
    let read = |shared: &Shared| part_of(&ordinary(shared, &rdffr).1, idle);
    (read(&after) != read(shared)).then_some(FFR)
}

/// With one set of flags for both, a turn writes those of the other.
fn without_flags(Draw { shared, turn, .. }: &Draw) -> Option<&'static str> {
    let idle = other(turn.kernel);
    let flags = |shared: &Shared| shared.state_of(turn.kernel).flags;
    let one_set = shared.with(turn.kernel, shared.state_of(idle));
    (flags(&ordinary(&one_set, turn).1) != flags(&one_set)).then_some(FLAGS)
}

#[cfg(test)]
mod tests {
    use super::*;

    /// Each field that names a register, but for a counter's target by the second, and each word of FFR's, register of a walk
    /// and form that writes flags.
    #[test]
    fn every_breach_is_made() {
        let registers = (0..12).map(|form| fields(form).len()).sum::<usize>();
        let beside = 5 + TOUR_FIELDS.len() + FLAG_WRITERS.len() + 1;
        assert_eq!(KERNELS.map(|kernel| breaches(kernel).len()), [registers + beside - 1, registers - 1 + beside]);
        assert_eq!(Why::numbers().count(), LENGTHS.len() * 2 * (registers + beside - 1));
    }

    /// The forms that write flags are those after which they may be others.
    #[test]
    fn flag_writers_are_those_that_write() {
        let mut writing = std::collections::BTreeSet::new();
        for number in 0..20_000 {
            let random = &mut Random::new(1, KIND, number);
            let shared = kernels::ready(random, 256);
            let form = number as u8 % FORMS.len() as u8;
            let row = own_row(random, Kernel::Second, form);
            let turn = Turn { kernel: Kernel::Second, action: Action::Word(word_of(&row)) };
            if !is_of_ffr(form) && ordinary(&shared, &turn).1.second != shared.second {
                writing.insert(form);
            }
        }
        assert_eq!(writing.into_iter().collect::<Vec<_>>(), FLAG_WRITERS);
    }
}
