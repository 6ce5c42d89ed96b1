//! Words and walks of both kernels, one after the other; that what one kernel does and has does not go by the other; and that
//! two turns of both can be exchanged.

use crate::differences::{show_shared, Outcome};
use crate::kind::{Forms, Kind};
use crate::seen::Seen;
use crate::taken::{show_turn, take, Answer};
use compare::actions::{self, Action, Turn};
use compare::kernels::{self, other, part_of, KERNELS};
use compare::random::Random;
use compare::states::LENGTHS;
use model::{decode, Kernel, Shared};

const KIND: u64 = 35;
const SCHEDULES: u64 = 25_000;
const MOST_TURNS: usize = 30;

/// A schedule, and one of which a kernel cannot tell it: the shared state is alike in its part, and its turns are the same in
/// the same order.
pub struct Schedule {
    shared: Shared,
    turns: Vec<Turn>,
    kernel: Kernel,
    alike: Shared,
    other_turns: Vec<Turn>,
}

/// A turn that was taken, the answer to it and the shared state after it.
struct Taken {
    turn: Turn,
    answer: Answer,
    after: Shared,
}

pub struct Schedules;

impl Kind for Schedules {
    type Input = Schedule;
    const NAME: &'static str = "schedules";
    const REPLIES: &'static [u8] = &[0, 1, 2, 3, 10, 11, 12, 13, 15];
    const FORMS: Forms = Forms::EachButFfrsAtEachLength;
    const NOTES: &'static [&'static str] = &[
        "a word refused with 15",
        "a walk refused with 15",
        "a walk ended",
        "a walk ended after positions",
        "a walk spent after positions",
        "flags of the first written",
        "flags of the second written",
        "alike, the first",
        "alike, the second",
        "alike, more turns of the other",
        "alike, fewer turns of the other",
        "alike, another end of the other",
        "exchanged, two words",
        "exchanged, a word and a walk",
        "exchanged, two walks",
        "exchanged, both change the state",
        "exchanged, one refused",
    ];

    fn numbers() -> impl Iterator<Item = u64> {
        0..SCHEDULES
    }

    fn make(seed: u64, number: u64) -> Schedule {
        let random = &mut Random::new(seed, KIND, number);
        let vl = LENGTHS[number as usize % LENGTHS.len()];
        let mut shared = kernels::legal(random, vl);
        KERNELS.iter().for_each(|&kernel| actions::bring_near(random, &mut shared, kernel));
        let count = random.index(MOST_TURNS + 1);
        let turns = actions::turns(random, count);
        let kernel = random.pick(&KERNELS);
        let mut alike = kernels::alike(random, &shared, kernel);
        if random.one_in(2) {
            actions::bring_near(random, &mut alike, other(kernel));
        }
        let count = random.index(MOST_TURNS + 1);
        let other_turns = actions::between(random, &turns, kernel, count);
        Schedule { shared, turns, kernel, alike, other_turns }
    }

    fn show(schedule: &Schedule) -> String {
        let Schedule { shared, turns, kernel, alike, other_turns } = schedule;
        let show = |shared, turns: &[Turn]| show_shared(shared) + &turns.iter().map(show_turn).collect::<String>();
        format!("{}alike for {kernel:?}:\n{}", show(shared, turns), show(alike, other_turns))
    }

    fn compare(schedule: &Schedule, seen: &mut Seen) -> Outcome {
        let taken = play(&schedule.shared, &schedule.turns)?;
        taken.iter().for_each(|taken| note(seen, schedule.shared.state.vl, taken));
        note_flags(seen, &schedule.shared, &taken);
        compare_fixed(&schedule.shared, &taken)?;
        compare_alike(schedule, &taken, seen)?;
        compare_exchanged(&schedule.shared, &taken, seen)
    }
}

/// All turns in their order, the library's answers against the second program's.
fn play(shared: &Shared, turns: &[Turn]) -> Result<Vec<Taken>, Vec<String>> {
    let mut taken: Vec<Taken> = Vec::new();
    for (number, &turn) in turns.iter().enumerate() {
        let before = taken.last().map_or(shared, |last| &last.after);
        let named = |lines: Vec<String>| [vec![format!("turn {number}")], lines].concat();
        let (answer, after) = take(before, &turn).map_err(named)?;
        taken.push(Taken { turn, answer, after });
    }
    Ok(taken)
}

/// "Vector length, level and access are shared and fixed", and FFR is written by neither kernel.
fn compare_fixed(shared: &Shared, taken: &[Taken]) -> Outcome {
    let fixed = |Shared { state, .. }: &Shared| (state.vl, state.level, state.access, state.ffr);
    match taken.iter().find(|taken| fixed(&taken.after) != fixed(shared)) {
        Some(taken) => Err(vec!["a setting or FFR is another after".to_string(), show_turn(&taken.turn)]),
        None => Ok(()),
    }
}

/// A kernel's answers come out the same, and so do its registers and flags after each of its turns and at the end. So far the
/// library and the second program agree, so that this is said of both.
fn compare_alike(schedule: &Schedule, taken: &[Taken], seen: &mut Seen) -> Outcome {
    let Schedule { shared, kernel, alike, other_turns, .. } = schedule;
    let others = play(alike, other_turns).map_err(|lines| [vec!["alike".to_string()], lines].concat())?;
    assert_eq!(of(taken, *kernel).count(), of(&others, *kernel).count(), "its turns are the same");
    for (one, two) in of(taken, *kernel).zip(of(&others, *kernel)) {
        if one.answer != two.answer || part_of(&one.after, *kernel) != part_of(&two.after, *kernel) {
            return Err(vec![format!("{kernel:?} tells the two apart"), show_turn(&one.turn), told(one), told(two)]);
        }
    }
    let end =
        |shared: &Shared, taken: &[Taken], kernel| part_of(taken.last().map_or(shared, |last| &last.after), kernel);
    if end(shared, taken, *kernel) != end(alike, &others, *kernel) {
        return Err(vec![format!("{kernel:?} has another end")]);
    }
    seen.note(["alike, the first", "alike, the second"][*kernel as usize]);
    seen.note_if(others.len() > taken.len(), "alike, more turns of the other");
    seen.note_if(others.len() < taken.len(), "alike, fewer turns of the other");
    let another = end(shared, taken, other(*kernel)) != end(alike, &others, other(*kernel));
    seen.note_if(another, "alike, another end of the other");
    Ok(())
}

/// The turns of a kernel.
fn of(taken: &[Taken], kernel: Kernel) -> impl Iterator<Item = &Taken> {
    taken.iter().filter(move |taken| taken.turn.kernel == kernel)
}

fn told(taken: &Taken) -> String {
    let part = part_of(&taken.after, taken.turn.kernel);
    format!("{} {} {} {part:x?}", taken.answer.reply, taken.answer.count, taken.answer.visited)
}

/// "One step of each, in either order, gives the same replies and state": each two neighbours of both kernels.
fn compare_exchanged(shared: &Shared, taken: &[Taken], seen: &mut Seen) -> Outcome {
    for i in 1..taken.len() {
        let [one, two] = [&taken[i - 1], &taken[i]];
        if one.turn.kernel == two.turn.kernel {
            continue;
        }
        let before = if i == 1 { shared } else { &taken[i - 2].after };
        let exchanged = play(before, &[two.turn, one.turn])?;
        let same = exchanged[0].answer == two.answer && exchanged[1].answer == one.answer;
        if !same || exchanged[1].after != two.after {
            let lines = [one, two, &exchanged[0], &exchanged[1]].map(told);
            return Err([vec![format!("turns {} and {i} exchanged", i - 1)], lines.to_vec()].concat());
        }
        note_exchanged(seen, before, one, two);
    }
    Ok(())
}

fn note(seen: &mut Seen, vl: u64, taken: &Taken) {
    let Answer { reply, visited, .. } = taken.answer;
    seen.reply(reply);
    match taken.turn.action {
        Action::Word(word) => {
            seen.note_if(reply == 15, "a word refused with 15");
            if reply == 0 {
                seen.form(&decode(word).expect("it was executed"), vl);
            }
        }
        Action::Walk(_) => {
            seen.note_if(reply == 15, "a walk refused with 15");
            seen.note_if(reply == 0, "a walk ended");
            seen.note_if(reply == 0 && visited > 0, "a walk ended after positions");
            seen.note_if(reply == 12 && visited > 0, "a walk spent after positions");
        }
    }
}

fn note_flags(seen: &mut Seen, shared: &Shared, taken: &[Taken]) {
    let mut before = shared;
    for Taken { after, .. } in taken {
        seen.note_if(before.state.flags != after.state.flags, "flags of the first written");
        seen.note_if(before.second != after.second, "flags of the second written");
        before = after;
    }
}

fn note_exchanged(seen: &mut Seen, before: &Shared, one: &Taken, two: &Taken) {
    seen.note(match (one.turn.action, two.turn.action) {
        (Action::Word(_), Action::Word(_)) => "exchanged, two words",
        (Action::Walk(_), Action::Walk(_)) => "exchanged, two walks",
        _ => "exchanged, a word and a walk",
    });
    let both = *before != one.after && one.after != two.after;
    seen.note_if(both, "exchanged, both change the state");
    seen.note_if((one.answer.reply == 0) != (two.answer.reply == 0), "exchanged, one refused");
}
