//! Words of each form by each kernel, with every value of each field that names a register, and with each other refusal at the
//! same time.

use crate::differences::{show_shared, Outcome};
use crate::digits::Digits;
use crate::kind::{Forms, Kind};
use crate::seen::Seen;
use crate::taken::{show_turn, take};
use compare::actions::{word_of, Action, Turn};
use compare::instructions::{left_out, level_of, FORMS, LOGIC, WRFFR};
use compare::kernels::{self, fields, is_of_ffr, may_execute, own_row, Field, KERNELS};
use compare::random::Random;
use compare::states::{self, LENGTHS};
use model::{decode, Kernel, Row, Shared};
use std::collections::BTreeSet;

const KIND: u64 = 33;
const DRAWS: usize = 16;

/// The first refusal that comes before 15, in the order of the replies; `None` for a word that none of them refuses.
#[derive(Clone, Copy, PartialEq, Eq, PartialOrd, Ord, Hash, Debug)]
enum Before {
    Illegal,
    Foreign,
    Unsupported,
    LowLevel,
    AccessOff,
    None,
}

const BEFORE: [Before; 6] =
    [Before::Illegal, Before::Foreign, Before::Unsupported, Before::LowLevel, Before::AccessOff, Before::None];

/// What a case is made of, beside random numbers. The numbers of the cases count through all combinations.
#[derive(Clone, Copy, PartialEq, Eq, Hash, Debug)]
pub struct Case {
    form: u8,
    kernel: Kernel,
    before: Before,
    vl: u64,
}

impl Case {
    const COUNT: usize = FORMS.len() * KERNELS.len() * BEFORE.len() * LENGTHS.len() * DRAWS;

    fn new(number: u64) -> Case {
        let mut digits = Digits::of(number);
        Case {
            form: digits.below(FORMS.len()) as u8,
            kernel: digits.pick(&KERNELS),
            before: digits.pick(&BEFORE),
            vl: digits.pick(&LENGTHS),
        }
    }

    /// The replies to all words of the case.
    fn replies(&self) -> BTreeSet<u8> {
        BTreeSet::from_iter(match self.before {
            Before::Illegal => vec![4],
            Before::Foreign => vec![1],
            Before::Unsupported => vec![13],
            Before::LowLevel => vec![2],
            Before::AccessOff => vec![3],
            Before::None if may_execute(self.kernel, self.form) => vec![0, 15],
            Before::None => vec![15],
        })
    }

    /// Whether this refusal is the first, or is drawn to come with an earlier one.
    fn has(&self, random: &mut Random, before: Before) -> bool {
        self.before == before || self.before < before && random.one_in(3)
    }
}

/// A word, and the row it was made from: the word is another where it is damaged.
pub struct Asked {
    row: Row,
    word: u32,
    /// The field that alone may name a register of the other kernel.
    field: Option<Field>,
}

pub struct Owners;

impl Kind for Owners {
    type Input = (Case, Shared, Vec<Asked>);
    const NAME: &'static str = "owners";
    const REPLIES: &'static [u8] = &[0, 1, 2, 3, 4, 13, 15];
    const FORMS: Forms = Forms::EachButFfrsAtEachLength;
    /// The names are those of a field that alone names a register of the other kernel.
    const NOTES: &'static [&'static str] = &[
        "Rm",
        "Rn",
        "Rdn",
        "Rd",
        "Pd",
        "PNd",
        "Pm",
        "Pg",
        "Pn",
        "PNn",
        "Pv",
        "Pdn",
        "X31 accepted",
        "a word of FFR's, of own registers",
        "4, else 15",
        "1, else 15",
        "13, else 15",
        "2, else 15",
        "3, else 15",
        "15, else 14",
    ];

    fn numbers() -> impl Iterator<Item = u64> {
        0..Case::COUNT as u64
    }

    fn make(seed: u64, number: u64) -> Self::Input {
        let random = &mut Random::new(seed, KIND, number);
        let case = Case::new(number);
        let own = own_row(random, case.kernel, case.form);
        let mut shared = kernels::ready(random, case.vl);
        if case.has(random, Before::LowLevel) {
            shared.state.level = random.below(u64::from(level_of(word_of(&own)))) as u8;
        }
        shared.state.access = !case.has(random, Before::AccessOff);
        let damage = [Before::Foreign, Before::Unsupported].into_iter().find(|&damage| case.has(random, damage));
        if case.has(random, Before::Illegal) {
            states::spoil(random, &mut shared.state);
        }
        let mut asked = vec![(own, None)];
        for field in fields(case.form) {
            asked.extend(field.values().map(|value| (with(own, &field, value), Some(field))));
        }
        let asked = asked.into_iter().map(|(row, field)| Asked { row, word: damaged(random, &row, damage), field });
        (case, shared, asked.collect())
    }

    fn show((case, shared, _): &Self::Input) -> String {
        format!("{}{case:?}\n", show_shared(shared))
    }

    fn compare((case, shared, asked): &Self::Input, seen: &mut Seen) -> Outcome {
        let mut came = BTreeSet::new();
        for asked in asked {
            let turn = Turn { kernel: case.kernel, action: Action::Word(asked.word) };
            let (answer, _) = take(shared, &turn)?;
            seen.reply(answer.reply);
            came.insert(answer.reply);
            note(seen, case, shared, asked, answer.reply);
            if !case.replies().contains(&answer.reply) {
                return Err(vec![show_turn(&turn), format!("reply {}, not one of {:?}", answer.reply, case.replies())]);
            }
        }
        if came == case.replies() {
            Ok(())
        } else {
            Err(vec![format!("replies {came:?}, not {:?}", case.replies())])
        }
    }
}

fn with(mut row: Row, field: &Field, value: u8) -> Row {
    row[field.place] = value;
    row
}

/// The word of a row, or one that is none of ours: with another highest byte, or with two bits changed; of SEL, with S.
fn damaged(random: &mut Random, row: &Row, damage: Option<Before>) -> u32 {
    let word = word_of(row);
    match damage {
        Some(Before::Foreign) => word ^ (1 + random.below(255) as u32) << 24,
        Some(_) if row[0] == LOGIC && random.one_in(4) => left_out(random),
        Some(_) => loop {
            let changed = word ^ 1 << random.below(24) ^ 1 << random.below(24);
            if decode(changed).is_none() {
                break changed;
            }
        },
        None => word,
    }
}

fn note(seen: &mut Seen, case: &Case, shared: &Shared, asked: &Asked, reply: u8) {
    let names_other = fields(case.form).iter().any(|field| field.others(case.kernel).contains(&asked.row[field.place]));
    let else_15 = names_other || is_of_ffr(case.form);
    match reply {
        0 => {
            seen.form(&asked.row, shared.state.vl);
            let is_x = |field: &Field| field.name.starts_with('R');
            let open = fields(case.form).iter().any(|field| is_x(field) && asked.row[field.place] == 31);
            seen.note_if(open, "X31 accepted");
        }
        15 => note_refused(seen, case, shared, asked, names_other),
        4 => seen.note_if(else_15, "4, else 15"),
        1 => seen.note_if(else_15, "1, else 15"),
        13 => seen.note_if(else_15, "13, else 15"),
        2 => seen.note_if(else_15, "2, else 15"),
        _ => seen.note_if(else_15, "3, else 15"),
    }
}

fn note_refused(seen: &mut Seen, case: &Case, shared: &Shared, asked: &Asked, names_other: bool) {
    if is_of_ffr(case.form) {
        seen.note_if(!names_other, "a word of FFR's, of own registers");
    } else if let Some(field) = asked.field {
        seen.note_if(names_other, field.name);
    }
    if let [WRFFR, pn, ..] = asked.row {
        seen.note_if(!states::is_run(&shared.state.p[usize::from(pn)]), "15, else 14");
    }
}

#[cfg(test)]
mod tests {
    use super::*;
    use compare::instructions;
    use std::collections::HashSet;

    /// Each value of each field that names a register comes up in each case of its form, where all others are the kernel's own.
    #[test]
    fn every_value_is_made() {
        let mut cases = HashSet::new();
        for number in Owners::numbers().take(Case::COUNT / DRAWS) {
            let (case, shared, asked) = Owners::make(1, number);
            assert_eq!(case, Case::new(number));
            let fields = fields(case.form);
            let values: usize = fields.iter().map(|field| field.values().len()).sum();
            assert_eq!(asked.len(), 1 + values);
            for asked in &asked {
                let is_other = |field: &Field| field.others(case.kernel).contains(&asked.row[field.place]);
                let others = fields.iter().filter(|&field| is_other(field) && asked.field != Some(*field));
                assert!(others.count() <= usize::from(!may_execute(case.kernel, case.form)), "{:?}", asked.row);
            }
            assert_eq!(states::faults(&shared.state).is_empty(), case.before != Before::Illegal);
            cases.insert(case);
        }
        assert_eq!(cases.len(), Case::COUNT / DRAWS);
    }

    /// Undamaged, a word is the row's; damaged, it is none of ours, and foreign exactly where it is to be.
    #[test]
    fn damaged_words() {
        for number in 0..2000 {
            let random = &mut Random::new(1, 0, number);
            let row = instructions::row(random, number as usize % FORMS.len());
            assert_eq!(decode(damaged(random, &row, None)), Some(row));
            for (damage, reply) in [(Before::Foreign, 1), (Before::Unsupported, 13)] {
                let word = damaged(random, &row, Some(damage));
                assert_eq!((decode(word), model::decode_refusal(word)), (None, reply));
            }
        }
    }
}
