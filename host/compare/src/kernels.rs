//! Two kernels on one register file: what each owns, shared states, and a kernel's part of one.

use crate::instructions::{self, FIELDS, FORMS, RDFFRS_PG, SETFFR, WHILE_COUNTER, WHILE_PAIR, WIDTHS};
use crate::random::Random;
use crate::states;
use model::{Flags, Kernel, Row, Shared};
use std::ops::Range;

pub const KERNELS: [Kernel; 2] = [Kernel::First, Kernel::Second];

pub fn other(kernel: Kernel) -> Kernel {
    match kernel {
        Kernel::First => Kernel::Second,
        Kernel::Second => Kernel::First,
    }
}

/// The X registers of a kernel; 31 is open to both.
pub fn own_x(kernel: Kernel) -> Range<u8> {
    match kernel {
        Kernel::First => 0..16,
        Kernel::Second => 16..31,
    }
}

/// The P registers of a kernel.
pub fn own_p(kernel: Kernel) -> Range<u8> {
    match kernel {
        Kernel::First => 0..8,
        Kernel::Second => 8..16,
    }
}

// ---- words ----

/// A field of a form that names a register, or a pair: where it stands in a row, its name, and its width.
#[derive(Clone, Copy, PartialEq, Eq, Hash, Debug)]
pub struct Field {
    pub form: u8,
    pub place: usize,
    pub name: &'static str,
    width: u8,
}

/// The fields of a form that name registers.
pub fn fields(form: u8) -> Vec<Field> {
    let (names, widths) = (FIELDS[usize::from(form)], WIDTHS[usize::from(form)]);
    let fields = (1..).zip(names.iter().zip(widths)).map(|(place, (&name, &width))| Field { form, place, name, width });
    fields.filter(|field| field.name.starts_with(['R', 'P'])).collect()
}

impl Field {
    /// All its values.
    pub fn values(&self) -> Range<u8> {
        0..1 << self.width
    }

    /// The values that name a register of the other kernel.
    pub fn others(&self, kernel: Kernel) -> Vec<u8> {
        self.values().filter(|&value| !self.is_own(kernel, value)).collect()
    }

    /// The values that name none; there are none for the target of a counter WHILE by the first kernel.
    pub fn own(&self, kernel: Kernel) -> Vec<u8> {
        self.values().filter(|&value| self.is_own(kernel, value)).collect()
    }

    fn is_own(&self, kernel: Kernel, value: u8) -> bool {
        let has_p = |number: u8| own_p(kernel).contains(&number);
        match (self.form, self.width) {
            (WHILE_PAIR, 3) => has_p(2 * value) && has_p(2 * value + 1),
            (WHILE_COUNTER, 3) => has_p(8 + value),
            (_, 4) => has_p(value),
            _ => own_x(kernel).contains(&value) || value == 31,
        }
    }
}

/// Whether a word of the form touches FFR.
pub fn is_of_ffr(form: u8) -> bool {
    (SETFFR..=RDFFRS_PG).contains(&form)
}

/// Whether a kernel may execute a word of the form, if it names none but its own registers.
pub fn may_execute(kernel: Kernel, form: u8) -> bool {
    !is_of_ffr(form) && fields(form).iter().all(|field| !field.own(kernel).is_empty())
}

/// A row of the form whose registers are the kernel's own, as far as it can have such.
pub fn own_row(random: &mut Random, kernel: Kernel, form: u8) -> Row {
    let mut row = instructions::row(random, usize::from(form));
    for field in fields(form) {
        let own = field.own(kernel);
        if !own.is_empty() {
            row[field.place] = random.pick(&own);
        }
    }
    row
}

/// The forms that a kernel may execute.
pub fn own_forms(kernel: Kernel) -> Vec<u8> {
    (0..FORMS.len() as u8).filter(|&form| may_execute(kernel, form)).collect()
}

// ---- shared states ----

/// A legal shared state of this length, mostly of level 3 and with access.
pub fn legal(random: &mut Random, vl: u64) -> Shared {
    Shared { state: states::legal(random, vl), second: states::flags(random) }
}

/// The same with access on, at level 3.
pub fn ready(random: &mut Random, vl: u64) -> Shared {
    let mut shared = legal(random, vl);
    (shared.state.level, shared.state.access) = (3, true);
    shared
}

/// What a kernel has of a shared state: its own registers, with the counts of its P, and its flags. The settings are those of
/// both.
#[derive(Clone, PartialEq, Eq, Debug)]
pub struct Part {
    pub settings: (u64, u8, bool),
    pub x: Vec<u64>,
    pub p: Vec<[u64; 4]>,
    pub counts: Vec<[u16; 4]>,
    pub flags: Flags,
}

pub fn part_of(shared: &Shared, kernel: Kernel) -> Part {
    let state = shared.state_of(kernel);
    let [x, p] = [own_x(kernel), own_p(kernel)].map(wide);
    Part {
        settings: (state.vl, state.level, state.access),
        x: state.x[x].to_vec(),
        p: state.p[p.clone()].to_vec(),
        counts: state.counts[p].to_vec(),
        flags: state.flags,
    }
}

/// A legal shared state alike in the kernel's part, with any other part of the other and any FFR.
pub fn alike(random: &mut Random, shared: &Shared, kernel: Kernel) -> Shared {
    let mut alike = legal(random, shared.state.vl);
    (alike.state.level, alike.state.access) = (shared.state.level, shared.state.access);
    let [x, p] = [own_x(kernel), own_p(kernel)].map(wide);
    alike.state.x[x.clone()].copy_from_slice(&shared.state.x[x]);
    alike.state.p[p.clone()].copy_from_slice(&shared.state.p[p.clone()]);
    alike.state.counts[p.clone()].copy_from_slice(&shared.state.counts[p]);
    match kernel {
        Kernel::First => alike.state.flags = shared.state.flags,
        Kernel::Second => alike.second = shared.second,
    }
    alike
}

fn wide(range: Range<u8>) -> Range<usize> {
    usize::from(range.start)..usize::from(range.end)
}

#[cfg(test)]
mod tests {
    use super::*;
    use crate::states::LENGTHS;

    /// The fields are those of the widths, and the registers among them have as many values as there are registers or pairs.
    #[test]
    fn fields_have_their_widths() {
        for form in 0..FORMS.len() {
            assert_eq!(FIELDS[form].len(), WIDTHS[form].len());
            let registers = fields(form as u8).len();
            assert_eq!(registers, WIDTHS[form].iter().filter(|&&width| width >= 3).count(), "{}", FORMS[form]);
        }
        let owned = |form, place: usize| KERNELS.map(|kernel| fields(form)[place].own(kernel).len());
        assert_eq!((owned(0, 0), owned(0, 2)), ([17, 16], [8, 8])); // Rm and Pd of WHILE one
        assert_eq!((owned(WHILE_PAIR, 2), owned(WHILE_COUNTER, 2)), ([4, 4], [0, 8]));
    }

    /// "Counter WHILE therefore belongs to the second", and FFR's words to neither.
    #[test]
    fn forms_of_each_kernel() {
        let forms: Vec<u8> = (0..12).collect();
        assert_eq!(own_forms(Kernel::Second), forms);
        assert_eq!(own_forms(Kernel::First), [&forms[..2], &forms[3..]].concat());
    }

    /// The one part is the same, and of the other each register, count and flag is now and then another; so is FFR.
    #[test]
    fn alike_in_one_part() {
        let others = |a: &Part, b: &Part| [a.x != b.x, a.p != b.p, a.counts != b.counts, a.flags != b.flags];
        for (number, kernel) in (0..50).flat_map(|number| KERNELS.map(|kernel| (number, kernel))) {
            let random = &mut Random::new(1, 0, number);
            let vl = random.pick(&LENGTHS);
            let shared = legal(random, vl);
            let alike = [(); 20].map(|()| alike(random, &shared, kernel));
            assert!(alike.iter().all(|alike| part_of(alike, kernel) == part_of(&shared, kernel)));
            assert!(alike.iter().all(|alike| states::faults(&alike.state).is_empty()));
            let parts = alike.each_ref().map(|alike| part_of(alike, other(kernel)));
            let given = part_of(&shared, other(kernel));
            for place in 0..4 {
                assert!(parts.iter().any(|part| others(part, &given)[place]), "{place}");
            }
            assert!(alike.iter().any(|alike| alike.state.ffr != shared.state.ffr));
        }
    }
}
