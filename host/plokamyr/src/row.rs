use crate::{ffi, Reply};

/// The forms of instruction. The numbers are those of `include/plokamyr.h`.
///
/// A library that is newer than this crate may have more: [`decode`] then answers [`Form::Other`] with the fields as they
/// are, and [`encode`] takes such a row back. To look for such a form, compare [`number`](Form::number).
///
/// ```
/// use plokamyr::Form;
///
/// assert_eq!(Form::Pnext.field_names(), ["size", "Pv", "Pdn"]);
/// assert_eq!(Form::from_number(7), Form::Pnext);
/// assert_eq!(Form::from_number(99), Form::Other(99));
/// ```
///
/// A match needs an arm for forms to come:
///
/// ```compile_fail,E0004
/// # use plokamyr::Form::{self, *};
/// # fn writes_x(form: Form) -> bool {
/// match form {
///     Saturating | IncDec | Cntp | CntpCounter => true,
///     WhileOne | WhilePair | WhileCounter | Pnext | Pfirst | Ptest | Pfalse | Logic => false,
///     Setffr | Wrffr | Rdffr | RdffrPg | RdffrsPg => false,
///     Other(_) => false,
/// }
/// # }
/// ```
#[derive(Clone, Copy, Debug, PartialEq, Eq, Hash)]
#[non_exhaustive]
pub enum Form {
    /// 0.
    WhileOne,
    /// 1: writes P(2 Pd) and P(2 Pd + 1).
    WhilePair,
    /// 2: writes P(8 + PNd).
    WhileCounter,
    /// 3: SQ or UQ, INCP or DECP.
    Saturating,
    /// 4: INCP or DECP.
    IncDec,
    /// 5.
    Cntp,
    /// 6.
    CntpCounter,
    /// 7.
    Pnext,
    /// 8.
    Pfirst,
    /// 9.
    Ptest,
    /// 10.
    Pfalse,
    /// 11: by op, o2, o3 AND, BIC, EOR, SEL, ORR, ORN, NOR, NAND, from 000 to 111. S is 1 if it sets the flags, which SEL
    /// cannot: SEL with S = 1 is no instruction.
    Logic,
    /// 12: all bits of FFR become true.
    Setffr,
    /// 13.
    Wrffr,
    /// 14.
    Rdffr,
    /// 15: FFR and Pg.
    RdffrPg,
    /// 16: the same, and the flags.
    RdffrsPg,
    /// A number that has no name here. [`Form::from_number`] gives it for no other.
    Other(u8),
}

impl Form {
    /// Those that have a name here, each at the place of its number.
    pub const ALL: &'static [Form] = &[
        Form::WhileOne,
        Form::WhilePair,
        Form::WhileCounter,
        Form::Saturating,
        Form::IncDec,
        Form::Cntp,
        Form::CntpCounter,
        Form::Pnext,
        Form::Pfirst,
        Form::Ptest,
        Form::Pfalse,
        Form::Logic,
        Form::Setffr,
        Form::Wrffr,
        Form::Rdffr,
        Form::RdffrPg,
        Form::RdffrsPg,
    ];

    /// The form of a number.
    pub fn from_number(number: u8) -> Form {
        Self::ALL.get(usize::from(number)).copied().unwrap_or(Form::Other(number))
    }

    /// The number that C gives it.
    pub fn number(self) -> u8 {
        self.number_and_fields().0
    }

    /// The names of its fields, from the highest bit of the word down. None are known of [`Form::Other`].
    pub fn field_names(self) -> &'static [&'static str] {
        self.number_and_fields().1
    }

    fn number_and_fields(self) -> (u8, &'static [&'static str]) {
        match self {
            Form::WhileOne => (0, &["size", "Rm", "sf", "U", "lt", "Rn", "eq", "Pd"]),
            Form::WhilePair => (1, &["size", "Rm", "U", "lt", "Rn", "Pd", "eq"]),
            Form::WhileCounter => (2, &["size", "Rm", "vl", "U", "lt", "Rn", "eq", "PNd"]),
            Form::Saturating => (3, &["size", "D", "U", "sf", "Pm", "Rdn"]),
            Form::IncDec => (4, &["size", "D", "Pm", "Rdn"]),
            Form::Cntp => (5, &["size", "Pg", "Pn", "Rd"]),
            Form::CntpCounter => (6, &["size", "vl", "PNn", "Rd"]),
            Form::Pnext => (7, &["size", "Pv", "Pdn"]),
            Form::Pfirst => (8, &["Pg", "Pdn"]),
            Form::Ptest => (9, &["Pg", "Pn"]),
            Form::Pfalse => (10, &["Pd"]),
            Form::Logic => (11, &["op", "S", "Pm", "Pg", "o2", "Pn", "o3", "Pd"]),
            Form::Setffr => (12, &[]),
            Form::Wrffr => (13, &["Pn"]),
            Form::Rdffr => (14, &["Pd"]),
            Form::RdffrPg => (15, &["Pg", "Pd"]),
            Form::RdffrsPg => (16, &["Pg", "Pd"]),
            Form::Other(number) => (number, &[]),
        }
    }
}

/// An instruction as numbers: its form, then the form's fields in the order of [`Form::field_names`], then zeros.
///
/// ```
/// use plokamyr::{Form, Row};
///
/// let row = Row::new(Form::Pnext, &[0, 1, 2]).unwrap();
/// assert_eq!(row.fields, [0, 1, 2, 0, 0, 0, 0, 0]);
/// assert_eq!(Row::new(Form::Pnext, &[0, 1]), None); // a field is missing
/// ```
#[derive(Clone, Copy, Debug, PartialEq, Eq, Hash)]
pub struct Row {
    pub form: Form,
    pub fields: [u8; 8],
}

impl Row {
    /// A row of the form's own fields; none if there are more or fewer of them than it has, or for [`Form::Other`].
    pub fn new(form: Form, fields: &[u8]) -> Option<Row> {
        if matches!(form, Form::Other(_)) || fields.len() != form.field_names().len() {
            return None;
        }
        let mut row = Row { form, fields: [0; 8] };
        row.fields[..fields.len()].copy_from_slice(fields);
        Some(row)
    }
}

/// Reads a word as an instruction. Refusal: 1 or 13, the latter also for SEL with S = 1.
///
/// ```
/// use plokamyr::{decode, Form, Reply};
///
/// let row = decode(0x2518_E403).unwrap();
/// assert_eq!((row.form, row.fields[0]), (Form::Pfalse, 3));
/// assert_eq!(decode(0), Err(Reply::ForeignWord));
/// assert_eq!(decode(0x2510_4441), Err(Reply::UnsupportedForm)); // BRKA p1.b, p1/z, p2.b
/// ```
pub fn decode(word: u32) -> Result<Row, Reply> {
    let mut raw = [0; 9];
    match ffi::decode(word, &mut raw) {
        Reply::Done => Ok(row_of(raw)),
        refusal => Err(refusal),
    }
}

/// Writes an instruction as a word. Refusal: 9, for a form that the library does not have, a field past its range, one
/// other than 0 after the form's own, or a combination of fields that the form leaves out, which is SEL with S = 1 alone.
///
/// ```
/// use plokamyr::{encode, Form, Reply, Row};
///
/// let pfalse = |pd| Row::new(Form::Pfalse, &[pd]).unwrap();
/// assert_eq!(encode(pfalse(3)), Ok(0x2518_E403));
/// assert_eq!(encode(pfalse(16)), Err(Reply::FieldPastRange));
/// let sel = |s| Row::new(Form::Logic, &[0, s, 3, 1, 1, 2, 1, 0]).unwrap();
/// assert_eq!(encode(sel(0)), Ok(0x2503_4650)); // SEL p0.b, p1, p2.b, p3.b
/// assert_eq!(encode(sel(1)), Err(Reply::FieldPastRange));
/// ```
pub fn encode(row: Row) -> Result<u32, Reply> {
    let mut word = 0;
    match ffi::encode(&raw_of(row), &mut word) {
        Reply::Done => Ok(word),
        refusal => Err(refusal),
    }
}

fn row_of(raw: ffi::RawRow) -> Row {
    let [number, fields @ ..] = raw;
    Row { form: Form::from_number(number), fields }
}

fn raw_of(row: Row) -> ffi::RawRow {
    let mut raw = [row.form.number(); 9];
    raw[1..].copy_from_slice(&row.fields);
    raw
}

#[cfg(test)]
mod tests {
    use super::*;

    #[test]
    fn a_form_without_a_name_keeps_its_number_and_fields() {
        for number in [17, 18, 255] {
            let raw = [number, 1, 2, 3, 4, 5, 6, 7, 8];
            let row = row_of(raw);
            assert_eq!(row, Row { form: Form::Other(number), fields: [1, 2, 3, 4, 5, 6, 7, 8] });
            assert_eq!(raw_of(row), raw);
        }
    }
}
