//! The text of instructions, in Arm's syntax as LLVM prints it: one table, by which words are shown and texts are read.

use plokamyr::Form;
use std::sync::OnceLock;
use Operand::*;

/// The name of a field, as in [`Form::field_names`].
pub type Field = &'static str;

/// What stands at a place of an instruction's text, with the field that it shows.
#[derive(Clone, Copy, Debug)]
pub enum Operand {
    /// `x0` to `x30`, or `xzr` for 31.
    X(Field),
    /// `w0` to `w30`, or `wzr` for 31.
    W(Field),
    /// `p0`.
    P(Field),
    /// `p0.s`, with the instruction's size.
    Sized(Field),
    /// `p0.b`, whatever the size.
    Bytes(Field),
    /// `p0/z`.
    Zeroing(Field),
    /// `p0/m`.
    Merging(Field),
    /// `{ p0.s, p1.s }`: the field is half the number of the first.
    Pair(Field),
    /// `pn8.s`: the field counts from the number of the first that there may be.
    Counter(Field, u8),
    /// `vlx2` or `vlx4`.
    Group(Field),
}

/// One way to write the instructions of a form.
#[derive(Debug)]
pub struct Syntax {
    pub mnemonic: &'static str,
    pub form: Form,
    /// The fields that the mnemonic stands for.
    pub fixed: Vec<(Field, u8)>,
    pub operands: &'static [Operand],
    /// Fields that are not written, since they equal another: such a syntax is an alias.
    pub equal: &'static [(Field, Field)],
}

/// The letters of the sizes 0 to 3.
pub const SIZES: [char; 4] = ['b', 'h', 's', 'd'];

/// U, lt and eq of each condition.
const WHILES: [(&str, u8, u8, u8); 8] = [
    ("whilege", 0, 0, 0),
    ("whilegt", 0, 0, 1),
    ("whilelt", 0, 1, 0),
    ("whilele", 0, 1, 1),
    ("whilehs", 1, 0, 0),
    ("whilehi", 1, 0, 1),
    ("whilelo", 1, 1, 0),
    ("whilels", 1, 1, 1),
];

/// Without and with S, by op, o2, o3. SEL sets no flags.
const LOGIC: [(&str, Option<&str>); 8] = [
    ("and", Some("ands")),
    ("bic", Some("bics")),
    ("eor", Some("eors")),
    ("sel", None),
    ("orr", Some("orrs")),
    ("orn", Some("orns")),
    ("nor", Some("nors")),
    ("nand", Some("nands")),
];

/// All ways to write an instruction; those that are shown stand before the aliases.
pub fn table() -> &'static [Syntax] {
    static TABLE: OnceLock<Vec<Syntax>> = OnceLock::new();
    TABLE.get_or_init(|| {
        [whiles(), counts(), predicates(), logic(), first_fault(), aliases()].into_iter().flatten().collect()
    })
}

fn syntax(mnemonic: &'static str, form: Form, fixed: &[(Field, u8)], operands: &'static [Operand]) -> Syntax {
    Syntax { mnemonic, form, fixed: fixed.to_vec(), operands, equal: &[] }
}

fn whiles() -> Vec<Syntax> {
    let of = |(mnemonic, u, lt, eq)| {
        let fixed = [("U", u), ("lt", lt), ("eq", eq)];
        let one = |sf, operands| syntax(mnemonic, Form::WhileOne, &[&fixed[..], &[("sf", sf)]].concat(), operands);
        [
            one(1, &[Sized("Pd"), X("Rn"), X("Rm")]),
            one(0, &[Sized("Pd"), W("Rn"), W("Rm")]),
            syntax(mnemonic, Form::WhilePair, &fixed, &[Pair("Pd"), X("Rn"), X("Rm")]),
            syntax(mnemonic, Form::WhileCounter, &fixed, &[Counter("PNd", 8), X("Rn"), X("Rm"), Group("vl")]),
        ]
    };
    WHILES.into_iter().flat_map(of).collect()
}

fn counts() -> Vec<Syntax> {
    let saturating =
        |mnemonic, d, u, sf, operands| syntax(mnemonic, Form::Saturating, &[("D", d), ("U", u), ("sf", sf)], operands);
    vec![
        saturating("sqincp", 0, 0, 1, &[X("Rdn"), Sized("Pm")]),
        saturating("sqincp", 0, 0, 0, &[X("Rdn"), Sized("Pm"), W("Rdn")]),
        saturating("uqincp", 0, 1, 1, &[X("Rdn"), Sized("Pm")]),
        saturating("uqincp", 0, 1, 0, &[W("Rdn"), Sized("Pm")]),
        saturating("sqdecp", 1, 0, 1, &[X("Rdn"), Sized("Pm")]),
        saturating("sqdecp", 1, 0, 0, &[X("Rdn"), Sized("Pm"), W("Rdn")]),
        saturating("uqdecp", 1, 1, 1, &[X("Rdn"), Sized("Pm")]),
        saturating("uqdecp", 1, 1, 0, &[W("Rdn"), Sized("Pm")]),
        syntax("incp", Form::IncDec, &[("D", 0)], &[X("Rdn"), Sized("Pm")]),
        syntax("decp", Form::IncDec, &[("D", 1)], &[X("Rdn"), Sized("Pm")]),
        syntax("cntp", Form::Cntp, &[], &[X("Rd"), P("Pg"), Sized("Pn")]),
        syntax("cntp", Form::CntpCounter, &[], &[X("Rd"), Counter("PNn", 0), Group("vl")]),
    ]
}

fn predicates() -> Vec<Syntax> {
    vec![
        syntax("pnext", Form::Pnext, &[], &[Sized("Pdn"), P("Pv"), Sized("Pdn")]),
        syntax("pfirst", Form::Pfirst, &[], &[Bytes("Pdn"), P("Pg"), Bytes("Pdn")]),
        syntax("ptest", Form::Ptest, &[], &[P("Pg"), Bytes("Pn")]),
        syntax("pfalse", Form::Pfalse, &[], &[Bytes("Pd")]),
    ]
}

fn operation(number: u8, s: u8) -> [(Field, u8); 4] {
    [("op", number >> 2), ("o2", number >> 1 & 1), ("o3", number & 1), ("S", s)]
}

fn logic() -> Vec<Syntax> {
    let mut all = Vec::new();
    for (number, (plain, setting)) in (0..).zip(LOGIC) {
        let zeroing = &[Bytes("Pd"), Zeroing("Pg"), Bytes("Pn"), Bytes("Pm")];
        let selecting = &[Bytes("Pd"), P("Pg"), Bytes("Pn"), Bytes("Pm")];
        let operands = if setting.is_some() { zeroing } else { selecting };
        all.push(syntax(plain, Form::Logic, &operation(number, 0), operands));
        all.extend(setting.map(|mnemonic| syntax(mnemonic, Form::Logic, &operation(number, 1), operands)));
    }
    all
}

fn first_fault() -> Vec<Syntax> {
    vec![
        syntax("setffr", Form::Setffr, &[], &[]),
        syntax("wrffr", Form::Wrffr, &[], &[Bytes("Pn")]),
        syntax("rdffr", Form::Rdffr, &[], &[Bytes("Pd")]),
        syntax("rdffr", Form::RdffrPg, &[], &[Bytes("Pd"), Zeroing("Pg")]),
        syntax("rdffrs", Form::RdffrsPg, &[], &[Bytes("Pd"), Zeroing("Pg")]),
    ]
}

fn aliases() -> Vec<Syntax> {
    const AND: u8 = 0;
    const EOR: u8 = 2;
    const SEL: u8 = 3;
    const ORR: u8 = 4;
    let alias = |mnemonic, number, s, operands, equal| Syntax {
        equal,
        ..syntax(mnemonic, Form::Logic, &operation(number, s), operands)
    };
    let masked = &[Bytes("Pd"), Zeroing("Pg"), Bytes("Pn")];
    let whole = &[Bytes("Pd"), Bytes("Pn")];
    vec![
        alias("mov", AND, 0, masked, &[("Pm", "Pn")]),
        alias("movs", AND, 1, masked, &[("Pm", "Pn")]),
        alias("not", EOR, 0, masked, &[("Pm", "Pg")]),
        alias("nots", EOR, 1, masked, &[("Pm", "Pg")]),
        alias("mov", ORR, 0, whole, &[("Pg", "Pn"), ("Pm", "Pn")]),
        alias("movs", ORR, 1, whole, &[("Pg", "Pn"), ("Pm", "Pn")]),
        alias("mov", SEL, 0, &[Bytes("Pd"), Merging("Pg"), Bytes("Pn")], &[("Pm", "Pd")]),
    ]
}
