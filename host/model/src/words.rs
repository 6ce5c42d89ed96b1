//! The words: one table, from which they are both read and written.

use crate::forms::{CNTP_COUNTER, LOGIC, WHILE_COUNTER, WHILE_ONE, WHILE_PAIR};
use crate::reply::{FOREIGN_WORD, UNSUPPORTED_FORM};
use std::sync::OnceLock;

/// An instruction as numbers: its form, then the form's fields from the highest bit down, then zeros.
pub type Row = [u8; 9];

/// The bits of each form from 31 down: digits where fixed, else the name and width of a field; a bare name has one bit.
const TABLE: [&str; 17] = [
    "00100101 size:2 1 Rm:5 000 sf U lt Rn:5 eq Pd:4",
    "00100101 size:2 1 Rm:5 0101 U lt Rn:5 1 Pd:3 eq",
    "00100101 size:2 1 Rm:5 01 vl 0 U lt Rn:5 1 eq PNd:3",
    "00100101 size:2 1010 D U 10001 sf 0 Pm:4 Rdn:5",
    "00100101 size:2 10110 D 10001 00 Pm:4 Rdn:5",
    "00100101 size:2 10000010 Pg:4 0 Pn:4 Rd:5",
    "00100101 size:2 10000010000 vl 1 PNn:4 Rd:5",
    "00100101 size:2 0110011100010 Pv:4 0 Pdn:4",
    // 2558C000 + Pg·32 + Pdn, 2550C000 + Pg·1024 + Pn·32, 2518E400 + Pd.
    "0010 0101 0101 1000 1100 000 Pg:4 0 Pdn:4",
    "0010 0101 0101 0000 11 Pg:4 0 Pn:4 00000",
    "0010 0101 0001 1000 1110 0100 0000 Pd:4",
    // request K1
    "00100101 op S 00 Pm:4 01 Pg:4 o2 Pn:4 o3 Pd:4",
    // request K5: 252C9000, 25289000 + Pn·32, 2519F000 + Pd, 2518F000 + Pg·32 + Pd, 2558F000 likewise
    "0010 0101 0010 1100 1001 0000 0000 0000",
    "0010 0101 0010 1000 1001 000 Pn:4 00000",
    "0010 0101 0001 1001 1111 0000 0000 Pd:4",
    "0010 0101 0001 1000 1111 000 Pg:4 0 Pd:4",
    "0010 0101 0101 1000 1111 000 Pg:4 0 Pd:4",
];

/// The operations of predicate logic by op, o2, o3.
pub type Operation = [u8; 3];

pub const AND: Operation = [0, 0, 0];
pub const BIC: Operation = [0, 0, 1];
pub const EOR: Operation = [0, 1, 0];
pub const SEL: Operation = [0, 1, 1];
pub const ORR: Operation = [1, 0, 0];
pub const ORN: Operation = [1, 0, 1];
pub const NOR: Operation = [1, 1, 0];
pub const NAND: Operation = [1, 1, 1];

/// "SEL with S=1 is not ours": the one combination of fields that a form leaves out.
fn is_left_out(row: &Row) -> bool {
    match *row {
        [LOGIC, op, s, _pm, _pg, o2, _pn, o3, _pd] => [op, o2, o3] == SEL && s == 1,
        _ => false,
    }
}

/// The column "Level" of the paper's table.
pub fn level(row: &Row) -> u8 {
    match *row {
        [WHILE_ONE, _size, _rm, _sf, _u, lt, ..] => match lt {
            1 => 1,
            _ => 2,
        },
        [WHILE_PAIR | WHILE_COUNTER | CNTP_COUNTER, ..] => 3,
        _ => 1,
    }
}

/// The row of a word; None, which is the reply of `decode_refusal`, if it is "none of the above".
pub fn decode(word: u32) -> Option<Row> {
    let form = layouts().iter().position(|layout| word & layout.mask == layout.fixed)?;
    let mut row = [0; 9];
    row[0] = form as u8;
    for (i, field) in layouts()[form].fields.iter().enumerate() {
        row[1 + i] = field.read(word);
    }
    if is_left_out(&row) {
        return None;
    }
    Some(row)
}

/// What a word is answered with that `decode` does not read: "Reply 1 now means that bits 31:24 are not 00100101. New reply
/// 13 means that they are, but the form isn't ours."
pub fn decode_refusal(word: u32) -> u8 {
    if word >> 24 == 0b0010_0101 {
        UNSUPPORTED_FORM
    } else {
        FOREIGN_WORD
    }
}

/// The word of a row; None (reply 9) if its form or a field is past its range, if it has a number after its fields, or
/// if its form leaves it out.
pub fn encode(row: &Row) -> Option<u32> {
    if is_left_out(row) {
        return None;
    }
    let layout = layouts().get(usize::from(row[0]))?;
    let mut word = layout.fixed;
    for (i, &number) in row[1..].iter().enumerate() {
        match layout.fields.get(i) {
            Some(field) if u32::from(number) < 1 << field.width => word |= u32::from(number) << field.low,
            None if number == 0 => {}
            _ => return None,
        }
    }
    Some(word)
}

/// One line of the table: which bits are fixed, what they are, and where the fields stand.
struct Layout {
    mask: u32,
    fixed: u32,
    fields: Vec<Field>,
}

struct Field {
    low: u32,
    width: u32,
}

impl Field {
    fn read(&self, word: u32) -> u8 {
        ((word >> self.low) % (1 << self.width)) as u8
    }
}

/// The table's lines laid out, once.
fn layouts() -> &'static [Layout] {
    static LAYOUTS: OnceLock<Vec<Layout>> = OnceLock::new();
    LAYOUTS.get_or_init(|| TABLE.iter().map(|line| lay_out(line)).collect())
}

fn lay_out(line: &str) -> Layout {
    let mut layout = Layout { mask: 0, fixed: 0, fields: Vec::new() };
    let mut low = 32; // the lowest bit laid out so far
    for part in line.split_whitespace() {
        if part.starts_with(['0', '1']) {
            for digit in part.chars() {
                low -= 1;
                layout.mask |= 1 << low;
                layout.fixed |= u32::from(digit == '1') << low;
            }
        } else {
            let width = part.split_once(':').map_or(1, |(_, width)| width.parse().expect("a width is a number"));
            low -= width;
            layout.fields.push(Field { low, width });
        }
    }
    assert_eq!(low, 0, "a word has 32 bits: {line}");
    layout
}
