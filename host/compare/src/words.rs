//! Words read as rows, and rows written as words.

use crate::boundary;
use crate::differences::{show_word, Differences, Outcome};
use crate::kind::{Forms, Kind};
use crate::seen::Seen;
use compare::instructions::{self, FORMS, HIGHEST, LOGIC, WIDTHS};
use compare::random::Random;
use model::Row;
use plokamyr::{Form, Reply};
use std::hint::black_box;

const WORD_KIND: u64 = 20;
const ROW_KIND: u64 = 21;

/// Where the length plays no part.
const ANY_LENGTH: u64 = 128;

/// What stands in a row before it is lent, and around it.
const CANARY: u8 = 0xA7;
const WORD_CANARY: u32 = 0xA7A7_5EED;

/// The library's reading of a word: reply and row, with what a refusal leaves of it.
fn library_decode(word: u32) -> (u32, Row) {
    let mut lent = [[CANARY; 9]; 3];
    let reply = boundary::decode(word, &mut black_box(&mut lent)[1]);
    let lent = black_box(&lent);
    assert_eq!((lent[0], lent[2]), ([CANARY; 9], [CANARY; 9]), "decode wrote past the row");
    (reply, lent[1])
}

/// The library's writing of a row: reply and word, with what a refusal leaves of it.
fn library_encode(row: &Row) -> (u32, u32) {
    let mut lent = [WORD_CANARY; 3];
    let read = *row;
    let reply = boundary::encode(black_box(&read), &mut black_box(&mut lent)[1]);
    let lent = black_box(&lent);
    assert_eq!((lent[0], lent[2]), (WORD_CANARY, WORD_CANARY), "encode wrote past the word");
    assert_eq!(*black_box(&read), *row, "encode changed the row");
    (reply, lent[1])
}

/// All words 25xxxxxx by their low 24 bits; then others: those at the ends, then the 255 other highest bytes in turn, each
/// over the rest of a word of ours and over any.
pub struct Words;

const OURS: u64 = 1 << 24;
const OTHERS: u64 = 1_000_000;
const ENDS: [u32; 4] = [0, 0x24FF_FFFF, 0x2600_0000, 0xFFFF_FFFF];

impl Kind for Words {
    type Input = u32;
    const NAME: &'static str = "words";
    const REPLIES: &'static [u8] = &[0, 1, 13];
    const FORMS: Forms = Forms::Each;
    const NOTES: &'static [&'static str] =
        &["ours but for the highest byte", "ours but for one bit of it", "24ffffff", "26000000", "SEL with S refused"];

    fn numbers() -> impl Iterator<Item = u64> {
        0..OURS + OTHERS
    }

    fn make(seed: u64, number: u64) -> u32 {
        if number < OURS {
            return HIGHEST << 24 | number as u32;
        }
        let other = (number - OURS) as usize;
        if let Some(&end) = ENDS.get(other) {
            return end;
        }
        let random = &mut Random::new(seed, WORD_KIND, number);
        let word = if other.is_multiple_of(2) { instructions::accepted(random) } else { random.next() as u32 };
        under(HIGHEST ^ (1 + other as u32 / 2 % 255), word)
    }

    fn show(word: &u32) -> String {
        show_word(*word)
    }

    fn compare(&word: &u32, seen: &mut Seen) -> Outcome {
        let (reply, row) = library_decode(word);
        let mut differences = Differences::default();
        let Some(second) = model::decode(word) else {
            return compare_refused(word, (reply, row), seen, differences);
        };
        differences.field("reply", reply, 0);
        differences.field("row", row, second);
        differences.field("the wrapper's row", plokamyr::decode(word), Ok(wrapped(&second)));
        differences.field("encode of the row", library_encode(&second), (0, word));
        differences.field("the second program's encode", model::encode(&second), Some(word));
        seen.reply(0);
        seen.form(&second, ANY_LENGTH);
        differences.outcome()
    }
}

/// The word with this highest byte.
fn under(highest: u32, word: u32) -> u32 {
    highest << 24 | word & 0x00FF_FFFF
}

/// A word that the second program does not read: reply and row of the library, and what the wrapper answers.
fn compare_refused(word: u32, library: (u32, Row), seen: &mut Seen, mut differences: Differences) -> Outcome {
    let second = model::decode_refusal(word);
    differences.field("reply and row", library, (u32::from(second), [CANARY; 9]));
    let named = if instructions::is_foreign(word) { Reply::ForeignWord } else { Reply::UnsupportedForm };
    differences.field("the wrapper's row", plokamyr::decode(word), Err(named));
    seen.reply(second);
    let ours = instructions::is_foreign(word) && model::decode(under(HIGHEST, word)).is_some();
    seen.note_if(ours, "ours but for the highest byte");
    seen.note_if(ours && (word >> 24 ^ HIGHEST).is_power_of_two(), "ours but for one bit of it");
    seen.note_if(word == 0x24FF_FFFF, "24ffffff");
    seen.note_if(word == 0x2600_0000, "26000000");
    seen.note_if(instructions::is_left_out_word(word), "SEL with S refused");
    differences.outcome()
}

/// A row in the wrapper's type.
fn wrapped(row: &Row) -> plokamyr::Row {
    let mut fields = [0; 8];
    fields.copy_from_slice(&row[1..]);
    plokamyr::Row { form: Form::from_number(row[0]), fields }
}

/// First every place after the form of every form with all 256 values, the others in range: the fields, and the places
/// after them. Then every form from 0 to 255. Then predicate logic with all its operations, those left out too. Then any
/// rows.
pub struct Rows;

const PLACES: u64 = FORMS.len() as u64 * 8 * 256;
const ALL_FORMS: u64 = 256 * 40;
const OPERATIONS: u64 = 16 * 100;
const ANY: u64 = 500_000;

impl Kind for Rows {
    type Input = Row;
    const NAME: &'static str = "rows";
    const REPLIES: &'static [u8] = &[0, 9];
    const FORMS: Forms = Forms::Each;
    const NOTES: &'static [&'static str] =
        &["a field at its limit", "a field past it", "junk after the fields", "no such form", "SEL with S refused"];

    fn numbers() -> impl Iterator<Item = u64> {
        0..PLACES + ALL_FORMS + OPERATIONS + ANY
    }

    fn make(seed: u64, number: u64) -> Row {
        let random = &mut Random::new(seed, ROW_KIND, number);
        if number < PLACES {
            let mut row = instructions::row(random, number as usize / 2048);
            row[1 + number as usize / 256 % 8] = number as u8;
            return row;
        }
        let form = random.index(FORMS.len());
        let mut row = instructions::row(random, form);
        if number < PLACES + ALL_FORMS {
            row[0] = (number - PLACES) as u8;
        } else if number < PLACES + ALL_FORMS + OPERATIONS {
            row = operation(random, number);
        } else if random.one_in(2) {
            row[random.index(9)] = random.next() as u8;
        } else {
            let end = random.pick(&[2, 4, 8, 16, 32, 256]);
            row = row.map(|_| random.below(end) as u8);
        }
        row
    }

    fn show(row: &Row) -> String {
        format!("row {row:?}\n")
    }

    fn compare(row: &Row, seen: &mut Seen) -> Outcome {
        let library = library_encode(row);
        let second = model::encode(row);
        let mut differences = Differences::default();
        differences.field("reply and word", library, second.map_or((9, WORD_CANARY), |word| (0, word)));
        let wrapper = plokamyr::encode(wrapped(row));
        differences.field("the wrapper's word", wrapper, second.ok_or(Reply::FieldPastRange));
        if let Some(word) = second {
            differences.field("decode of the word", library_decode(word), (0, *row));
            seen.form(row, ANY_LENGTH);
        }
        seen.reply(if second.is_some() { 0 } else { 9 });
        note(seen, row, second.is_none());
        differences.outcome()
    }
}

/// Predicate logic with op, S, o2 and o3 by the number's lowest bits, and any registers.
fn operation(random: &mut Random, number: u64) -> Row {
    let [pm, pg, pn, pd] = [(); 4].map(|()| random.below(16) as u8);
    let [op, s, o2, o3] = [3, 2, 1, 0].map(|bit| (number >> bit & 1) as u8);
    [LOGIC, op, s, pm, pg, o2, pn, o3, pd]
}

fn note(seen: &mut Seen, row: &Row, refused: bool) {
    let Some(widths) = WIDTHS.get(usize::from(row[0])) else {
        return seen.note("no such form");
    };
    let fields = row[1..].iter().zip(*widths).map(|(&field, &width)| (u32::from(field), 1 << width));
    seen.note_if(fields.clone().any(|(field, end)| field + 1 == end), "a field at its limit");
    seen.note_if(fields.clone().any(|(field, end)| field == end), "a field past it");
    let in_range = fields.clone().all(|(field, end)| field < end);
    seen.note_if(refused && in_range && instructions::is_left_out(row), "SEL with S refused");
    seen.note_if(row[1 + widths.len()..].iter().any(|&number| number != 0), "junk after the fields");
}

#[cfg(test)]
mod tests {
    use super::*;
    use std::collections::HashSet;

    /// Each of the 255 other highest bytes is met, those with one other bit among them, over a word of ours and over another.
    #[test]
    fn every_other_highest_byte_is_made() {
        let mut made = HashSet::new();
        for word in (OURS..OURS + OTHERS).map(|number| Words::make(1, number)) {
            assert!(instructions::is_foreign(word), "{word:08x}");
            made.insert((word >> 24, model::decode(under(HIGHEST, word)).is_some()));
        }
        assert_eq!(made.len(), 2 * 255);
    }
}
