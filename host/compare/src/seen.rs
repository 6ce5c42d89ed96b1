//! What a kind's cases came to, so that a reader sees that nothing was left out.

use crate::kind::Forms;
use compare::instructions::FORMS;
use compare::kernels::is_of_ffr;
use compare::states::LENGTHS;
use model::Row;

/// The replies of the second program are the numbers below this.
const REPLIES: u8 = 16;

pub struct Seen {
    pub cases: u64,
    replies: [u64; REPLIES as usize],
    forms: [[u64; LENGTHS.len()]; FORMS.len()],
    notes: Vec<(&'static str, u64)>,
}

impl Seen {
    pub fn new(notes: &[&'static str]) -> Seen {
        let notes = notes.iter().map(|&name| (name, 0)).collect();
        Seen { cases: 0, replies: [0; REPLIES as usize], forms: [[0; LENGTHS.len()]; FORMS.len()], notes }
    }

    pub fn reply(&mut self, reply: u8) {
        self.replies[usize::from(reply)] += 1;
    }

    /// An instruction accepted at a length; any of the five where the length plays no part.
    pub fn form(&mut self, row: &Row, vl: u64) {
        let length = LENGTHS.iter().position(|&length| length == vl).expect("an accepted state has one of the five");
        self.forms[usize::from(row[0])][length] += 1;
    }

    pub fn note(&mut self, name: &'static str) {
        let note = self.notes.iter_mut().find(|note| note.0 == name).expect("the kind's notes have it");
        note.1 += 1;
    }

    pub fn note_if(&mut self, holds: bool, name: &'static str) {
        if holds {
            self.note(name);
        }
    }

    pub fn say(&self, name: &str) {
        println!("{name} {}: {}", grouped(self.cases), self.replies_line());
        let total = |form: usize| self.forms[form].iter().sum::<u64>();
        if self.forms.iter().flatten().any(|&count| count > 0) {
            let forms = FORMS.iter().enumerate().map(|(form, name)| format!("{name} {}", grouped(total(form))));
            println!("  forms: {}", forms.collect::<Vec<_>>().join(", "));
        }
        let notes: Vec<String> = self.notes.iter().map(|(name, count)| format!("{name} {}", grouped(*count))).collect();
        if !notes.is_empty() {
            println!("  among them: {}", notes.join(", "));
        }
    }

    fn replies_line(&self) -> String {
        let seen = self.replies.iter().enumerate().filter(|(_, &count)| count > 0);
        let parts = seen.map(|(reply, &count)| match reply {
            0 => format!("accepted {}", grouped(count)),
            _ => format!("refused {reply}: {}", grouped(count)),
        });
        parts.collect::<Vec<_>>().join(", ")
    }

    /// What should have been seen and was not, or should not have been and was.
    pub fn missing(&self, replies: &[u8], forms: Forms) -> Vec<String> {
        let mut missing = Vec::new();
        for reply in 0..REPLIES {
            if (self.replies[usize::from(reply)] > 0) != replies.contains(&reply) {
                missing.push(format!("reply {reply}, or it should not be there"));
            }
        }
        for (form, counts) in self.forms.iter().enumerate() {
            let total: u64 = counts.iter().sum();
            if forms == Forms::Each && total == 0 {
                missing.push(FORMS[form].to_string());
            }
            let (at_each_length, none) = match forms {
                Forms::EachAtEachLength => (true, false),
                Forms::EachButFfrsAtEachLength => (!is_of_ffr(form as u8), is_of_ffr(form as u8)),
                _ => (false, false),
            };
            let empty = (0..LENGTHS.len()).filter(|&length| at_each_length && counts[length] == 0);
            missing.extend(empty.map(|length| format!("{} at {}", FORMS[form], LENGTHS[length])));
            if none && total > 0 {
                missing.push(format!("{}, or it should not be there", FORMS[form]));
            }
        }
        missing.extend(self.notes.iter().filter(|note| note.1 == 0).map(|note| note.0.to_string()));
        missing
    }
}

/// A number with commas.
fn grouped(number: u64) -> String {
    let digits = number.to_string();
    let groups: Vec<&[u8]> = digits.as_bytes().rchunks(3).rev().collect();
    String::from_utf8(groups.join(&b',')).expect("digits")
}

#[cfg(test)]
mod tests {
    use super::*;

    #[test]
    fn what_was_never_seen_is_missing() {
        let mut seen = Seen::new(&["a note"]);
        let forms = FORMS.len() * LENGTHS.len();
        assert_eq!(seen.missing(&[0, 4], Forms::EachAtEachLength).len(), 2 + forms + 1);
        seen.reply(0);
        seen.note("a note");
        let (last, others) = FORMS.split_last().expect("there are forms");
        (0..others.len()).for_each(|form| seen.form(&[form as u8, 0, 0, 0, 0, 0, 0, 0, 0], 128));
        assert_eq!(seen.missing(&[0], Forms::Each), [*last]);
        assert_eq!(seen.missing(&[], Forms::None).len(), 1); // a reply that the kind cannot give
    }

    /// Of two kernels' forms those of FFR are missing if they are there, all others if they are not.
    #[test]
    fn forms_of_kernels() {
        let ffrs = (0..FORMS.len()).filter(|&form| is_of_ffr(form as u8)).count();
        let mut seen = Seen::new(&[]);
        let missing = |seen: &Seen| seen.missing(&[], Forms::EachButFfrsAtEachLength).len();
        assert_eq!(missing(&seen), (FORMS.len() - ffrs) * LENGTHS.len());
        let rows = (0..FORMS.len() as u8).map(|form| [form, 0, 0, 0, 0, 0, 0, 0, 0]);
        for row in rows.clone().filter(|row| !is_of_ffr(row[0])) {
            LENGTHS.iter().for_each(|&length| seen.form(&row, length));
        }
        assert_eq!(missing(&seen), 0);
        rows.for_each(|row| seen.form(&row, 128));
        assert_eq!(missing(&seen), ffrs);
    }

    #[test]
    fn numbers_have_commas() {
        assert_eq!([0, 999, 1000, 2_000_000].map(grouped), ["0", "999", "1,000", "2,000,000"]);
    }
}
