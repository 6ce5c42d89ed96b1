//! What to do about a reply.

use plokamyr::Reply;

/// What was left as it was, and what would do.
pub fn advice(reply: Reply) -> &'static str {
    match reply {
        Reply::Done => "What was asked for is done.",
        Reply::ForeignWord => "The word is from elsewhere, as in a corrupt kernel: every word here has 25 in its highest byte. The state is as it was.",
        Reply::LevelTooLow => "The state's level is 0 none, 1 SVE, 2 SVE2 or 3 SVE2p1; 'plokamyr dis' tells what a word asks, and a walk asks 1. The state is as it was.",
        Reply::AccessOff => "The state has its access set off; with it on, the word or the walk is not refused for this. The state is as it was.",
        Reply::IllegalState => "The vector length is 128, 256, 512, 1024 or 2048 bits, the level 0 to 3; no predicate, nor FFR, has a bit at or above an eighth of the length; \
                                each count is that of its predicate (plokamyr_counted works them out). The state is as it was.",
        Reply::ImageCut => "Bytes are missing at the end of the image: 'plokamyr explain FILE' says of which section.",
        Reply::NotAllowed => "'plokamyr explain FILE' says which byte of the image it is, and what is allowed there. When an image is written, it means that there are more than 4,096 words.",
        Reply::TrailingBytes => "An image ends with its last word: 'plokamyr explain FILE' says where that is.",
        Reply::BufferTooSmall => "The buffer for the image, or the list for its words, needs more room: 17,207 bytes or 4,096 words are enough for any. Both are as they were.",
        Reply::FieldPastRange => "The row to be written as a word has a form or a field that no word has, or numbers other than 0 after its fields. The word is as it was.",
        Reply::BadWalkRegisters => "A walk takes n 0 to 30, m 0 to 31, d and k 0 to 15 and a size 0 to 3, with n and m different, and d and k. State and list are as they were.",
        Reply::ListTooShort => "The list needs a place for each position from Xn up to Xm; a title to be folded has at most 4,096 units. State, list and title are as they were.",
        Reply::BudgetSpent => "The walk needs D + 3R + 2 instructions, for D positions in R vectors. The state and the list hold what was done so far, and the count is the budget.",
        Reply::UnsupportedForm => "The word may be an instruction that is not here, as one of a newer kernel, or none at all. The state is as it was.",
        Reply::NotMonotonic => "FFR takes a run of ones from bit 0, and no other predicate. State and FFR are as they were.",
        Reply::NotOwned => "The first kernel owns X0 to X15 and P0 to P7, the second X16 to X30 and P8 to P15; FFR belongs to neither. The shared state is as it was.",
        _ => "It is a newer library's.",
    }
}

#[cfg(test)]
mod tests {
    use super::*;
    use crate::commands::new::{LENGTHS, LEVELS};
    use crate::words::{grouped, numbers};
    use plokamyr::{IMAGE_MAX, TITLE_MAX, WORDS_MAX};

    #[test]
    fn numbers_are_the_librarys() {
        let has = |reply, text: &str| assert!(advice(reply).contains(text), "{reply}: {text}");
        has(Reply::IllegalState, &numbers(&LENGTHS));
        has(Reply::IllegalState, &numbers(&LEVELS));
        has(Reply::NotAllowed, &grouped(WORDS_MAX as u64));
        has(Reply::BufferTooSmall, &grouped(WORDS_MAX as u64));
        has(Reply::BufferTooSmall, &grouped(IMAGE_MAX as u64));
        has(Reply::ListTooShort, &grouped(TITLE_MAX as u64));
    }
}
