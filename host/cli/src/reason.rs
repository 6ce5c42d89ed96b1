//! Why a word was refused, as far as the word and the state tell.

use crate::commands::dis;
use crate::disassemble::{field, level};
use crate::dump::level_named;
use crate::lanes::lanes;
use crate::words::numbers;
use plokamyr::{decode, Reply, State};

/// What is known of a refusal of a word besides its reply.
pub fn reason(state: &State, word: u32, refusal: Reply) -> Option<String> {
    match refusal {
        Reply::ForeignWord => Some(format!("bits 31:24 are {:08b}", word >> 24)),
        Reply::LevelTooLow => {
            let name = dis::text(word);
            Some(levels(state.level, name.split(' ').next().unwrap_or(""), level(word)))
        }
        Reply::NotMonotonic => hole(state, word),
        _ => None,
    }
}

/// The level that a state has, and the one that something asks.
pub fn levels(has: u8, name: &str, asks: u8) -> String {
    format!("the state has {}, {name} asks {}", level_named(has), level_named(asks))
}

/// The false lanes of WRFFR's predicate that stand below a true one.
fn hole(state: &State, word: u32) -> Option<String> {
    let number = field(&decode(word).ok()?, "Pn");
    let lanes = lanes(state.p().get(usize::from(number))?, state.vl(), 0);
    let first = lanes.iter().position(|lane| !lane)?;
    let length = lanes[first..].iter().position(|lane| *lane)?;
    let after = first + length;
    let (noun, verb) = if length == 1 { ("lane", "is") } else { ("lanes", "are") };
    let hole: Vec<u32> = (first as u32..after as u32).collect();
    Some(format!(
        "{noun} {} of p{number}.b {verb} false, lane {after} is true",
        numbers(&hole).replace(" or ", " and ")
    ))
}

/// A refusal in words, with its reason if there is one.
pub fn told(refusal: impl ToString, reason: Option<&str>) -> String {
    let reason = reason.map_or(String::new(), |reason| format!(": {reason}"));
    refusal.to_string() + &reason
}

#[cfg(test)]
mod tests {
    use super::*;
    use crate::assemble::assemble;
    use plokamyr::Predicate;

    #[test]
    fn holes() {
        let word = assemble("wrffr p3.b").unwrap();
        let of = |bits: u64| {
            let mut state = State::new(256, 1);
            state.set_p(3, Predicate::from(bits));
            let refusal = state.step(word);
            reason(&state, word, refusal)
        };
        assert_eq!(of(0b1011).as_deref(), Some("lane 2 of p3.b is false, lane 3 is true"));
        assert_eq!(of(0b1001).as_deref(), Some("lanes 1 and 2 of p3.b are false, lane 3 is true"));
        assert_eq!(of(0b1_0000).as_deref(), Some("lanes 0 to 3 of p3.b are false, lane 4 is true"));
        assert_eq!(of(0b111), None);
    }
}
