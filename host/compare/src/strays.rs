//! States that are illegal by one bit of FFR: each bit at or above PL, in steps, runs, walks and writes.

use crate::differences::Outcome;
use crate::illegal::Asked;
use crate::kind::{Forms, Kind};
use crate::seen::Seen;
use compare::instructions;
use compare::random::Random;
use compare::routes::{route, Bounds};
use compare::states::{self, Fault, LENGTHS};

const KIND: u64 = 28;

/// The bits of FFR that a state has room for.
const BITS: u64 = 256;
const DRAWS: u64 = 8;

/// Each bit of FFR at each length that has it at or above PL.
pub struct Strays;

impl Kind for Strays {
    type Input = Asked;
    const NAME: &'static str = "strays";
    const REPLIES: &'static [u8] = &[4];
    const FORMS: Forms = Forms::None;
    const NOTES: &'static [&'static str] = &[
        "bit PL",
        "bit 255",
        "the first bit of a word",
        "the last bit of a word",
        "no other bit of FFR",
        "a word of FFR's",
        "a word that is none of ours",
        "level 0",
        "without access",
    ];

    /// The bit stands above the number of its length and that of its draw.
    fn numbers() -> impl Iterator<Item = u64> {
        let lengths = LENGTHS.len() as u64;
        (0..BITS * lengths * DRAWS).filter(|&number| bit_and_length(number).0 >= bit_and_length(number).1 / 8)
    }

    fn make(seed: u64, number: u64) -> Asked {
        let random = &mut Random::new(seed, KIND, number);
        let (bit, vl) = bit_and_length(number);
        let mut route = route(random, vl, &Bounds { far: 40, bytes: false });
        if random.one_in(4) {
            route.state.ffr = [0; 4];
        }
        states::flip(&mut route.state.ffr, bit as usize);
        Asked::new(random, route)
    }

    fn show(asked: &Asked) -> String {
        asked.show()
    }

    fn compare(asked: &Asked, seen: &mut Seen) -> Outcome {
        assert!(states::is_illegal_by(&asked.route.state, Fault::Ffr), "it is illegal by FFR alone");
        let (differences, reply) = asked.compare();
        seen.reply(reply);
        note(seen, asked);
        differences.outcome()
    }
}

fn bit_and_length(number: u64) -> (u64, u64) {
    let lengths = LENGTHS.len() as u64;
    (number / DRAWS / lengths, LENGTHS[(number / DRAWS % lengths) as usize])
}

fn note(seen: &mut Seen, asked: &Asked) {
    let state = &asked.route.state;
    let pl = state.vl as usize / 8;
    let bit = (pl..BITS as usize).find(|bit| state.ffr[bit / 64] >> (bit % 64) & 1 == 1).expect("one is there");
    seen.note_if(bit == pl, "bit PL");
    seen.note_if(bit == 255, "bit 255");
    seen.note_if(bit % 64 == 0, "the first bit of a word");
    seen.note_if(bit % 64 == 63, "the last bit of a word");
    seen.note_if(state.ffr.iter().map(|word| word.count_ones()).sum::<u32>() == 1, "no other bit of FFR");
    let row = model::decode(asked.word);
    seen.note_if(matches!(row, Some([instructions::SETFFR..=instructions::RDFFRS_PG, ..])), "a word of FFR's");
    asked.note(seen);
}

#[cfg(test)]
mod tests {
    use super::*;

    /// Each bit from PL to 255, at each length; none at the longest.
    #[test]
    fn every_bit_is_made() {
        let of_length = |vl: u64| (BITS - vl / 8) * DRAWS;
        assert_eq!(Strays::numbers().count() as u64, LENGTHS.map(of_length).iter().sum());
        for number in Strays::numbers() {
            let (bit, vl) = bit_and_length(number);
            let state = Strays::make(1, number).route.state;
            assert_eq!((state.vl, state.ffr[bit as usize / 64] >> (bit % 64) & 1), (vl, 1));
            assert!(states::is_illegal_by(&state, Fault::Ffr));
        }
    }
}
