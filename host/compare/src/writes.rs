//! Images written, and read again.

use crate::boundary;
use crate::differences::{show_state, show_words, Differences, Outcome};
use crate::kind::{Forms, Kind};
use crate::lent::{byte, word, Lent};
use crate::seen::Seen;
use compare::damage::{self, Age};
use compare::random::Random;
use compare::states::{self, Fault};
use model::State;

pub struct Writes;

const KIND: u64 = 18;

/// A state, words, and the buffer lent for the image.
pub struct Input {
    state: State,
    words: Vec<u32>,
    buffer: Lent<u8>,
    room: usize,
}

impl Kind for Writes {
    type Input = Input;
    const NAME: &'static str = "writes";
    const REPLIES: &'static [u8] = &[0, 4, 6, 8];
    const FORMS: Forms = Forms::None;
    const NOTES: &'static [&'static str] = &[
        "a byte too few",
        "exact",
        "a byte more",
        "no bytes",
        "4,096 words",
        "4,097 words",
        "more words",
        "illegal, too many",
        "illegal by FFR",
        "illegal by a count",
        "counts not all 0",
        "FFR not all false",
    ];

    fn numbers() -> impl Iterator<Item = u64> {
        0..60_000
    }

    fn make(seed: u64, number: u64) -> Input {
        let random = &mut Random::new(seed, KIND, number);
        let state = states::any(random);
        let count = match number % 200 {
            0 => 4096,
            1 => 4097,
            2 => 4090 + random.index(7),
            3 => 4097 + random.index(2000),
            _ => random.index(40),
        };
        let words: Vec<u32> = (0..count).map(|_| random.next() as u32).collect();
        let room = room(random, length(&state, count));
        Input { state, words, buffer: Lent::new(room, random, byte), room }
    }

    fn show(input: &Input) -> String {
        let Input { state, words, room, .. } = input;
        format!("{}{}room for {room} bytes\n", show_state(state), show_words(words))
    }

    fn compare(input: &Input, seen: &mut Seen) -> Outcome {
        let words = Lent::holding(&input.words, &mut Random::new(0, KIND, 0), word);
        let before = words.clone();
        let (mut ours, mut theirs) = (input.buffer.clone(), input.buffer.clone());
        let library = boundary::write(&input.state, words.held(), ours.part());
        let second = model::write(&input.state, &input.words, theirs.part());
        let mut differences = Differences::default();
        differences.field("reply", library.reply, second.reply);
        differences.field("length", library.length, second.length);
        differences.lent("image", &ours, &theirs);
        differences.lent("words", &words, &before);
        if library.reply == 0 {
            read_again(input, &ours.held()[..library.length.min(input.room)], &mut differences);
        }
        note(seen, input, second.reply);
        differences.outcome()
    }
}

/// "Reading what was written gives that state and those words".
fn read_again(input: &Input, image: &[u8], differences: &mut Differences) {
    let random = &mut Random::new(1, KIND, 0);
    let mut words = Lent::new(input.words.len(), random, word);
    let mut same = words.clone();
    let reading = boundary::read(image, words.part());
    same.part().copy_from_slice(&input.words);
    differences.field("reply to read of written", reading.reply, 0);
    differences.field("count of read of written", reading.count, input.words.len());
    differences.state(&reading.state, &input.state);
    differences.lent("words, read of written", &words, &same);
}

/// The image's length; for a bad VL that of some other.
fn length(state: &State, words: usize) -> usize {
    damage::length(Age::New, state.vl.min(2048), words)
}

fn room(random: &mut Random, length: usize) -> usize {
    match random.below(10) {
        0 => length - 1,
        1 => length + 1,
        2 => length + random.index(100),
        3 => random.index(length),
        4 => random.index(12),
        _ => length,
    }
}

fn note(seen: &mut Seen, input: &Input, reply: u8) {
    seen.reply(reply);
    let count = input.words.len();
    seen.note_if(reply == 0 && count == 4096, "4,096 words");
    seen.note_if(reply == 6 && count == 4097, "4,097 words");
    seen.note_if(reply == 6 && count > 4097, "more words");
    seen.note_if(reply == 4 && count > 4096, "illegal, too many");
    seen.note_if(states::is_illegal_by(&input.state, Fault::Ffr), "illegal by FFR");
    seen.note_if(states::is_illegal_by(&input.state, Fault::Count), "illegal by a count");
    seen.note_if(reply == 0 && input.state.counts != [[0; 4]; 16], "counts not all 0");
    seen.note_if(reply == 0 && input.state.ffr != [0; 4], "FFR not all false");
    if matches!(reply, 0 | 8) {
        let length = length(&input.state, count);
        seen.note_if(input.room + 1 == length, "a byte too few");
        seen.note_if(input.room == length, "exact");
        seen.note_if(input.room == length + 1, "a byte more");
        seen.note_if(input.room == 0, "no bytes");
    }
}
