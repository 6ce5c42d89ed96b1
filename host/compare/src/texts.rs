//! Texts of images, in buffers of every small size, around the text's own length, and in a big one.

use crate::boundary;
use crate::differences::{show_bytes, Differences, Outcome};
use crate::kind::{Forms, Kind};
use crate::lent::{byte, Lent};
use crate::seen::Seen;
use compare::damage::{self, Damage, AGES};
use compare::instructions;
use compare::random::Random;
use compare::states::{self, LENGTHS};
use model::State;

pub struct Texts;

const KIND: u64 = 19;
const SMALL: usize = 100;

impl Kind for Texts {
    type Input = Vec<u8>;
    const NAME: &'static str = "texts";
    /// Those of the image or of its last word stepped.
    const REPLIES: &'static [u8] = &[0, 1, 2, 3, 5, 6, 7, 13, 14];
    const FORMS: Forms = Forms::EachAtEachLength;
    const NOTES: &'static [&'static str] = &[
        "buffers",
        "no text",
        "a part of the lines",
        "a later line without an earlier",
        "4,096 lines",
        "4,096 lines, the last with 13",
        "1 after words done",
        "13 after words done",
        "14 after words done",
        "4,096 lines, the last with 14",
        "words of an old image",
    ];

    fn numbers() -> impl Iterator<Item = u64> {
        0..1_500
    }

    fn make(seed: u64, number: u64) -> Vec<u8> {
        let random = &mut Random::new(seed, KIND, number);
        let vl = random.pick(&LENGTHS);
        let mut state = states::legal(random, vl);
        let long = number.is_multiple_of(100);
        let mut words = if long { long_words(random, &mut state, number) } else { short_words(random) };
        if long && number.is_multiple_of(200) {
            words[4095] = instructions::unsupported(random); // the longest text: this reply has two digits
        }
        let age = random.pick(&AGES);
        let image = damage::image_of(age, &state, &words);
        let damage = if long || random.one_in(2) { Damage::None } else { damage::any(random, &image, age, vl) };
        damage::damaged(&image, damage)
    }

    fn show(image: &Vec<u8>) -> String {
        format!("an image of {}the second program's text:\n{}", show_bytes(image), utf8(&model::text(image)))
    }

    fn compare(image: &Vec<u8>, seen: &mut Seen) -> Outcome {
        let text = model::text(image);
        let long = image.len() > 4096;
        let small = if long { 0..1 } else { 0..SMALL };
        let around = text.len().saturating_sub(30)..text.len() + 3;
        let around = if long { text.len() - 1..text.len() + 1 } else { around };
        let mut differences = Differences::default();
        for room in small.chain(around).chain([plokamyr::TEXT_MAX]) {
            compare_in(image, room, &text, seen, &mut differences);
        }
        differences.field("the whole text", utf8(&plokamyr::text(image)), utf8(&text));
        note(seen, image, &text);
        differences.outcome()
    }
}

fn short_words(random: &mut Random) -> Vec<u32> {
    let count = random.index(14);
    match random.below(4) {
        0 => instructions::executed(random, count),
        1 => (0..count).map(|_| instructions::accepted(random)).collect(),
        _ => (0..count).map(|_| instructions::any(random)).collect(),
    }
}

/// As many words as an image may have, and a state on which all are executed; now and then the last is a WRFFR that is not.
fn long_words(random: &mut Random, state: &mut State, number: u64) -> Vec<u32> {
    (state.level, state.access) = (3, true);
    let mut words = instructions::executed(random, 4096);
    if number.is_multiple_of(300) {
        words[4094..].copy_from_slice(&instructions::refused_wrffr(random));
    }
    words
}

fn compare_in(image: &[u8], room: usize, text: &[u8], seen: &mut Seen, differences: &mut Differences) {
    let lent = Lent::holding(image, &mut Random::new(0, KIND, 0), byte);
    let before = lent.clone();
    let mut ours = Lent::new(room, &mut Random::new(1, KIND, 0), byte);
    let mut theirs = ours.clone();
    let library = boundary::text_in(lent.held(), ours.part());
    let second = model::text_in(image, theirs.part());
    differences.field(&format!("length in {room} bytes"), library, second);
    differences.lent(&format!("text in {room} bytes"), &ours, &theirs);
    differences.lent("image", &lent, &before);
    seen.note("buffers");
    seen.note_if(second == 0, "no text");
    seen.note_if(second > 0 && second < text.len(), "a part of the lines");
    let later = !text.starts_with(&theirs.held()[..second]);
    seen.note_if(later, "a later line without an earlier");
}

/// The reply that the text tells last, and the words that it tells as done.
fn note(seen: &mut Seen, image: &[u8], text: &[u8]) {
    let mut words = vec![0; 4096];
    let reading = model::read(image, &mut words);
    if reading.reply != 0 {
        seen.reply(reading.reply);
        return;
    }
    let ran = model::run(&reading.state, &words[..reading.count]);
    seen.reply(ran.refused);
    seen.note_if(ran.refused == 1 && ran.done > 0, "1 after words done");
    seen.note_if(ran.refused == 13 && ran.done > 0, "13 after words done");
    seen.note_if(ran.refused == 14 && ran.done > 0, "14 after words done");
    seen.note_if(ran.done > 0 && damage::count_at_ffr(image) == Some(4), "words of an old image");
    for &word in &words[..ran.done] {
        seen.form(&model::decode(word).expect("it was executed"), reading.state.vl);
    }
    let all = text.iter().filter(|&&byte| byte == b'\n').count() == 4097;
    seen.note_if(all, "4,096 lines");
    seen.note_if(all && ran.refused == 13, "4,096 lines, the last with 13");
    seen.note_if(all && ran.refused == 14, "4,096 lines, the last with 14");
}

fn utf8(text: &[u8]) -> String {
    String::from_utf8_lossy(text).into_owned()
}
