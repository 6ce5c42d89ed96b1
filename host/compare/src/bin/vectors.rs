//! Prints stored vectors, made by the second program alone: records one after the other, little-endian, each with a
//! kind (1 byte) and the length of the rest (4 bytes). `vectors [seed] > file`; counts go to standard error.
#![forbid(unsafe_code)]

use compare::actions::{word_of, word_with_other};
use compare::counter::Reading;
use compare::damage::{self, Age, AGES};
use compare::instructions::{logic_word, short_word, LOGIC, RDFFR, RDFFRS_PG, RDFFR_PG, SETFFR, WRFFR};
use compare::kernels::{self, Field, KERNELS};
use compare::random::Random;
use compare::routes::{route, Bounds};
use compare::{instructions, states, titles};
use model::{Flags, Kernel, Shared, State};
use std::collections::{BTreeMap, BTreeSet};
use std::io::Write;

const INSTRUCTIONS: u64 = 3_000;
const IMAGES: u64 = 220;
const WALKS: u64 = 150;
/// The reader has room for 920,000.
const LARGEST: usize = 919_000;

const RUN: u8 = 1;
const IMAGE: u8 = 2;
const WALK: u8 = 3;
const STEP: u8 = 4;
const TITLE: u8 = 5;

/// Searches are runs too, drawn apart from the others, and so are runs that come to a word that is none of ours, those of
/// FFR's words, and those that go by the counts of what was written. Steps of two kernels are drawn apart from all of them, and
/// so are titles.
const SEARCH: u64 = 4;
const SIZES: [u8; 4] = [0, 1, 2, 3];
const REFUSED: u64 = 5;
const FFR: u64 = 6;
const COUNTS: u64 = 7;
const TURNS: u64 = 8;
const FOLDED: u64 = 9;
const REFUSED_TITLES: u64 = 10;

/// Counts of FFR's section, with as many times its bytes.
const FFRS: [u32; 4] = [0, 2, 3, 4];

type Draw = fn(&mut Random) -> u32;

/// Words that are none of ours.
const NOT_OURS: [(&str, Draw); 3] = [
    ("a foreign word", instructions::foreign),
    ("an unsupported form", instructions::unsupported),
    ("SEL with S", instructions::left_out),
];

/// Where one stands, with the level and the access of the state.
const PLACES: [(&str, u8, bool); 4] = [
    ("after words done", 3, true),
    ("at level 0", 0, true),
    ("without access", 3, false),
    ("at level 0 without access", 0, false),
];

/// The shorter lengths more often, for the size of the file.
const LENGTHS: [u64; 20] =
    [128, 128, 128, 128, 128, 128, 128, 128, 128, 256, 256, 256, 256, 256, 256, 512, 512, 1024, 1024, 2048];

/// The lengths of a kernel's steps, in turn.
const STEP_LENGTHS: [u64; 9] = [128, 256, 128, 512, 128, 1024, 128, 2048, 128];

/// The refusals that come before 15.
const BEFORE: [u8; 4] = [1, 13, 2, 3];

fn main() {
    let seed = std::env::args().nth(1).map_or(1, |seed| seed.parse().expect("the seed is a number"));
    let mut file = File::default();
    let mut number = 0;
    while file.executed < INSTRUCTIONS {
        run(&mut file, &mut Random::new(seed, u64::from(RUN), number), number);
        number += 1;
    }
    for number in 0..IMAGES {
        let age = AGES[number as usize % AGES.len()];
        image(&mut file, &mut Random::new(seed, u64::from(IMAGE), number), age);
    }
    for (number, count) in (IMAGES..).zip(FFRS) {
        several_ffrs(&mut file, &mut Random::new(seed, u64::from(IMAGE), number), count);
    }
    for number in 0..WALKS {
        walk(&mut file, &mut Random::new(seed, u64::from(WALK), number), number);
    }
    further_runs(&mut file, seed);
    for (number, kernel) in KERNELS.into_iter().enumerate() {
        steps(&mut file, &mut Random::new(seed, TURNS, number as u64), kernel);
    }
    for vl in states::LENGTHS {
        accepted_titles(&mut file, &mut Random::new(seed, FOLDED, vl), vl);
    }
    refused_titles(&mut file, &mut Random::new(seed, REFUSED_TITLES, 0));
    file.say_and_check();
    std::io::stdout().write_all(&file.bytes).expect("standard output takes the file");
}

/// The runs that are drawn apart from the others.
fn further_runs(file: &mut File, seed: u64) {
    for vl in states::LENGTHS {
        for size in SIZES {
            search(file, &mut Random::new(seed, SEARCH, vl << 2 | u64::from(size)), vl, size);
        }
    }
    for number in 0..(NOT_OURS.len() * PLACES.len()) as u64 {
        refused(file, &mut Random::new(seed, REFUSED, number), number as usize);
    }
    for (number, vl) in states::LENGTHS.into_iter().enumerate() {
        let random = &mut Random::new(seed, FFR, number as u64);
        ffr_words(file, random, vl);
        PLACES.iter().for_each(|&place| write_of_no_run(file, random, vl, place));
    }
    for (number, vl) in states::LENGTHS.into_iter().enumerate() {
        counts(file, &mut Random::new(seed, COUNTS, number as u64), vl);
    }
}

/// The file so far, and what stands in it.
#[derive(Default)]
struct File {
    bytes: Vec<u8>,
    executed: u64,
    seen: BTreeMap<String, u64>,
}

impl File {
    fn record(&mut self, kind: u8, rest: &[u8]) {
        self.bytes.push(kind);
        self.bytes.extend((rest.len() as u32).to_le_bytes());
        self.bytes.extend(rest);
    }

    fn see(&mut self, what: String) {
        *self.seen.entry(what).or_default() += 1;
    }

    fn say_and_check(&self) {
        for (what, count) in &self.seen {
            eprintln!("{what}: {count}");
        }
        eprintln!("instructions executed in runs: {}; bytes: {}", self.executed, self.bytes.len());
        for what in expected() {
            assert!(self.seen.contains_key(&what), "there is none of: {what}");
        }
        assert!(self.bytes.len() < LARGEST, "the file is too large");
    }
}

/// What a file must hold.
fn expected() -> Vec<String> {
    let mut list = Vec::new();
    for form in instructions::FORMS {
        list.extend(states::LENGTHS.map(|vl| executed(form, vl)));
    }
    for form in instructions::WRITERS {
        list.extend(states::LENGTHS.map(|vl| counted_after(form, vl)));
    }
    list.extend([0, 1, 2, 3].map(|level| format!("runs at level {level}")));
    list.extend([0, 1, 2, 3, 13, 14].map(stopped_by));
    list.extend(states::LENGTHS.map(|vl| no_run(vl, 14)));
    list.extend([2, 3].map(|reply| no_run(2048, reply)));
    list.push(FFR_NOT_A_RUN.to_string());
    for (what, _) in NOT_OURS {
        list.extend(PLACES.map(|(place, ..)| stopped_at(what, place)));
    }
    list.extend(states::LENGTHS.map(counter_with_junk));
    for size in SIZES {
        list.extend(states::LENGTHS.map(|vl| searched(size, vl, true)));
        list.extend(states::LENGTHS.map(|vl| searched(size, vl, false)));
    }
    for age in AGES {
        list.extend([0, 5, 6, 7].map(|reply| reply_to_image(age, reply)));
    }
    list.extend([0, 2, 3, 5].map(count_at_ffr));
    list.extend([0, 2, 3, 10, 11, 12].map(|reply| reply_of(WALK, reply)));
    for kernel in KERNELS {
        list.extend(BEFORE.map(|reply| stepped(kernel, reply)));
        list.extend(kernels::own_forms(kernel).into_iter().map(|form| form_stepped(form, kernel, 0)));
        list.extend((0..instructions::FORMS.len() as u8).map(|form| form_stepped(form, kernel, 15)));
        list.extend(states::LENGTHS.map(|vl| stepped_at(vl, kernel, 0)));
        list.extend(states::LENGTHS.map(|vl| stepped_at(vl, kernel, 15)));
    }
    let names = (0..SETFFR).flat_map(kernels::fields).map(|field| field.name);
    list.extend(names.map(names_other));
    list.extend(expected_titles());
    list
}

fn expected_titles() -> Vec<String> {
    let mut list = Vec::from([0, 4, 11].map(|reply| reply_of(TITLE, reply)));
    for vl in states::LENGTHS {
        let lanes = titles::lanes(vl);
        list.extend([0, 1, lanes - 1, lanes, lanes + 1, 64, 65].map(|units| title_of(units, vl)));
        list.push(whole_table(vl));
    }
    list.push(title_of(titles::LONGEST, 128));
    list
}

fn executed(form: &str, vl: u64) -> String {
    format!("executed {form} at {vl}")
}

/// All counts of what a form has written, gone by.
fn counted_after(form: u8, vl: u64) -> String {
    format!("counts gone by after {} at {vl}", instructions::FORMS[usize::from(form)])
}

/// A CNTP that would answer otherwise if counts ended at bit 14.
fn counter_with_junk(vl: u64) -> String {
    format!("executed CNTP counter with junk past its count at {vl}")
}

/// A PNEXT that finds an element, or none.
fn searched(size: u8, vl: u64, found: bool) -> String {
    format!("executed PNEXT of size {size} at {vl} that finds {}", if found { "one" } else { "none" })
}

/// An image holds no illegal state, so that the run's own reply is always 0.
fn stopped_by(refused: u8) -> String {
    format!("runs stopped by {refused}")
}

/// By which word that is none of ours, and where it stands.
fn stopped_at(what: &str, place: &str) -> String {
    format!("runs stopped by {what} {place}")
}

/// A WRFFR of what is no run of ones, and its reply.
fn no_run(vl: u64, reply: u8) -> String {
    format!("WRFFR of no run of ones at {vl} refused with {reply}")
}

const FFR_NOT_A_RUN: &str = "runs from an FFR not a run of ones";

/// By the count at FFR's place before it was damaged.
fn reply_to_image(age: Age, reply: u8) -> String {
    format!("{age:?} images with reply {reply}")
}

fn count_at_ffr(count: u32) -> String {
    format!("images with the count {count} at FFR's place")
}

fn reply_of(kind: u8, reply: u8) -> String {
    format!("kind {kind} with reply {reply}")
}

/// The reply to a kernel's word.
fn stepped(kernel: Kernel, reply: u8) -> String {
    format!("steps of the {kernel:?} kernel with reply {reply}")
}

fn stepped_at(vl: u64, kernel: Kernel, reply: u8) -> String {
    format!("{} at {vl}", stepped(kernel, reply))
}

fn form_stepped(form: u8, kernel: Kernel, reply: u8) -> String {
    format!("{}: {}", stepped(kernel, reply), instructions::FORMS[usize::from(form)])
}

/// The field that names a register of the other kernel.
fn names_other(field: &str) -> String {
    format!("steps with a register of the other as {field}")
}

/// An accepted title.
fn title_of(units: usize, vl: u64) -> String {
    format!("titles of {units} units folded at {vl}")
}

fn whole_table(vl: u64) -> String {
    format!("titles with the whole table at {vl}")
}

/// Bytes after their length.
fn push_block(rest: &mut Vec<u8>, bytes: &[u8]) {
    rest.extend((bytes.len() as u32).to_le_bytes());
    rest.extend(bytes);
}

fn push_image(rest: &mut Vec<u8>, state: &State, words: &[u32]) {
    push_block(rest, &damage::image(state, words));
}

fn run(file: &mut File, random: &mut Random, number: u64) {
    let vl = random.pick(&LENGTHS);
    let mut state = states::legal(random, vl);
    state.level = if number % 10 < 3 { (number % 10) as u8 } else { 3 };
    let count = if state.access { 1 + random.below(12) } else { 1 + random.below(2) };
    let count = if state.level == 0 { count.min(2) } else { count };
    let mut words: Vec<u32> = (0..count).map(|at| word(random, state.level, number + at)).collect();
    if !random.one_in(8) {
        instructions::prepare_writes(random, &mut words);
    }
    for &word in words.iter().rev() {
        instructions::tie(random, &mut state, word);
    }
    store_run(file, state, &words);
}

fn store_run(file: &mut File, mut state: State, words: &[u32]) {
    let ran = model::run(&state, words);
    let mut rest = Vec::new();
    push_image(&mut rest, &state, words);
    rest.extend([ran.reply, ran.refused]);
    rest.extend((ran.done as u32).to_le_bytes());
    push_image(&mut rest, &ran.state, &[]);
    file.record(RUN, &rest);
    file.executed += ran.done as u64;
    file.see(stopped_by(ran.refused));
    if !states::is_run(&state.ffr) {
        file.see(FFR_NOT_A_RUN.to_string());
    }
    match words.get(ran.done).map(|&word| (word, model::decode(word))) {
        Some((word, None)) => see_refused(file, &state, word, ran.done),
        Some((_, Some([WRFFR, pn, ..]))) if !states::is_run(&ran.state.p[usize::from(pn)]) => {
            file.see(no_run(state.vl, ran.refused))
        }
        _ => {}
    }
    file.see(format!("runs at level {}", state.level));
    for &word in &words[..ran.done] {
        let before = state.clone();
        let _ = model::step(&mut state, word);
        see_word(file, &before, &state, word);
    }
}

/// A word that is none of ours, after so many that were done.
fn see_refused(file: &mut File, state: &State, word: u32, done: usize) {
    let what = match word {
        _ if instructions::is_foreign(word) => "a foreign word",
        _ if instructions::is_left_out_word(word) => "SEL with S",
        _ => "an unsupported form",
    };
    let place = match (state.level, state.access) {
        _ if done > 0 => "after words done",
        (0, true) => "at level 0",
        (0, false) => "at level 0 without access",
        (_, false) => "without access",
        (_, true) => "at once",
    };
    file.see(stopped_at(what, place));
}

/// What a word does that is executed on this state.
fn see_word(file: &mut File, before: &State, after: &State, word: u32) {
    let row = model::decode(word).expect("it was executed");
    let vl = before.vl;
    file.see(executed(instructions::FORMS[usize::from(row[0])], vl));
    match row {
        [instructions::PNEXT, size, ..] => file.see(searched(size, vl, !after.flags.z)),
        [instructions::CNTP_COUNTER, _, _, _, rd, ..]
            if rd < 31 && Reading::of(before, &row).has_junk_that_matters() =>
        {
            file.see(counter_with_junk(vl))
        }
        _ => {}
    }
}

/// PNEXT through sparse masks. What a cursor came to on its way is not stored, so that each has a number of steps of its own,
/// up to that at which none is left.
fn search(file: &mut File, random: &mut Random, vl: u64, size: u8) {
    let mut state = states::legal(random, vl);
    (state.level, state.access) = (1, true);
    let first = random.below(16);
    let mut registers = (0..16).map(|i| ((first + i) % 16) as u8);
    let mut words = Vec::new();
    for active in sparse(random, vl, size) {
        let pv = registers.next().expect("there are enough");
        states::put(&mut state, pv, states::with_elements(random, vl, size, &active));
        for (steps, pdn) in (1..active.len() + 2).zip(&mut registers) {
            states::put(&mut state, pdn, states::with_elements(random, vl, size, &[]));
            let pnext = model::encode(&[instructions::PNEXT, size, pv, pdn, 0, 0, 0, 0, 0]);
            words.extend(vec![pnext.expect("its fields are in range"); steps]);
        }
    }
    // flags are stored of the last word alone: let that be any
    let last = random.index(words.len());
    words.rotate_left(last);
    store_run(file, state, &words);
}

/// The active elements of three masks: one in each word, the last alone, and a few.
fn sparse(random: &mut Random, vl: u64, size: u8) -> [Vec<u64>; 3] {
    let elements = vl / (8 << size);
    let in_word = elements.min(64 >> size);
    let each_word = (0..elements / in_word).map(|word| word * in_word + random.below(in_word)).collect();
    let few = (0..3).map(|_| random.below(elements)).collect();
    [each_word, vec![elements - 1], few]
}

/// A run that comes to a word that is none of ours, with another after it, and before it some that are done if the state
/// allows any.
fn refused(file: &mut File, random: &mut Random, number: usize) {
    let vl = random.pick(&LENGTHS);
    let mut state = states::legal(random, vl);
    let (_, draw) = NOT_OURS[number % NOT_OURS.len()];
    let (_, level, access) = PLACES[number / NOT_OURS.len()];
    (state.level, state.access) = (level, access);
    let mut words = Vec::new();
    if level > 0 && access {
        words.extend([(); 3].map(|()| instructions::accepted(random)));
    }
    words.extend([draw(random), instructions::accepted(random)]);
    store_run(file, state, &words);
}

/// The forms in turn, with now and then a word that may be none; below level 3 seldom one that asks for it.
fn word(random: &mut Random, level: u8, turn: u64) -> u32 {
    if random.one_in(60) {
        return instructions::doubtful(random);
    }
    let form = turn as usize % instructions::FORMS.len();
    let asks_three = matches!(form, 1 | 2 | 6);
    if asks_three && level < 3 && !random.one_in(8) {
        instructions::word_of(random, 7)
    } else {
        instructions::word_of(random, form)
    }
}

/// The five words of FFR in one run, so that what each gives is there at its end: registers of their own, the flags, FFR.
fn ffr_words(file: &mut File, random: &mut Random, vl: u64) {
    let mut state = states::legal(random, vl);
    (state.level, state.access) = (1, true);
    state.ffr = states::shaped(random, vl, states::Shape::Dense);
    let first = random.below(16);
    let [mask, run, a, b, c, d] = [0, 1, 2, 3, 4, 5].map(|i| ((first + i) % 16) as u8);
    states::put(&mut state, mask, states::shaped(random, vl, states::Shape::Dense));
    states::put(&mut state, run, states::run(random.below(vl / 8 + 1)));
    let words = [
        short_word(RDFFRS_PG, &[mask, a]),
        short_word(RDFFR, &[b]),
        short_word(SETFFR, &[]),
        short_word(RDFFR, &[c]),
        short_word(WRFFR, &[run]),
        short_word(RDFFR_PG, &[mask, d]),
        short_word(RDFFR_PG, &[mask, mask]),
    ];
    store_run(file, state, &words);
}

/// Each form that writes predicates, and after it INCP or its kin by each count of what it wrote. The first goes by counts that
/// the reader of the run's image works out.
fn counts(file: &mut File, random: &mut Random, vl: u64) {
    let mut state = states::legal(random, vl);
    (state.level, state.access) = (3, true);
    let first = random.below(16) as u8;
    let mut words: Vec<u32> = SIZES.map(|size| instructions::by_count(random, size, first)).into();
    for form in instructions::WRITERS {
        words.extend(instructions::link(random, form));
        file.see(counted_after(form, vl));
    }
    for &word in words.iter().rev() {
        instructions::tie(random, &mut state, word);
    }
    let done = model::run(&state, &words).done;
    assert_eq!(done, words.len(), "none is refused");
    store_run(file, state, &words);
}

/// A WRFFR of a run of ones with one bit changed so that it is none, with the level and the access of a place.
fn write_of_no_run(file: &mut File, random: &mut Random, vl: u64, (_, level, access): (&str, u8, bool)) {
    let mut state = states::legal(random, vl);
    (state.level, state.access) = (level, access);
    let pn = random.below(16) as u8;
    put_no_run(random, &mut state, pn);
    let words = [short_word(SETFFR, &[]), short_word(WRFFR, &[pn]), short_word(RDFFR, &[pn])];
    let first = if level > 0 && access { 0 } else { 1 };
    store_run(file, state, &words[first..]);
}

fn put_no_run(random: &mut Random, state: &mut State, pn: u8) {
    while states::is_run(&state.p[usize::from(pn)]) {
        states::put(state, pn, states::near_run(random, state.vl));
    }
}

/// The reply, the image, and the image that it is written back as; none for one that is refused.
fn image(file: &mut File, random: &mut Random, age: Age) {
    let vl = random.pick(&LENGTHS);
    let state = states::legal(random, vl);
    let words: Vec<u32> = (0..random.below(6)).map(|_| instructions::any(random)).collect();
    let image = damage::image_of(age, &state, &words);
    let image = damage::damaged(&image, damage::any(random, &image, age, vl));
    let reply = store_image(file, &image);
    file.see(reply_to_image(age, reply));
}

/// An image that is whole but for the number of its FFRs. All are empty, so that with the count 4, which is an old image's, their
/// bytes are flags and a count of words.
fn several_ffrs(file: &mut File, random: &mut Random, count: u32) {
    let mut state = states::legal(random, 128);
    state.ffr = [0; 4];
    let reply = store_image(file, &damage::with_ffrs(&state, &[instructions::accepted(random)], count));
    assert_eq!(reply, if count == 4 { 7 } else { 6 });
}

/// Answers the second program's reply.
fn store_image(file: &mut File, image: &[u8]) -> u8 {
    let mut words = [0; 4096];
    let reading = model::read(image, &mut words);
    let back = match reading.reply {
        0 => damage::image(&reading.state, &words[..reading.count]),
        _ => Vec::new(),
    };
    let mut rest = vec![reading.reply];
    push_block(&mut rest, image);
    push_block(&mut rest, &back);
    file.record(IMAGE, &rest);
    if let Some(count @ 0..=5) = damage::count_at_ffr(image) {
        file.see(count_at_ffr(count));
    }
    reading.reply
}

fn walk(file: &mut File, random: &mut Random, number: u64) {
    let vl = random.pick(&LENGTHS);
    let mut route = route(random, vl, &Bounds { far: 40, bytes: true });
    if number < 3 {
        route.state.level = 0; // seldom drawn
    }
    let mut list = vec![u64::MAX; route.places];
    let (size, n, m, d, k) = (route.size, route.n, route.m, route.d, route.k);
    let walked = model::walk(&route.state, size, n, m, d, k, &mut list, route.budget);
    let mut rest = Vec::new();
    push_image(&mut rest, &route.state, &[]);
    rest.extend([size, n, m, d, k].map(|number| u8::try_from(number).expect("the bounds ask for bytes")));
    rest.extend((route.places as u32).to_le_bytes());
    rest.extend(route.budget.to_le_bytes());
    rest.push(walked.reply);
    rest.extend(walked.count.to_le_bytes());
    rest.extend((walked.visited as u32).to_le_bytes());
    push_image(&mut rest, &walked.state, &[]);
    rest.extend(list.iter().flat_map(|place| place.to_le_bytes()));
    file.record(WALK, &rest);
    file.see(reply_of(WALK, walked.reply));
}

/// A kernel's steps: each form with registers of its own, and with one of the other; FFR's words; and words with a register of the
/// other that are refused for another reason first.
fn steps(file: &mut File, random: &mut Random, kernel: Kernel) {
    let mut lengths = STEP_LENGTHS.into_iter().cycle();
    let mut ready = |random: &mut Random| kernels::ready(random, lengths.next().expect("it is a cycle"));
    for form in kernels::own_forms(kernel) {
        let word = word_of(&kernels::own_row(random, kernel, form));
        let mut shared = ready(random);
        instructions::tie(random, &mut shared.state, word);
        store_step(file, &shared, kernel, word, 0);
    }
    for form in 0..SETFFR {
        let field = field_of_other(kernel, form);
        file.see(names_other(field.name));
        let word = word_with_other(random, kernel, &field).expect("the field can");
        store_step(file, &ready(random), kernel, word, 15);
    }
    for form in SETFFR..=RDFFRS_PG {
        let row = kernels::own_row(random, kernel, form);
        let mut shared = ready(random);
        if form == WRFFR {
            put_no_run(random, &mut shared.state, row[1]); // which is else refused with 14
        }
        store_step(file, &shared, kernel, word_of(&row), 15);
    }
    for reply in BEFORE {
        let mut shared = ready(random);
        let word = refused_before(random, kernel, &mut shared.state, reply);
        store_step(file, &shared, kernel, word, reply);
    }
}

/// Of the fields of a form that can name a register of the other, the kernels mostly take different ones.
fn field_of_other(kernel: Kernel, form: u8) -> Field {
    let mut fields = kernels::fields(form);
    fields.retain(|field| !field.others(kernel).is_empty());
    fields[(usize::from(form) + usize::from(second(kernel))) % fields.len()]
}

/// A word with a register of the other that has another refusal before, by itself or by what is changed of the state.
fn refused_before(random: &mut Random, kernel: Kernel, state: &mut State, reply: u8) -> u32 {
    let form = random.below(u64::from(SETFFR)) as u8;
    let word = word_with_other(random, kernel, &field_of_other(kernel, form)).expect("the field can");
    match reply {
        1 => return word ^ (1 + random.below(255) as u32) << 24,
        13 => return sel_of_other(random, kernel),
        2 => state.level = instructions::level_of(word) - 1,
        _ => state.access = false,
    }
    word
}

/// SEL with S.
fn sel_of_other(random: &mut Random, kernel: Kernel) -> u32 {
    let others = Vec::from_iter(kernels::own_p(kernels::other(kernel)));
    let [pm, pg, pn, pd] = [(); 4].map(|()| random.pick(&others));
    logic_word(&[LOGIC, 0, 1, pm, pg, 1, pn, 1, pd])
}

fn store_step(file: &mut File, shared: &Shared, kernel: Kernel, word: u32, reply: u8) {
    let mut after = shared.clone();
    assert_eq!(model::shared_step(&mut after, kernel, word), reply, "{word:08x} by the {kernel:?} kernel");
    let mut rest = Vec::new();
    push_image(&mut rest, &shared.state, &[word]);
    rest.extend([second(kernel), nzcv(&shared.second), reply, nzcv(&after.second)]);
    push_image(&mut rest, &after.state, &[]);
    file.record(STEP, &rest);
    file.see(stepped(kernel, reply));
    file.see(stepped_at(shared.state.vl, kernel, reply));
    if let Some([form, ..]) = model::decode(word) {
        file.see(form_stepped(form, kernel, reply));
    }
}

/// 1 for the second kernel, 0 for the first.
fn second(kernel: Kernel) -> u8 {
    u8::from(kernel == Kernel::Second)
}

/// N is the highest of the four bits.
fn nzcv(flags: &Flags) -> u8 {
    [flags.n, flags.z, flags.c, flags.v].into_iter().fold(0, |number, flag| number << 1 | u8::from(flag))
}

/// Around a vector, and two; up to the 64 units that have a shorter list, and from 65 on; the table; and once as long as can be,
/// where vectors are shortest.
fn accepted_titles(file: &mut File, random: &mut Random, vl: u64) {
    let lanes = titles::lanes(vl);
    let lengths = BTreeSet::from([0, 1, lanes - 1, lanes, lanes + 1, 2 * lanes + 1, 64, 65]);
    for units in lengths {
        store_title(file, vl, &titles::drawn(random, units), 0);
    }
    store_title(file, vl, &table(), 0);
    if vl == 128 {
        store_title(file, vl, &titles::drawn(random, titles::LONGEST), 0);
    }
}

/// A to Z and C0 to FF, and the units beside them.
fn table() -> Vec<u16> {
    (0x40..=0x5B).chain(0xBF..=0x100).collect()
}

/// Of a vector length that is none, of too many units, and of both.
fn refused_titles(file: &mut File, random: &mut Random) {
    for (number, vl) in states::BAD_LENGTHS.into_iter().enumerate() {
        let units = [20, 0, 8, 1, 64, 65][number % 6];
        store_title(file, vl, &titles::drawn(random, units), 4);
    }
    let too_long = titles::drawn(random, titles::LONGEST + 1);
    store_title(file, random.pick(&states::LENGTHS), &too_long, 11);
    store_title(file, random.pick(&states::BAD_LENGTHS), &too_long, 4);
}

fn store_title(file: &mut File, vl: u64, title: &[u16], reply: u8) {
    let mut after = title.to_vec();
    assert_eq!(model::fold(&mut after, vl), reply, "{} units at {vl}", title.len());
    let mut rest = Vec::new();
    rest.extend(vl.to_le_bytes());
    rest.extend((title.len() as u32).to_le_bytes());
    rest.push(reply);
    rest.extend(title.iter().chain(&after).flat_map(|unit| unit.to_le_bytes()));
    file.record(TITLE, &rest);
    file.see(reply_of(TITLE, reply));
    if reply != 0 {
        return;
    }
    file.see(title_of(title.len(), vl));
    if table().iter().all(|unit| title.contains(unit)) {
        file.see(whole_table(vl));
    }
}
