//! Images at random: what is drawn of a state is what the library counts in it, a run prints what the library does, and no
//! command panics, whatever the image is.

mod common;

use cli::{answer, Style};
use common::Random;
use plokamyr::{text, write, Flags, Form, Predicate, Reply, State, IMAGE_MAX};
use std::env::temp_dir;
use std::{fs, process};

/// Full, empty, a run from bit 0, a counter's bits, or any bits, below a length.
fn predicate(random: &mut Random, length: u64) -> Predicate {
    let limit = match random.below(4) {
        0 => random.below(length + 1),
        _ => length,
    };
    let kind = random.below(4);
    let mut predicate = Predicate::default();
    for bit in 0..limit {
        let set = match kind {
            0 => true,
            1 => false,
            2 => bit < 16 && random.below(3) == 0,
            _ => random.below(2) == 0,
        };
        predicate.words[bit as usize / 64] |= u64::from(set) << (bit % 64);
    }
    predicate
}

fn state(random: &mut Random) -> State {
    let mut state = State::new(128 << random.below(5), random.below(4) as u8);
    let length = state.vl() / 8;
    state.access = random.below(8) > 0;
    let [n, z, c, v] = [(); 4].map(|()| random.below(2) == 0);
    state.flags = Flags { n, z, c, v };
    state.x = [(); 31].map(|()| random.next() >> random.below(64));
    state.set_all_p([(); 16].map(|()| predicate(random, length)));
    state.ffr = predicate(random, length);
    state
}

/// Mostly instructions; some foreign, some undefined.
fn words(random: &mut Random) -> Vec<u32> {
    let count = random.below(20);
    (0..count).map(|_| word(random)).collect()
}

fn word(random: &mut Random) -> u32 {
    loop {
        let word = 0x2500_0000 | random.below(1 << 24) as u32;
        if random.below(50) == 0 || plokamyr::decode(word).is_ok() {
            return word;
        }
    }
}

fn image(state: &State, words: &[u32]) -> Vec<u8> {
    let mut image = vec![0; IMAGE_MAX];
    let written = write(state, words, &mut image);
    assert_eq!(written.reply, Reply::Done);
    image.truncate(written.length);
    image
}

/// The command's answer to words of which `FILE` stands for a file with these bytes: text and status.
fn asked(words: &str, bytes: &[u8]) -> (String, u8) {
    asked_in(words, bytes, Style::PLAIN)
}

fn asked_in(words: &str, bytes: &[u8], style: Style) -> (String, u8) {
    let path = temp_dir().join(format!("plokamyr-{}-{:?}", process::id(), std::thread::current().id()));
    fs::write(&path, bytes).unwrap();
    let given: Vec<String> = words.split(' ').map(|word| word.replace("FILE", path.to_str().unwrap())).collect();
    let answer = answer(&given, style);
    fs::remove_file(&path).unwrap();
    match answer {
        Ok(outcome) => (String::from_utf8(outcome.text).unwrap(), outcome.status),
        Err(failure) => (failure.text, failure.status),
    }
}

/// How many lanes are drawn as true below each register's name, and how many its line says.
fn drawn(shown: &str) -> Vec<(String, usize, usize)> {
    let mut all: Vec<(String, usize, usize)> = Vec::new();
    for line in shown.lines() {
        let lanes = line.chars().filter(|c| *c == '█').count();
        match line.split_once('/').filter(|(head, _)| head.contains('.')) {
            Some((head, _)) => {
                let (name, count) = head.rsplit_once(' ').unwrap();
                all.push((name.trim().to_string(), count.parse().unwrap(), lanes));
            }
            None if lanes > 0 => all.last_mut().unwrap().2 += lanes,
            None => {}
        }
    }
    all
}

#[test]
fn states_are_shown_as_the_library_counts_them() {
    let mut random = Random(1);
    for _ in 0..200 {
        let state = state(&mut random);
        let bytes = image(&state, &[]);
        for (size, letter) in ['b', 'h', 's', 'd'].into_iter().enumerate() {
            let (shown, status) = asked(&format!("show FILE --size {letter}"), &bytes);
            assert_eq!(status, 0);
            let drawn = drawn(&shown);
            for (name, count, lanes) in &drawn {
                assert_eq!(count, lanes, "{name}\n{shown}");
            }
            for number in 0..16 {
                let count = usize::from(state.count(number, size as u32));
                let name = format!("p{number}.{letter}");
                let found = drawn.iter().find(|(known, _, _)| *known == name);
                // one that is not drawn is empty, as the one before
                assert_eq!(found.map_or(0, |(_, count, _)| *count), count, "{name}\n{shown}");
            }
        }
    }
}

/// Lines with lanes are no wider than the columns, down to those that 32 lanes take.
#[test]
fn pictures_fit() {
    let mut random = Random(5);
    for _ in 0..50 {
        let bytes = image(&state(&mut random), &[]);
        for letter in ['b', 'h', 's', 'd'] {
            for columns in [52, 80, 87, 88, 120] {
                let style = Style { columns: Some(columns), ..Style::PLAIN };
                let (shown, _) = asked_in(&format!("show FILE --size {letter}"), &bytes, style);
                let wide =
                    shown.lines().filter(|line| line.contains(['█', '░'])).map(|line| line.chars().count()).max();
                let lanes = |line: &str| line.chars().filter(|c| "█░".contains(*c)).count();
                let most = shown.lines().map(lanes).max();
                // an empty register is drawn short, with the names of those that are alike behind it
                assert!(
                    wide <= Some(columns) && most <= Some(if columns < 88 { 32 } else { 64 }),
                    "{columns}\n{shown}"
                );
            }
        }
    }
}

/// A run of equal lanes has one code, however long it is.
#[test]
fn colour_is_written_once_for_a_run() {
    let mut random = Random(6);
    for _ in 0..50 {
        let style = Style { colour: true, columns: None };
        let (shown, _) = asked_in("show FILE", &image(&state(&mut random), &[]), style);
        for (lane, code) in [('█', "\x1b[32m"), ('░', "\x1b[2m")] {
            let again = ["", " "].map(|blank| format!("{lane}\x1b[0m{code}{blank}{lane}"));
            assert!(
                shown.contains(&format!("{code}{lane}")) && again.iter().all(|again| !shown.contains(again)),
                "{shown}"
            );
        }
    }
}

/// Masks from lane 0 on, which look as counters do, at every level and length.
#[test]
fn masks_are_no_counters_below_level_3() {
    for (vl, level) in [128, 256, 512, 1024, 2048].iter().flat_map(|vl| [0, 1, 2, 3].map(|level| (*vl, level))) {
        let mut state = State::new(vl, level);
        (8..16).for_each(|number| state.set_p(number, Predicate::from((1 << (number - 6)) - 1)));
        let bytes = image(&state, &[]);
        let (shown, json) = (asked("show FILE", &bytes).0, asked("show FILE --json", &bytes).0);
        assert!(!shown.contains("\npn8.") && !shown.contains("pn7"), "{shown}");
        let said = shown.matches("read as a counter: .b ").count();
        assert_eq!(said > 0, level == 3, "{vl} {level}: {shown}");
        assert_eq!(json.matches("\"counter\"").count(), said);
    }
}

#[test]
fn runs_print_what_the_library_does() {
    let mut random = Random(2);
    for _ in 0..300 {
        let (mut state, words) = (state(&mut random), words(&mut random));
        let bytes = image(&state, &words);
        let (printed, status) = asked("run FILE", &bytes);
        assert_eq!(printed.as_bytes(), text(&bytes));
        let ran = state.run(&words);
        assert_eq!(status == 0, ran.refused == Reply::Done);
        let (traced, same) = asked("run FILE --trace", &bytes);
        assert_eq!(same, status);
        // a trace has the lines of the run, and more behind each
        assert_eq!(traced.lines().count(), printed.lines().count());
        assert!(traced.lines().zip(printed.lines()).all(|(traced, line)| traced.starts_with(line)), "{traced}");
        let after = asked(&format!("show FILE --after {}", ran.done), &bytes);
        assert_eq!(after.0.split_once('\n').unwrap().1, asked("show FILE", &image(&state, &[])).0);
    }
}

/// The registers that a state differs in from another.
fn differing(before: &State, after: &State) -> Vec<String> {
    let x = (0..31).filter(|number| before.x[*number] != after.x[*number]).map(|number| format!("x{number}"));
    let p = (0..16).filter(|number| before.p()[*number] != after.p()[*number]).map(|number| format!("p{number}"));
    let ffr = (before.ffr != after.ffr).then(|| "ffr".to_string());
    let nzcv = (before.flags != after.flags).then(|| "nzcv".to_string());
    x.chain(p).chain(ffr).chain(nzcv).collect()
}

/// A WHILE into a counter, up or down, of two vectors or four, or any other word.
fn counting(random: &mut Random) -> u32 {
    match random.below(4) {
        0 => word(random),
        _ => 0x2520_4010 | random.next() as u32 & 0x00DF_2FFF | 0x10,
    }
}

#[test]
fn a_trace_names_the_registers_that_change() {
    let mut random = Random(4);
    let (mut named, mut counters) = (0, 0);
    for _ in 0..2_000 {
        let mut state = state(&mut random);
        (state.level, state.access) = (3, true);
        state.x = [(); 31].map(|()| random.below(300));
        // twice into the same register, so that a counter stands there before
        let word = counting(&mut random);
        let _ = state.step(counting(&mut random) & !7 | word & 7);
        let (json, _) = asked("run FILE --trace --json", &image(&state, &[word]));
        let before = state.clone();
        let _ = state.step(word);
        let registers = json.split("\"register\": \"").skip(1).map(|rest| rest.split(['"', '.']).next().unwrap());
        let registers: Vec<String> = registers.map(|name| name.replace("pn", "p")).collect();
        assert_eq!(registers, differing(&before, &state), "{word:08x} {json}");
        // what is said of before and after is not the same
        assert!(json.split("\"before\": ").skip(1).all(|rest| {
            let (before, after) = rest.split_once(", \"after\": ").unwrap();
            before != after.split('}').next().unwrap()
        }));
        named += registers.len();
        // what a WHILE has written as a counter is shown as one, whatever stood there before
        if plokamyr::decode(word).is_ok_and(|row| row.form == Form::WhileCounter) {
            let change = json.split("\"register\": \"p").nth(1).filter(|rest| !rest.starts_with("n"));
            assert_eq!(change, None, "{word:08x} {json}");
            let after = json.split("\"register\": \"pn").nth(1).and_then(|rest| rest.split("\"after\": \"").nth(1));
            assert!(after.map_or(true, |after| after.starts_with("none\"") || after.contains(" counting ")), "{json}");
            counters += usize::from(after.is_some());
        }
    }
    assert!(named > 2_000 && counters > 500, "{named} {counters}");
}

#[test]
fn damaged_images() {
    let mut random = Random(3);
    for _ in 0..2_000 {
        let mut bytes = image(&state(&mut random), &words(&mut random));
        match random.below(4) {
            0 => bytes.truncate(random.below(bytes.len() as u64 + 1) as usize),
            1 => bytes.extend([(); 3].map(|()| random.next() as u8)),
            _ => {}
        }
        for _ in 0..random.below(4) {
            // the sections' counts and settings are at both ends
            let place = if random.below(2) == 0 { random.below(20) } else { random.below(bytes.len() as u64 + 1) };
            bytes.get_mut(place as usize).into_iter().for_each(|byte| *byte = random.next() as u8);
        }
        let accepted = plokamyr::read(&bytes, &mut [0; 4096]).reply == Reply::Done;
        for words in
            ["explain FILE", "show FILE", "diff FILE FILE", "walk FILE -n 1 -m 2 -d 0 -k 1 --budget 50", "dis FILE"]
        {
            let (text, status) = asked(words, &bytes);
            assert_eq!(status == 2, !accepted, "{words}: {text}");
            assert!(accepted || text.contains("byte"), "{words}: {text}");
        }
    }
}
