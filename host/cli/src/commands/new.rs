use crate::args::Args;
use crate::commands::asm::{assembled, length, source};
use crate::failure::{why, Failure, Outcome, DONE};
use crate::image::named;
use crate::lanes::{elements, predicate, size_of};
use crate::list;
use crate::save::{is_same_file, save};
use crate::style::Style;
use crate::words::{counted, grouped, natural, numbers, wrapping};
use plokamyr::{write, Flags, Predicate, Reply, State, IMAGE_MAX, WORDS_MAX};
use std::ops::RangeInclusive;
use std::path::{Path, PathBuf};

pub fn command(args: &Args, _: Style) -> Result<Outcome, Failure> {
    let path = args.value("o").ok_or("-o FILE is missing: where to write the image")?;
    let (mut state, p) = state(args)?;
    let words = match args.operands.as_slice() {
        [] => Vec::new(),
        _ => kernel(super::only(args, "KERNEL")?, path)?,
    };
    state.set_all_p(p); // asks the library, so that it comes after all that is typed has been read
    let mut image = vec![0; IMAGE_MAX];
    let written = write(&state, &words, &mut image);
    match written.reply {
        Reply::Done => image.truncate(written.length),
        refusal => return Err(format!("the image cannot be written: {refusal}").into()),
    }
    if path == "-" {
        return Ok(Outcome::new(image, DONE));
    }
    save(Path::new(path), &image).map_err(|error| format!("{} cannot be written: {}", named(path), why(&error)))?;
    Ok(Outcome::new("", DONE))
}

/// The words of a kernel: of its instructions, or as a list of words has them.
fn kernel(path: &str, image: &str) -> Result<Vec<u32>, Failure> {
    let opened = |name: &str, stream| PathBuf::from(if name == "-" { stream } else { name });
    if is_same_file(&opened(path, "/dev/stdin"), &opened(image, "/dev/stdout")) {
        let image = if image == "-" { "standard output" } else { image };
        return Err(format!("-o is {image}: another file than the kernel would do").into());
    }
    let (name, source) = (named(path), source(path)?);
    if list::is_list(&source) {
        let words = list::words(&name, &source)?;
        return fits(&name, words.len()).map(|()| words);
    }
    fits(&name, length(&name, &source)?)?;
    assembled(&name, &source)
}

fn fits(name: &str, words: usize) -> Result<(), Failure> {
    if words > WORDS_MAX {
        let most = grouped(WORDS_MAX as u64);
        return Err(format!("{name} has {}: an image holds {most}", counted(words as u64, "word")).into());
    }
    Ok(())
}

/// The state but for P0 to P15, and these: to set them is to ask the library.
fn state(args: &Args) -> Result<(State, [Predicate; 16]), Failure> {
    let vl = args.value("vl").ok_or_else(|| format!("--vl BITS is missing: {} would do", numbers(&LENGTHS)))?;
    let vl = allowed("--vl", vl, &LENGTHS)?;
    let level = allowed("--level", args.value("level").unwrap_or("3"), &LEVELS)?;
    let mut state = State::new(u64::from(vl), level as u8);
    let mut p = *state.p();
    state.access = !args.has("no-access");
    for (number, value) in once("X", args.values("x").into_iter().map(general))? {
        state.x[number] = value;
    }
    for (number, value) in once("P", args.values("p").into_iter().map(|text| lanes_of(text, state.vl())))? {
        p[number] = value;
    }
    if let Some(text) = args.value("ffr") {
        state.ffr = true_lanes("--ffr", text, state.vl(), 0)?;
    }
    if let Some(text) = args.value("nzcv") {
        state.flags = flags(text)?;
    }
    Ok((state, p))
}

/// What registers are given, each at most once.
fn once<T>(name: &str, given: impl Iterator<Item = Result<(usize, T), Failure>>) -> Result<Vec<(usize, T)>, Failure> {
    let mut all: Vec<(usize, T)> = Vec::new();
    for register in given {
        let (number, value) = register?;
        if all.iter().any(|(known, _)| *known == number) {
            return Err(format!("{name}{number} is given twice").into());
        }
        all.push((number, value));
    }
    Ok(all)
}

/// The vector lengths that the library takes. They are known here, as the levels are, so that what is typed is read without it.
pub const LENGTHS: [u32; 5] = [128, 256, 512, 1024, 2048];

/// The levels that it takes.
pub const LEVELS: [u32; 4] = [0, 1, 2, 3];

/// A setting that is one of these.
fn allowed(name: &str, text: &str, settings: &[u32]) -> Result<u32, Failure> {
    let value = natural(text).and_then(|value| settings.iter().find(|known| u64::from(**known) == value));
    value.copied().ok_or_else(|| format!("{name} is '{text}': {} would do", numbers(settings)).into())
}

/// `1=64` or `x1=64`.
fn general(text: &str) -> Result<(usize, u64), Failure> {
    let read = || {
        let (number, value) = text.split_once('=')?;
        Some((register(number, 'x', 31)?, wrapping(value)?))
    };
    read().ok_or_else(|| {
        format!("-x is '{text}': N=VALUE would do, with N 0 to 30 and a VALUE of 64 bits, as 1=64").into()
    })
}

/// The number of a register of so many.
fn register(text: &str, letter: char, numbers: u64) -> Option<usize> {
    super::register(text, letter).filter(|number| *number < numbers).map(|number| number as usize)
}

/// `0.s=0-4,7` or `p0.s=0-4,7`.
fn lanes_of(text: &str, vl: u64) -> Result<(usize, Predicate), Failure> {
    let read = || {
        let (name, lanes) = text.split_once('=')?;
        let (number, letter) = name.split_once('.')?;
        Some((register(number, 'p', 16)?, size_of(letter)?, lanes))
    };
    let wrong = || format!("-p is '{text}': N.SIZE=LANES would do, with N 0 to 15 and SIZE b, h, s or d, as 0.s=0-4,7");
    let (number, size, lanes) = read().ok_or_else(wrong)?;
    Ok((number, true_lanes("-p", lanes, vl, size)?))
}

fn true_lanes(name: &str, text: &str, vl: u64, size: u32) -> Result<Predicate, Failure> {
    let last = elements(vl, size) as u64 - 1;
    let ranges = match text {
        "all" => Some(vec![0..=last]),
        "none" => Some(vec![]),
        _ => text.split(',').map(range).collect(),
    };
    let found = ranges.and_then(|ranges| predicate(vl, size, &ranges));
    found.ok_or_else(|| {
        format!("the lanes of {name} are '{text}': lanes 0 to {last} would do, as 0-4,7, all or none").into()
    })
}

/// `7` or `0-4`.
fn range(text: &str) -> Option<RangeInclusive<u64>> {
    let (first, last) = text.split_once('-').unwrap_or((text, text));
    let (first, last) = (natural(first)?, natural(last)?);
    (first <= last).then_some(first..=last)
}

/// `1010`.
fn flags(text: &str) -> Result<Flags, Failure> {
    let bits: Vec<bool> = text.chars().map(|bit| bit == '1').collect();
    match bits.as_slice() {
        &[n, z, c, v] if text.chars().all(|bit| bit == '0' || bit == '1') => Ok(Flags { n, z, c, v }),
        _ => Err(format!("--nzcv is '{text}': four digits 0 or 1 would do, as 1010").into()),
    }
}

#[cfg(test)]
mod tests {
    use super::*;

    #[test]
    fn settings_are_the_librarys() {
        let is_legal = |mut state: State| state.run(&[]).reply == Reply::Done;
        let lengths = (0..=4096).filter(|vl| is_legal(State::new(u64::from(*vl), 0)));
        assert_eq!(lengths.collect::<Vec<_>>(), LENGTHS);
        let levels = (0..=255).filter(|level| is_legal(State::new(128, *level as u8)));
        assert_eq!(levels.collect::<Vec<_>>(), LEVELS);
    }
}
