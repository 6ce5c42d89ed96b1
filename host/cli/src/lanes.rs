//! Predicates as lanes: pictures, ranges and counts.

use crate::style::Style;
use crate::syntax::SIZES;
use crate::words::{runs, shortened};
use plokamyr::{Predicate, State};
use std::ops::RangeInclusive;

/// The number of a size's letter, small or large.
pub fn size_of(letter: &str) -> Option<u32> {
    let place = SIZES.iter().position(|size| letter.eq_ignore_ascii_case(&size.to_string()));
    place.map(|place| place as u32)
}

/// How many elements of a size a vector has.
pub fn elements(vl: u64, size: u32) -> usize {
    (vl as usize / 8) >> size
}

/// Element by element whether it is true: the bit of its lowest byte says so.
pub fn lanes(predicate: &Predicate, vl: u64, size: u32) -> Vec<bool> {
    (0..elements(vl, size)).map(|element| predicate.bit(element << size)).collect()
}

/// The true elements as ranges.
pub fn ranges(predicate: &Predicate, vl: u64, size: u32) -> Vec<RangeInclusive<u64>> {
    let lanes = lanes(predicate, vl, size);
    runs((0..).zip(lanes).filter(|(_, lane)| *lane).map(|(element, _)| element))
}

/// The true elements as `0-4,7`.
pub fn shown(predicate: &Predicate, vl: u64, size: u32) -> String {
    shortened(&ranges(predicate, vl, size))
}

/// Bits that are set and are no element's lowest at a size.
pub fn hidden(predicate: &Predicate, size: u32) -> usize {
    (0..256).filter(|bit| predicate.bit(*bit) && bit % (1 << size) != 0).count()
}

/// How many elements of any predicate are true, by the counts that the library keeps.
pub fn count(predicate: &Predicate, vl: u64, size: u32) -> u16 {
    let mut state = State::new(vl, 0);
    state.set_p(0, *predicate);
    state.count(0, size)
}

/// The predicate whose true elements are these; none if there is one past the vector.
pub fn predicate(vl: u64, size: u32, ranges: &[RangeInclusive<u64>]) -> Option<Predicate> {
    let mut predicate = Predicate::default();
    let elements = elements(vl, size);
    for range in ranges {
        if *range.end() >= elements as u64 {
            return None;
        }
        for element in range.clone() {
            let bit = (element as usize) << size;
            predicate.words[bit / 64] |= 1 << (bit % 64);
        }
    }
    Some(predicate)
}

/// A row of lanes, drawn, and the number of its first one.
pub struct Row {
    pub first: usize,
    pub drawn: String,
}

/// A group of lanes in a picture.
const GROUP: usize = 8;

/// The fewest columns in which a row of 64 lanes fits, with what stands before it.
const WIDE: usize = 88;

/// The lanes drawn, the lowest first, in groups and rows. False groups at the end are left out for `..`, which stands in a row
/// of its own after a full one.
pub fn picture(predicate: &Predicate, vl: u64, size: u32, style: Style) -> Vec<Row> {
    let lanes = lanes(predicate, vl, size);
    let last = lanes.iter().rposition(|lane| *lane).unwrap_or(0);
    let drawn = lanes.len().min((last / GROUP + 1) * GROUP);
    let long = if style.columns.is_some_and(|columns| columns < WIDE) { 32 } else { 64 };
    let row = |(place, row)| Row { first: place * long, drawn: draw(row, style) };
    let mut rows: Vec<Row> = lanes[..drawn].chunks(long).enumerate().map(row).collect();
    match rows.last_mut() {
        _ if drawn == lanes.len() => {}
        Some(row) if drawn % long != 0 => row.drawn += &style.dim(" .."),
        _ => rows.push(Row { first: drawn, drawn: style.dim("..") }),
    }
    rows
}

/// Lanes with a blank between groups. Colour is written once for a run of equal ones.
fn draw(lanes: &[bool], style: Style) -> String {
    let places: Vec<usize> = (0..lanes.len()).collect();
    let lane = |place: usize| {
        let blank = if place > 0 && place % GROUP == 0 { " " } else { "" };
        format!("{blank}{}", if lanes[place] { '█' } else { '░' })
    };
    let run = |run: &[usize]| {
        let drawn: String = run.iter().map(|place| lane(*place)).collect();
        if lanes[run[0]] {
            style.green(&drawn)
        } else {
            style.dim(&drawn)
        }
    };
    places.chunk_by(|one, next| lanes[*one] == lanes[*next]).map(run).collect()
}

#[cfg(test)]
mod tests {
    use super::*;

    fn rows(lanes: &str, columns: Option<usize>) -> Vec<(usize, String)> {
        let ranges: Vec<_> = lanes.split(',').map(|lane| lane.parse().unwrap()..=lane.parse().unwrap()).collect();
        let predicate = predicate(2048, 0, &ranges).unwrap();
        let style = Style { columns, ..Style::PLAIN };
        picture(&predicate, 2048, 0, style).into_iter().map(|row| (row.first, row.drawn)).collect()
    }

    #[test]
    fn rows_begin_with_the_lane_of_their_number() {
        for lane in 0..256 {
            for (columns, long) in [(None, 64), (Some(88), 64), (Some(500), 64), (Some(87), 32), (Some(1), 32)] {
                let rows = rows(&lane.to_string(), columns);
                let (first, drawn) = &rows[lane / long];
                let place = drawn.chars().filter(|c| *c != ' ').position(|c| c == '█');
                assert_eq!(place.map(|place| first + place), Some(lane));
                // one more with dots alone, if the last of a row is true and others follow
                let dots = lane % long >= long - GROUP && lane < 256 - GROUP;
                assert_eq!(rows.len(), lane / long + 1 + usize::from(dots));
                assert_eq!(
                    rows.last().is_some_and(|(first, drawn)| *first == lane / long * long + long && drawn == ".."),
                    dots
                );
            }
        }
    }

    #[test]
    fn one_code_for_a_run() {
        let draw = |lanes: &[bool]| draw(lanes, Style { colour: true, columns: None });
        assert_eq!(draw(&[true; 10]), "\x1b[32m████████ ██\x1b[0m");
        assert_eq!(draw(&[true, false, false]), "\x1b[32m█\x1b[0m\x1b[2m░░\x1b[0m");
    }
}
