//! Images, and the program.

use crate::steps::none_of_ours;
use crate::*;
use std::fs;

/// The counts and contents of the sections at their largest: settings, X, P, FFR, flags, words.
const LARGEST: usize = (4 + 3) + (4 + 31 * 8) + (4 + 16 * 32) + (4 + 32) + (4 + 4) + (4 + 4096 * 4);

pub fn image_of(state: &State, words: &[u32]) -> Vec<u8> {
    let mut image = vec![0; LARGEST];
    let written = write(state, words, &mut image);
    assert_eq!(written.reply, 0);
    image.truncate(written.length);
    image
}

/// WHILELO p0.s, x1, x2, PNEXT p1.b, p0, p1.b, and a word.
fn program_with(last: u32) -> Vec<u8> {
    let mut state = ready();
    (state.level, state.x[1], state.x[2]) = (1, 10, 13);
    image_of(&state, &[0x25a2_1c20, 0x2519_c401, last])
}

fn program() -> Vec<u8> {
    program_with(0)
}

#[test]
fn the_program() {
    let lines = "0 25a21c20 0 1010\n1 2519c401 0 1010\n2 00000000 1 1010\nend 2\n";
    assert_eq!(text(&program()), lines.as_bytes());
    assert_eq!(text(&program()[..300]), b"image 5\n");
    let mut buffer = [b'.'; 30];
    let length = text_in(&program(), &mut buffer);
    assert_eq!(&buffer[..length], b"0 25a21c20 0 1010\nend 2\n");
    assert_eq!(&buffer[length..], b"......");
}

/// "The first example program still writes 1 for 00000000", and 13 for what has 25 in its highest byte.
#[test]
fn the_program_with_another_last_word() {
    for (word, reply) in none_of_ours() {
        let lines = format!("0 25a21c20 0 1010\n1 2519c401 0 1010\n2 {word:08x} {reply} 1010\nend 2\n");
        assert_eq!(text(&program_with(word)), lines.as_bytes());
    }
}

/// The images of `examples/`, with what each prints.
#[test]
fn the_examples() {
    let folder = concat!(env!("CARGO_MANIFEST_DIR"), "/../../examples");
    for name in [
        "first", "old", "tail", "logic", "counters", "sparse", "ffr", "hole", "level", "newer", "none", "cut", "empty",
        "count", "content", "trailing",
    ] {
        let image = fs::read(format!("{folder}/{name}.image")).unwrap();
        let lines = fs::read(format!("{folder}/{name}.out")).unwrap();
        assert_eq!(text(&image), lines, "{name}");
    }
}

#[test]
fn images_read_as_written() {
    assert_eq!(image_of(&ready(), &[]).len(), 313);
    let mut state = ready();
    (state.vl, state.x[30], state.flags.v) = (2048, 0x0123_4567_89ab_cdef, true);
    state.ffr = [u64::MAX, 5, 6, 1 << 63];
    put(&mut state, 15, [1, 2, 3, u64::MAX]);
    let image = image_of(&state, &[5; 4096]);
    assert_eq!(image.len(), LARGEST);
    let mut words = [9; 4097];
    let reading = read(&image, &mut words);
    assert_eq!((reading.reply, reading.count, reading.state), (0, 4096, state.clone()));
    assert_eq!((words[4095], words[4096]), (5, 9));
    assert_eq!(write(&state, &[0; 4097], &mut []).reply, 6);
    assert_eq!(write(&state, &[], &mut [0; LARGEST - 4 * 4096 - 1]).reply, 8);
}

#[test]
fn refusals_of_an_image() {
    let reply = |image: &[u8]| read(image, &mut [0; 3]).reply;
    let image = program();
    for length in 0..image.len() {
        assert_eq!(reply(&image[..length]), 5);
    }
    let with = |place: usize, byte: u8| {
        let mut changed = image.clone();
        changed[place] = byte;
        reply(&changed)
    };
    // The counts, FFR's at 295; VL, level and access; a flag.
    for (place, byte) in [(0, 4), (7, 30), (259, 17), (301, 5), (310, 17), (4, 3), (5, 4), (6, 2), (308, 2)] {
        assert_eq!(with(place, byte), 6, "byte {place}");
    }
    for (place, byte) in [(295, 0), (295, 2), (295, 3), (295, 5), (296, 1), (297, 1), (298, 1)] {
        assert_eq!(with(place, byte), 6, "byte {place} as {byte}");
    }
    assert_eq!(with(295, 4), 6); // an old image: its flags are 0, 0, 4, 0
    assert_eq!(with(300, 255), 0); // any bits of FFR are allowed
    assert_eq!(with(309, 4), 5); // one word more than there are
    assert_eq!(with(309, 2), 7);
    let reading = read(&image, &mut [0; 2]);
    assert_eq!((reading.reply, reading.count), (8, 0));
    assert_eq!(reading.state, nothing());
}

/// "An image where the count there is 4 is an old one and reads with FFR all false"; "only a new image comes back byte for
/// byte".
#[test]
fn old_images() {
    for length in LENGTHS {
        let (p_end, bytes) = (263 + length as usize / 4, length as usize / 64);
        let state = State { vl: length, ffr: bits(1, 9), ..truth_table() };
        let image = image_of(&state, &[1, 2, 3]);
        let old = [&image[..p_end], &image[p_end + 4 + bytes..]].concat();
        let mut words = [0; 3];
        let reading = read(&old, &mut words);
        assert_eq!((reading.reply, reading.count, words), (0, 3, [1, 2, 3]));
        assert_eq!(reading.state, State { ffr: [0; 4], ..state });
        let section = [&[1, 0, 0, 0][..], &vec![0; bytes]].concat();
        assert_eq!(image_of(&reading.state, &words), [&old[..p_end], &section, &old[p_end..]].concat());
        assert_eq!(old[p_end..p_end + 4], [4, 0, 0, 0]);
        for end in 0..old.len() {
            assert_eq!(read(&old[..end], &mut [0; 3]).reply, 5);
        }
        assert_eq!(read(&[&old[..], &[0]].concat(), &mut [0; 3]).reply, 7);
        for count in [0, 2, 3] {
            let section = [&[count, 0, 0, 0][..], &vec![0; usize::from(count) * bytes]].concat();
            assert_eq!(read(&[&old[..p_end], &section, &old[p_end..]].concat(), &mut [0; 3]).reply, 6);
        }
    }
}
