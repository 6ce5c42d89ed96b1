//! The same work as Arm code under QEMU, where QEMU and a compiler for it are installed.

use crate::words;
use plokamyr::State;
use std::fmt::Write;
use std::path::{Path, PathBuf};
use std::process::{Command, Stdio};
use std::{env, fs};

const COMPILER: &str = "aarch64-linux-gnu-gcc";
const EMULATOR: &str = "qemu-aarch64";
const SOURCES: &str = concat!(env!("CARGO_MANIFEST_DIR"), "/arm");

/// The Arm programs, built.
pub struct Qemu {
    folder: PathBuf,
}

/// The first line that QEMU says of itself.
pub fn version() -> Option<String> {
    let output = Command::new(EMULATOR).arg("--version").output().ok()?;
    String::from_utf8_lossy(&output.stdout).lines().next().map(str::to_owned)
}

impl Qemu {
    /// Builds the programs; the words are those that `run` will time. If something is missing, says what.
    pub fn build(words: &[u32]) -> Result<Qemu, String> {
        for program in [COMPILER, EMULATOR] {
            if !answers(program) {
                return Err(format!("{program} is not installed"));
            }
        }
        let folder = env::temp_dir().join(format!("plokamyr-benchmark-{}", std::process::id()));
        fs::create_dir_all(&folder).map_err(|error| format!("{}: {error}", folder.display()))?;
        let qemu = Qemu { folder };
        qemu.write_list("words.inc", ".inst", words.iter().copied().map(u64::from))?;
        qemu.write_list("start.inc", ".quad", words::start(128).x[..28].iter().copied())?;
        qemu.compile("walk")?;
        qemu.compile("words")?;
        Ok(qemu)
    }

    fn write_list(&self, file: &str, directive: &str, numbers: impl Iterator<Item = u64>) -> Result<(), String> {
        let text = numbers.fold(String::new(), |mut text, number| {
            writeln!(text, "        {directive} {number:#x}").expect("a string takes it all");
            text
        });
        fs::write(self.folder.join(file), text).map_err(|error| format!("{file}: {error}"))
    }

    fn compile(&self, name: &str) -> Result<(), String> {
        let source = |ending: &str| Path::new(SOURCES).join(format!("{name}.{ending}"));
        let status = Command::new(COMPILER)
            .args(["-O2", "-static", "-march=armv8-a+sve2", "-Wall", "-Wextra", "-Werror"])
            .arg(format!("-Wa,-I{}", self.folder.display()))
            .args([source("c"), source("S")])
            .arg("-o")
            .arg(self.folder.join(name))
            .status();
        match status {
            Ok(status) if status.success() => Ok(()),
            _ => Err(format!("{COMPILER} did not build {name}")),
        }
    }

    /// What a program prints at a vector length, as words of text.
    fn output(&self, name: &str, vl: u64, arguments: [u64; 2]) -> Vec<String> {
        let output = Command::new(EMULATOR)
            .args(["-cpu", &format!("max,sve-default-vector-length={}", vl / 8)])
            .arg(self.folder.join(name))
            .arg(vl.to_string())
            .args(arguments.map(|argument| argument.to_string()))
            .stderr(Stdio::inherit())
            .output()
            .expect("QEMU was there a moment ago");
        assert!(output.status.success(), "{name} failed under QEMU at {vl} bits");
        let text = String::from_utf8(output.stdout).expect("the program prints ASCII");
        text.split_whitespace().map(str::to_owned).collect()
    }

    /// The time of a walk in ns: with the positions stored, and bare.
    pub fn walk(&self, vl: u64, positions: u64) -> (f64, f64) {
        let output = self.output("walk", vl, [positions, 3]);
        (number(&output[0]), number(&output[1]))
    }

    /// The time of a run of the words in ns, and the state after it.
    pub fn run(&self, vl: u64) -> (f64, State) {
        let output = self.output("words", vl, [50, 5]);
        (number(&output[0]), state(vl, &output[1..]))
    }
}

impl Drop for Qemu {
    fn drop(&mut self) {
        // nobody needs the programs again; if they stay, no harm is done
        let _ = fs::remove_dir_all(&self.folder);
    }
}

fn answers(program: &str) -> bool {
    let mut command = Command::new(program);
    command.arg("--version").stdout(Stdio::null()).stderr(Stdio::null());
    command.status().is_ok_and(|status| status.success())
}

fn number(text: &str) -> f64 {
    text.parse().expect("the program prints numbers")
}

/// The state from what `arm/words.c` prints.
fn state(vl: u64, lines: &[String]) -> State {
    let hex = |text: &str| u64::from_str_radix(text, 16).expect("the program prints hex");
    let mut state = words::start(vl);
    for (x, line) in state.x[..28].iter_mut().zip(lines) {
        *x = hex(line);
    }
    let flags = hex(&lines[28]);
    let flag = |bit: u32| flags >> bit & 1 == 1;
    state.flags = plokamyr::Flags { n: flag(3), z: flag(2), c: flag(1), v: flag(0) };
    let mut predicates = *state.p();
    for (p, line) in predicates.iter_mut().zip(&lines[29..]) {
        for i in 0..line.len() / 2 {
            p.words[i / 8] |= hex(&line[2 * i..2 * i + 2]) << (i % 8 * 8);
        }
    }
    state.set_all_p(predicates);
    state
}
