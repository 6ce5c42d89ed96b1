//! Prints every word that the library accepts, and its text: what tests/llvm compares with LLVM's.

use cli::{disassemble, Aliases};
use std::io::{BufWriter, Write};

fn main() -> std::io::Result<()> {
    let aliases = if std::env::args().any(|text| text == "--aliases") { Aliases::On } else { Aliases::Off };
    let mut out = BufWriter::new(std::io::stdout().lock());
    // the library accepts no word with other bits 31:24
    for word in 0x2500_0000..=0x25FF_FFFF {
        if let Ok(text) = disassemble(word, aliases) {
            writeln!(out, "{word:08x} {text}")?;
        }
    }
    out.flush()
}
