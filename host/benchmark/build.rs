//! Finds what the benchmark links beside the wrapper: `libscan.a`, which has the two searches, and, if `PLOKAMYR_BEFORE` names
//! the folder of an earlier `libcapi.a`, copies of that and of the one at hand.

#[path = "../plokamyr/archive.rs"]
mod archive;

use archive::{find, folder, link, link_made, named, out, stop, LIBRARY};
use std::path::Path;
use std::process::Command;

/// What is timed of a copy, and `plokamyr_read`, which tells how its states are laid out.
const CALLS: [&str; 3] = ["plokamyr_run_parts", "plokamyr_walk", "plokamyr_read"];

fn main() {
    println!("cargo::rustc-check-cfg=cfg(before)");
    let make = "Run `rt lib --cpu x86-64` in crates/scan of the repository, or set PLOKAMYR_LIB to the folder that has it.";
    link("scan", &find(&folder("scan"), &["libscan.a"], make));
    if let Some(before) = named("PLOKAMYR_BEFORE") {
        let what = "PLOKAMYR_BEFORE is the folder of an earlier libcapi.a, or is not set.";
        link_copy("before", &find(&before, &LIBRARY, what));
        link_copy("now", &find(&folder("capi"), &LIBRARY, what));
        println!("cargo::rustc-cfg=before");
    }
}

/// Links a copy whose calls have a prefix and which shows nothing else, so that several fit in one program. All of its
/// functions begin at multiples of 64 bytes, so that the copies are placed alike. What is a good place for one may still be
/// a bad one for another.
fn link_copy(prefix: &str, archive: &Path) {
    let mut objcopy = Command::new("objcopy");
    objcopy.arg("--set-section-alignment=.text.*=64");
    for call in CALLS {
        objcopy
            .arg(format!("--redefine-sym={call}={prefix}_{call}"))
            .arg(format!("--keep-global-symbol={prefix}_{call}"));
    }
    let status = objcopy.arg(archive).arg(out().join(format!("lib{prefix}.a"))).status();
    if !status.is_ok_and(|status| status.success()) {
        stop(&format!("objcopy, of binutils, has made no copy of {}.", archive.display()));
    }
    link_made(prefix);
}
