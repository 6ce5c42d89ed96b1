//! Finds the proved library's archive: in `PLOKAMYR_LIB`, or where `rt lib` puts it.

mod archive;

use archive::{find, folder, link, LIBRARY};

const WHAT_TO_DO: &str = "Run `rt lib --cpu x86-64` in crates/capi of the repository to make it,\n\
                          or set PLOKAMYR_LIB to the folder that has it, as lib where ./install has put it.";

fn main() {
    link("capi", &find(&folder("capi"), &LIBRARY, WHAT_TO_DO));
}
