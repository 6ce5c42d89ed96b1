//! The builds of the library that are timed: the one at hand, and an earlier one if the build script was given it.

use plokamyr::State;

/// The calls that are timed of a build, each by a pointer so that none is compiled into a loop.
pub struct Build {
    /// What stands after the names of its lines.
    pub suffix: &'static str,
    /// Runs the words, and answers how many were done; none if the run was refused.
    pub run: fn(&mut State, &[u32]) -> Option<usize>,
    /// Walks from X0 to X1 in bytes, with P0 and P1, and answers how many instructions were executed; none if it did not end.
    pub walk: fn(&State, &mut [u64], u64) -> Option<u64>,
}

/// The one at hand stands first.
#[cfg(before)]
pub const BUILDS: &[Build] = &[crate::copies::NOW, crate::copies::BEFORE];
#[cfg(not(before))]
pub const BUILDS: &[Build] = &[BY_WRAPPER];

pub const NOW: &Build = &BUILDS[0];

#[cfg(not(before))]
const BY_WRAPPER: Build = Build {
    suffix: "",
    run: |state, words| {
        let ran = state.run(words);
        (ran.reply == plokamyr::Reply::Done).then_some(ran.done)
    },
    walk: |state, list, budget| {
        let walked = plokamyr::walk(state, 0, 0, 1, 0, 1, list, budget);
        (walked.reply == plokamyr::Reply::Done).then_some(walked.count)
    },
};

impl Build {
    /// The name of a line of this build.
    pub fn line(&self, name: &str) -> String {
        format!("{name}{}", self.suffix)
    }
}
