use crate::{ffi, Reply};

/// A predicate register: bit `b` is bit `b % 64` of `words[b / 64]`.
///
/// ```
/// use plokamyr::Predicate;
///
/// assert!(Predicate { words: [0, 4, 0, 0] }.bit(66));
/// assert_eq!(Predicate::from(0x0111).words, [0x0111, 0, 0, 0]);
/// ```
#[derive(Clone, Copy, Debug, Default, PartialEq, Eq, Hash)]
#[repr(C)]
pub struct Predicate {
    pub words: [u64; 4],
}

impl Predicate {
    /// Bit `b`, false from 256 on.
    pub fn bit(&self, b: usize) -> bool {
        self.words.get(b / 64).map_or(false, |word| word >> (b % 64) & 1 == 1)
    }
}

impl From<u64> for Predicate {
    /// The predicate whose lowest 64 bits are these, with no other set.
    fn from(low: u64) -> Self {
        Predicate { words: [low, 0, 0, 0] }
    }
}

/// The condition flags.
///
/// ```
/// let flags = plokamyr::Flags { n: true, c: true, ..Default::default() };
/// assert_eq!(flags.to_string(), "1010");
/// ```
#[derive(Clone, Copy, Debug, Default, PartialEq, Eq, Hash)]
#[repr(C)]
pub struct Flags {
    pub n: bool,
    pub z: bool,
    pub c: bool,
    pub v: bool,
}

impl std::fmt::Display for Flags {
    /// NZCV, as the program prints them.
    fn fmt(&self, out: &mut std::fmt::Formatter) -> std::fmt::Result {
        let bits = [self.n, self.z, self.c, self.v].map(u8::from);
        bits.iter().try_for_each(|bit| write!(out, "{bit}"))
    }
}

/// How many elements of a predicate are true, at each size. Element e of n bytes is true if bit e * n is 1.
///
/// ```
/// use plokamyr::{Counts, Predicate, State};
///
/// let mut state = State::new(128, 1);
/// state.set_p(3, Predicate::from(0x0111));
/// assert_eq!(state.counts()[3], Counts { b: 3, h: 3, s: 3, d: 2 });
/// ```
#[derive(Clone, Copy, Debug, Default, PartialEq, Eq, Hash)]
#[repr(C)]
pub struct Counts {
    pub b: u16,
    pub h: u16,
    pub s: u16,
    pub d: u16,
}

/// The register state. Any value may be handed to the library: one that is not legal gets [`Reply::IllegalState`].
/// [`State::new`] makes one, so that a field to come breaks nobody.
///
/// ```
/// use plokamyr::{Predicate, Reply, State};
///
/// let mut state = State::new(128, 1);
/// state.x[1] = 10;
/// state.x[2] = 13;
/// assert_eq!(state.step(0x25A2_1C20), Reply::Done); // WHILELO p0.s, x1, x2
/// assert_eq!(state.p()[0], Predicate::from(0x0111));
/// assert_eq!(state.count(0, 2), 3); // of its words three are true
/// assert_eq!(state.flags.to_string(), "1010");
/// ```
///
/// An expression of its fields does not compile:
///
/// ```compile_fail,E0639
/// let state = plokamyr::State { level: 2, ..plokamyr::State::new(128, 1) };
/// ```
///
/// The state keeps the counts of P0 to P15, which [`count`](State::count) reads; a wrong one is not legal. They go by the
/// predicates and the vector length, so that these have setters, which keep the counts right. To write past them does not compile:
///
/// ```compile_fail,E0616
/// plokamyr::State::new(128, 1).p[0] = plokamyr::Predicate::from(0x0111);
/// ```
#[derive(Clone, Debug, PartialEq, Eq, Hash)]
#[non_exhaustive]
#[repr(C)]
pub struct State {
    pub(crate) vl: u64,
    /// 0 none, 1 SVE, 2 SVE2, 3 SVE2p1.
    pub level: u8,
    pub access: bool,
    pub flags: Flags,
    pub x: [u64; 31],
    pub(crate) p: [Predicate; 16],
    /// The first-fault register. As a predicate, it may hold any bits below an eighth of the vector length. It has no counts.
    pub ffr: Predicate,
    pub(crate) counts: [Counts; 16],
}

impl State {
    /// A state with access on and all registers, flags and counts zero. The vector length is in bits: 128, 256, 512, 1024 or
    /// 2048.
    ///
    /// ```
    /// use plokamyr::{Reply, State};
    ///
    /// assert_eq!(State::new(128, 1).step(0x2518_E400), Reply::Done); // PFALSE p0
    /// assert_eq!(State::new(100, 1).step(0x2518_E400), Reply::IllegalState);
    /// ```
    pub fn new(vl: u64, level: u8) -> State {
        let (flags, none) = (Flags::default(), Predicate::default());
        let counts = [Counts::default(); 16]; // no element of an empty predicate is true, whatever the length is
        State { vl, level, access: true, flags, x: [0; 31], p: [none; 16], ffr: none, counts }
    }

    /// The vector length in bits.
    pub fn vl(&self) -> u64 {
        self.vl
    }

    /// P0 to P15.
    ///
    /// ```
    /// assert!(plokamyr::State::new(128, 1).p().iter().all(|p| *p == plokamyr::Predicate::default()));
    /// ```
    pub fn p(&self) -> &[Predicate; 16] {
        &self.p
    }

    /// How many elements of a predicate register are true, at a size: 0 to 3 for B, H, S, D.
    ///
    /// ```
    /// use plokamyr::{Predicate, State};
    ///
    /// let mut state = State::new(128, 1);
    /// state.set_p(3, Predicate::from(0x0111));
    /// assert_eq!([0, 1, 2, 3].map(|size| state.count(3, size)), [3, 3, 3, 2]);
    /// ```
    ///
    /// # Panics
    ///
    /// If `p` is above 15 or `size` above 3, as with an index past the end.
    #[track_caller]
    pub fn count(&self, p: usize, size: u32) -> u16 {
        let Counts { b, h, s, d } = self.counts[p];
        [b, h, s, d][size as usize]
    }

    /// The counts of P0 to P15, all sizes of each.
    pub fn counts(&self) -> &[Counts; 16] {
        &self.counts
    }

    /// Sets the vector length, and works the counts out.
    ///
    /// ```
    /// use plokamyr::{Predicate, Reply, State};
    ///
    /// let mut state = State::new(256, 1);
    /// state.set_p(0, Predicate::from(0x8001_0001));
    /// assert_eq!(state.count(0, 0), 3);
    /// state.set_vl(128);
    /// assert_eq!(state.count(0, 0), 1); // the other two stand past the vector's end,
    /// assert_eq!(state.run(&[]).reply, Reply::IllegalState); // where no bit may stand
    /// ```
    pub fn set_vl(&mut self, vl: u64) {
        self.vl = vl;
        *self = self.counted();
    }

    /// Writes a predicate register, and works the counts out.
    ///
    /// ```
    /// use plokamyr::{Predicate, Reply, State};
    ///
    /// let mut state = State::new(128, 1);
    /// state.set_p(1, Predicate::from(0x0111));
    /// assert_eq!(state.step(0x25AC_8820), Reply::Done); // INCP x0, p1.s
    /// assert_eq!(state.x[0], 3);
    /// ```
    ///
    /// # Panics
    ///
    /// If `number` is above 15, as with an index past the end.
    #[track_caller]
    pub fn set_p(&mut self, number: usize, predicate: Predicate) {
        self.p[number] = predicate;
        *self = self.counted();
    }

    /// Writes P0 to P15, and works the counts out, once for all.
    ///
    /// ```
    /// use plokamyr::{Predicate, State};
    ///
    /// let mut state = State::new(128, 1);
    /// let mut p = *state.p();
    /// p[1..3].fill(Predicate::from(0x0111));
    /// state.set_all_p(p);
    /// assert_eq!((state.count(0, 0), state.count(1, 0), state.count(2, 0)), (0, 3, 3));
    /// ```
    pub fn set_all_p(&mut self, p: [Predicate; 16]) {
        self.p = p;
        *self = self.counted();
    }

    /// Takes counts from elsewhere as they are, right or wrong, so that the library tests them: if one is wrong, whatever is
    /// done with the state gets [`Reply::IllegalState`]. Setters work all of them out, so that this comes last.
    ///
    /// ```
    /// use plokamyr::{Predicate, Reply, State};
    ///
    /// let mut state = State::new(128, 1);
    /// state.set_p(3, Predicate::from(0x0111));
    /// let mut counts = *state.counts();
    /// counts[3].d += 1;
    /// state.set_counts(counts);
    /// assert_eq!(state.step(0x2518_E400), Reply::IllegalState); // PFALSE p0
    /// assert_eq!(state.counted().step(0x2518_E400), Reply::Done);
    /// ```
    pub fn set_counts(&mut self, counts: [Counts; 16]) {
        self.counts = counts;
    }

    /// The state with its counts worked out, and all else as it is. Only [`set_counts`](State::set_counts) leaves a state that
    /// needs it.
    #[must_use]
    pub fn counted(&self) -> State {
        ffi::counted(self)
    }

    /// Executes one instruction word where the state stands; nothing is copied. Each step tests that the state is legal, with
    /// its 64 counts; a [run](State::run) tests that once.
    /// Refusals, which leave the state as it was, the first that applies: 4, 1 or 13, 2, 3, 14 (WRFFR alone).
    ///
    /// ```
    /// use plokamyr::{Reply, State};
    ///
    /// let mut state = State::new(128, 0);
    /// let before = state.clone();
    /// assert_eq!(state.step(0x2518_E400), Reply::LevelTooLow); // PFALSE p0 asks level 1
    /// assert_eq!(state, before);
    /// ```
    ///
    /// FFR takes a run of ones from bit 0, and no other predicate:
    ///
    /// ```
    /// use plokamyr::{Predicate, Reply, State};
    ///
    /// let mut state = State::new(128, 1);
    /// state.set_p(2, Predicate::from(0b0111));
    /// assert_eq!(state.step(0x2528_9040), Reply::Done); // WRFFR p2.b
    /// state.set_p(2, Predicate::from(0b1011));
    /// assert_eq!(state.step(0x2528_9040), Reply::NotMonotonic);
    /// assert_eq!(state.ffr, Predicate::from(0b0111));
    /// ```
    pub fn step(&mut self, word: u32) -> Reply {
        ffi::step(self, word)
    }

    /// The same as [`step`](State::step), by way of a step that hands the state in and back.
    /// It copies the state, and is slower; the two are proved to have one meaning.
    ///
    /// ```
    /// let mut state = plokamyr::State::new(128, 1);
    /// assert_eq!(state.step_lent(0x2518_E400), plokamyr::Reply::Done); // PFALSE p0
    /// ```
    pub fn step_lent(&mut self, word: u32) -> Reply {
        ffi::step_lent(self, word)
    }

    /// Executes words one after the other, until one is refused (1 or 13, 2, 3, 14). The state is then what the words done left.
    /// Refusal, which leaves the state as it was: 4, even if there are no words. The faster way for more than one word.
    ///
    /// ```
    /// use plokamyr::{Reply, State};
    ///
    /// let mut state = State::new(128, 1);
    /// let ran = state.run(&[0x25A2_1C20, 0x2519_C401, 0]);
    /// assert_eq!((ran.reply, ran.refused, ran.done), (Reply::Done, Reply::ForeignWord, 2));
    /// ```
    pub fn run(&mut self, words: &[u32]) -> Ran {
        let ffi::Ran { reply, refused, done } = ffi::run(self, words);
        Ran { reply: Reply::from_number(reply), refused: Reply::from_number(refused), done }
    }
}

/// What [`State::run`] answers: `done` words were executed; `refused` is the reply to the word after them, or done if
/// there is none. If the run itself is refused, which `reply` says: done and 0.
#[derive(Clone, Copy, Debug, PartialEq, Eq)]
#[non_exhaustive]
#[must_use]
pub struct Ran {
    pub reply: Reply,
    pub refused: Reply,
    pub done: usize,
}
