use crate::{ffi, Flags, Reply, State};

/// One of the two kernels that take turns on a [`Shared`] state, each with registers of its own. Register 31 is open to both,
/// FFR to neither.
#[derive(Clone, Copy, Debug, PartialEq, Eq)]
pub enum Kernel {
    /// Owns X0 to X15 and P0 to P7.
    First,
    /// Owns X16 to X30 and P8 to P15.
    Second,
}

/// One register file for two kernels. Vector length, level and access are shared, the flags are kept for each: those of the
/// first are `state.flags`, those of the second `second`.
///
/// A step or a walk is for one kernel, and does what it does on a [`State`] with that kernel's flags. If it names a register of
/// the other, as source, mask or target, or touches FFR, it gets [`Reply::NotOwned`]: so neither sees what the other does. A
/// shared state is not put in an image.
///
/// ```
/// use plokamyr::Kernel::{First, Second};
/// use plokamyr::{Reply, Shared};
///
/// let mut shared = Shared::new(128, 1);
/// shared.state.x[1] = 10;
/// shared.state.x[2] = 13;
/// shared.state.x[18] = 9;
/// assert_eq!(shared.step(First, 0x25A2_1C20), Reply::Done); // WHILELO p0.s, x1, x2
/// assert_eq!(shared.step(Second, 0x25B2_1E28), Reply::Done); // WHILELO p8.s, x17, x18
/// assert_eq!(shared.step(First, 0x25AC_8800), Reply::Done); // INCP x0, p0.s
/// assert_eq!(shared.step(Second, 0x25AC_8800), Reply::NotOwned); // x0 and p0 are the first's
/// assert_eq!(shared.state.x[0], 3);
/// assert_eq!([First, Second].map(|kernel| shared.flags(kernel).to_string()), ["1010", "1000"]);
/// ```
///
/// Registers are written by hand as in any state:
///
/// ```
/// use plokamyr::{Kernel, Predicate, Reply, Shared};
///
/// let mut shared = Shared::new(128, 1);
/// shared.state.set_p(8, Predicate::from(0x0111));
/// assert_eq!(shared.step(Kernel::Second, 0x25AC_8910), Reply::Done); // INCP x16, p8.s
/// assert_eq!(shared.state.x[16], 3);
/// ```
#[derive(Clone, Debug, PartialEq, Eq, Hash)]
#[repr(C)]
pub struct Shared {
    /// The registers of both, and the flags of the first kernel.
    pub state: State,
    /// The flags of the second kernel.
    pub second: Flags,
}

impl Shared {
    /// A shared state with access on and all registers, flags and counts zero, as [`State::new`].
    ///
    /// ```
    /// use plokamyr::{Flags, Shared, State};
    ///
    /// assert_eq!(Shared::new(128, 1), Shared { state: State::new(128, 1), second: Flags::default() });
    /// ```
    pub fn new(vl: u64, level: u8) -> Shared {
        Shared { state: State::new(vl, level), second: Flags::default() }
    }

    /// The flags of a kernel.
    ///
    /// ```
    /// use plokamyr::{Flags, Kernel, Shared};
    ///
    /// let mut shared = Shared::new(128, 1);
    /// shared.second.n = true;
    /// assert_eq!(shared.flags(Kernel::Second), Flags { n: true, ..Default::default() });
    /// assert_eq!(shared.flags(Kernel::First), Flags::default());
    /// ```
    pub fn flags(&self, kernel: Kernel) -> Flags {
        match kernel {
            Kernel::First => self.state.flags,
            Kernel::Second => self.second,
        }
    }

    /// Executes one instruction word of a kernel. The shared state is copied in and back, and each step tests that it is legal.
    /// Refusals, which leave the shared state as it was, the first that applies: 4, 1 or 13, 2, 3, 15. There is no 14: WRFFR
    /// touches FFR.
    ///
    /// ```
    /// use plokamyr::{Kernel, Reply, Shared};
    ///
    /// let mut shared = Shared::new(128, 1);
    /// let before = shared.clone();
    /// assert_eq!(shared.step(Kernel::First, 0x2518_E408), Reply::NotOwned); // PFALSE p8
    /// assert_eq!(shared.step(Kernel::First, 0x252C_9000), Reply::NotOwned); // SETFFR
    /// assert_eq!(shared, before);
    /// assert_eq!(shared.step(Kernel::Second, 0x2518_E408), Reply::Done);
    /// ```
    pub fn step(&mut self, kernel: Kernel, word: u32) -> Reply {
        let ffi::SharedStepped { reply, shared } = ffi::shared_step(self, kernel, word);
        *self = shared;
        Reply::from_number(reply)
    }

    /// The [walk](crate::walk()) of a kernel, with its registers, or 31 as the limit, and its flags.
    /// Refusals, the first that applies: 4, 10, 2 (level 0), 3, 15, 11, 12.
    ///
    /// ```
    /// use plokamyr::{Kernel, Reply, Shared};
    ///
    /// let mut shared = Shared::new(128, 1);
    /// shared.state.x[16] = 10;
    /// shared.state.x[17] = 13;
    /// let mut list = [0; 4];
    /// let walked = shared.walk(Kernel::First, 0, 16, 17, 8, 9, &mut list, 100);
    /// assert_eq!((walked.reply, walked.shared, list), (Reply::NotOwned, shared.clone(), [0; 4]));
    /// let walked = shared.walk(Kernel::Second, 0, 16, 17, 8, 9, &mut list, 100);
    /// assert_eq!((walked.reply, walked.count, walked.visited), (Reply::Done, 3 + 3 + 2, 3));
    /// assert_eq!(list, [10, 11, 12, 0]);
    /// shared = walked.shared; // the walk has left the given one as it was
    /// assert_eq!(shared.state.x[16], 13);
    /// ```
    #[allow(clippy::too_many_arguments)] // as in C
    pub fn walk(
        &self,
        kernel: Kernel,
        size: u32,
        n: u32,
        m: u32,
        d: u32,
        k: u32,
        list: &mut [u64],
        budget: u64,
    ) -> SharedWalked {
        let route = ffi::Route { size, n, m, d, k };
        let ffi::SharedWalked { reply, count, visited, shared } = ffi::shared_walk(self, kernel, route, list, budget);
        let reply = Reply::from_number(reply);
        SharedWalked { reply, count, visited, shared }
    }
}

/// What [`Shared::walk`] answers: `count` instructions were executed, `visited` positions stand at the front of the list, and
/// `shared` is what they left. For a refusal other than 12: 0, 0 and the given shared state.
#[derive(Clone, Debug, PartialEq, Eq)]
#[non_exhaustive]
#[must_use]
pub struct SharedWalked {
    pub reply: Reply,
    pub count: u64,
    pub visited: usize,
    pub shared: Shared,
}
