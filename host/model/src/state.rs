//! The register state, which states are legal, and how its registers are read and written.

#[derive(Clone, Copy, Default, PartialEq, Eq, Debug)]
pub struct Flags {
    pub n: bool,
    pub z: bool,
    pub c: bool,
    pub v: bool,
}

/// Any values may stand in it, illegal ones too. Bit b of a predicate, and of FFR, is bit b % 64 of its word b / 64.
#[derive(Clone, PartialEq, Eq, Debug)]
pub struct State {
    pub vl: u64,
    pub level: u8,
    pub access: bool,
    pub flags: Flags,
    pub x: [u64; 31],
    pub p: [[u64; 4]; 16],
    /// "A first-fault predicate (FFR, PL bits)".
    pub ffr: [u64; 4],
    /// "Beside each P register, its number of true elements at each of the four sizes": B, H, S, D. FFR is no P register.
    pub counts: [[u16; 4]; 16],
}

/// The four sizes.
const SIZES: [u8; 4] = [0, 1, 2, 3];

/// The predicate bits that a state has room for; those at or above PL are zero in a legal one.
const PREDICATE_BITS: usize = 256;

/// How far apart the lowest bits of two neighbouring elements are: esize/8.
pub fn psize(size: u8) -> usize {
    match size {
        0 => 1,
        1 => 2,
        2 => 4,
        3 => 8,
        _ => unreachable!("a size has two bits"),
    }
}

/// "Vector length VL: 128, 256, 512, 1024 or 2048."
pub fn is_length(vl: u64) -> bool {
    matches!(vl, 128 | 256 | 512 | 1024 | 2048)
}

fn bit(predicate: &[u64; 4], b: usize) -> bool {
    (predicate[b / 64] >> (b % 64)) & 1 == 1
}

fn set_bit(predicate: &mut [u64; 4], b: usize) {
    predicate[b / 64] |= 1 << (b % 64);
}

impl State {
    /// VL 128 and all else zero.
    pub fn zero() -> State {
        let flags = Flags::default();
        let (p, ffr, counts) = ([[0; 4]; 16], [0; 4], [[0; 4]; 16]);
        State { vl: 128, level: 0, access: false, flags, x: [0; 31], p, ffr, counts }
    }

    /// Whether reply 4 does not refuse it. "Reply 4 covers" FFR's "bits at or above PL" as well, and "a state handed in with a
    /// wrong count is refused with 4".
    pub fn legal(&self) -> bool {
        is_length(self.vl)
            && self.level <= 3
            && self.p.iter().all(|predicate| self.is_within_pl(predicate))
            && self.is_within_pl(&self.ffr)
            && self.counts == self.right_counts()
    }

    /// The state with its counts worked out, and all else as it is. Any state is taken, also one that is illegal otherwise.
    pub fn counted(&self) -> State {
        State { counts: self.right_counts(), ..self.clone() }
    }

    fn right_counts(&self) -> [[u16; 4]; 16] {
        self.p.map(|predicate| self.counts_of(&predicate))
    }

    /// A predicate's counts, one size after the other.
    fn counts_of(&self, predicate: &[u64; 4]) -> [u16; 4] {
        SIZES.map(|size| self.count(predicate, size))
    }

    /// A predicate's number of true elements, counted one by one.
    fn count(&self, predicate: &[u64; 4], size: u8) -> u16 {
        let mut count = 0;
        for e in 0..self.elements(size) {
            let lowest = e * psize(size);
            if lowest >= PREDICATE_BITS {
                break; // of a length past the five: what a state has no room for is false
            }
            if bit(predicate, lowest) {
                count += 1;
            }
        }
        count
    }

    fn is_within_pl(&self, predicate: &[u64; 4]) -> bool {
        !(self.pl()..PREDICATE_BITS).any(|b| bit(predicate, b))
    }

    /// PL, the bits of a predicate.
    pub fn pl(&self) -> usize {
        self.vl as usize / 8
    }

    /// E, the elements of a vector: VL/esize.
    pub fn elements(&self, size: u8) -> usize {
        self.pl() / psize(size)
    }

    /// "Number 31 reads as zero".
    pub fn read_x(&self, number: u8) -> u64 {
        if number == 31 {
            0
        } else {
            self.x[usize::from(number)]
        }
    }

    /// "Writes to it vanish".
    pub fn write_x(&mut self, number: u8, value: u64) {
        if number != 31 {
            self.x[usize::from(number)] = value;
        }
    }

    /// The elements of a predicate: "element e is true exactly if bit e·esize/8 is 1".
    pub fn read_p(&self, number: u8, size: u8) -> Vec<bool> {
        let predicate = &self.p[usize::from(number)];
        (0..self.elements(size)).map(|e| bit(predicate, e * psize(size))).collect()
    }

    /// Writes a predicate by its elements; "the element's other bits are zero".
    pub fn write_p(&mut self, number: u8, size: u8, elements: &[bool]) {
        let mut predicate = [0; 4];
        for (e, &active) in elements.iter().enumerate() {
            if active {
                set_bit(&mut predicate, e * psize(size));
            }
        }
        self.set_p(number, predicate);
    }

    /// "Every instruction that writes a predicate keeps them right": each goes through here, and its counts are counted anew.
    fn set_p(&mut self, number: u8, predicate: [u64; 4]) {
        self.p[usize::from(number)] = predicate;
        self.counts[usize::from(number)] = self.counts_of(&predicate);
    }

    /// The bits of FFR below PL.
    pub fn read_ffr(&self) -> Vec<bool> {
        (0..self.pl()).map(|b| bit(&self.ffr, b)).collect()
    }

    /// Writes FFR by its bits below PL; those at or above are zero.
    pub fn write_ffr(&mut self, bits: &[bool]) {
        self.ffr = [0; 4];
        for (b, &active) in bits.iter().enumerate() {
            if active {
                set_bit(&mut self.ffr, b);
            }
        }
    }

    /// A predicate taken as a counter: its lowest 16 bits.
    pub fn read_counter(&self, number: u8) -> u16 {
        self.p[usize::from(number)][0] as u16
    }

    /// "Higher bits are zero".
    pub fn write_counter(&mut self, number: u8, counter: u16) {
        self.set_p(number, [u64::from(counter), 0, 0, 0]);
    }
}
