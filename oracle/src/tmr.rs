//! Stand-in for the crate's `merkle/tmr.rs`: the Merkle root of a type.
//!
//! Here a root is a number given to each tree when it is first seen, so two trees have the same number exactly if
//! they are the same tree. The published root is a chain of SHA-256 compressions and is injective for all that
//! anybody knows. Answers that are therefore not the published crate's:
//!
//! * the ORDER of two values of different types (it is the order of the roots);
//! * the text of a root, and anything hashed over it;
//! * which n `Final::buffer8_two_n_plus_one` refuses: the length of `BUFFER8_TWO_N_PLUS_ONE` is not in the text.
//!   Here it is 13, the port's own limit.
//!
//! It is also cheaper than a SHA-256 compression, so timings of the crate's text flatter the crate.

use std::collections::HashMap;
use std::fmt;
use std::hash::{BuildHasherDefault, Hasher};
use std::sync::{Mutex, OnceLock};

/// The identity of a tree.
#[derive(Clone, Copy, PartialEq, Eq, PartialOrd, Ord, Hash, Debug)]
pub struct Tmr(u32);

const WORDS: usize = 32;
const BUFFERS: usize = 13;
const UNIT: u32 = 0;
const FIRST_WORD: u32 = 1;
const FIRST_BUFFER: u32 = FIRST_WORD + WORDS as u32;
const FIRST_FREE: u32 = FIRST_BUFFER + BUFFERS as u32;

const fn numbered<const N: usize>(first: u32) -> [Tmr; N] {
    let mut list = [Tmr(0); N];
    let mut i = 0;
    while i < N {
        list[i] = Tmr(first + i as u32);
        i += 1;
    }
    list
}

impl Tmr {
    /// The roots of the thirty-two word types.
    pub const TWO_TWO_N: [Tmr; WORDS] = numbered(FIRST_WORD);

    /// The roots of the buffer types.
    pub const BUFFER8_TWO_N_PLUS_ONE: [Tmr; BUFFERS] = numbered(FIRST_BUFFER);

    /// The root of the unit type.
    pub fn unit() -> Tmr {
        Tmr(UNIT)
    }

    /// The root of a sum.
    pub fn sum(left: Tmr, right: Tmr) -> Tmr {
        known().lock().expect("no holder panics").number(SUM, left, right)
    }

    /// The root of a product.
    pub fn product(left: Tmr, right: Tmr) -> Tmr {
        known().lock().expect("no holder panics").number(PRODUCT, left, right)
    }
}

impl fmt::Display for Tmr {
    fn fmt(&self, f: &mut fmt::Formatter) -> fmt::Result {
        write!(f, "#{}", self.0)
    }
}

const SUM: u64 = 0;
const PRODUCT: u64 = 1;

/// The trees seen so far, each by its kind and the numbers of its sides.
struct Known {
    numbers: HashMap<u64, u32, BuildHasherDefault<Mix>>,
    next: u32,
}

impl Known {
    /// The words and the buffers first, under the numbers that the constant lists give them.
    fn new() -> Known {
        let mut known = Known { numbers: HashMap::default(), next: FIRST_FREE };
        let word = |n: u32| Tmr(FIRST_WORD + n);
        known.fix(SUM, Tmr(UNIT), Tmr(UNIT), word(0));
        for n in 1..WORDS as u32 {
            known.fix(PRODUCT, word(n - 1), word(n - 1), word(n));
        }
        known.fix(SUM, Tmr(UNIT), word(3), Tmr(FIRST_BUFFER));
        for n in 1..BUFFERS as u32 {
            let run = known.number(SUM, Tmr(UNIT), word(3 + n));
            known.fix(PRODUCT, run, Tmr(FIRST_BUFFER + n - 1), Tmr(FIRST_BUFFER + n));
        }
        known
    }

    fn fix(&mut self, kind: u64, left: Tmr, right: Tmr, own: Tmr) {
        self.numbers.insert(key(kind, left, right), own.0);
    }

    fn number(&mut self, kind: u64, left: Tmr, right: Tmr) -> Tmr {
        let next = self.next;
        let own = *self.numbers.entry(key(kind, left, right)).or_insert(next);
        if own == next {
            self.next = next.checked_add(1).filter(|n| *n < 1 << 31).expect("fewer than 2^31 trees");
        }
        Tmr(own)
    }
}

/// Numbers stay below 2^31, so the three parts don't overlap.
fn key(kind: u64, left: Tmr, right: Tmr) -> u64 {
    kind << 62 | u64::from(left.0) << 31 | u64::from(right.0)
}

fn known() -> &'static Mutex<Known> {
    static KNOWN: OnceLock<Mutex<Known>> = OnceLock::new();
    KNOWN.get_or_init(|| Mutex::new(Known::new()))
}

/// A quick hash of one 64-bit number.
#[derive(Default)]
struct Mix(u64);

impl Hasher for Mix {
    fn finish(&self) -> u64 {
        self.0
    }
    fn write(&mut self, _: &[u8]) {
        unreachable!("keys are single numbers")
    }
    fn write_u64(&mut self, key: u64) {
        let mixed = (key ^ key >> 32).wrapping_mul(0x9E37_79B9_7F4A_7C15);
        self.0 = mixed ^ mixed >> 29;
    }
}
