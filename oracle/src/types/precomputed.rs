//! Stand-in for the crate's `types/precomputed.rs`: the ready-made word, buffer and hash-state types.
//!
//! Each is built by its rule from `Final::sum` and `Final::product`, once, and then shared. The published crate
//! builds the same trees; that they are the same trees is read off the doc comments of `final_data.rs`, since the
//! published file is not at hand.

use super::Final;
use crate::Tmr;
use std::sync::{Arc, OnceLock};

const WORDS: usize = Tmr::TWO_TWO_N.len();
const BUFFERS: usize = Tmr::BUFFER8_TWO_N_PLUS_ONE.len();

/// The type 2^(2^n).
pub fn nth_power_of_2(n: usize) -> Arc<Final> {
    static TYPES: OnceLock<Vec<Arc<Final>>> = OnceLock::new();
    let types = TYPES.get_or_init(|| {
        let mut types = vec![Final::sum(Final::unit(), Final::unit())];
        while types.len() < WORDS {
            let last = types.last().expect("the first is there");
            let next = Final::product(Arc::clone(last), Arc::clone(last));
            types.push(next);
        }
        types
    });
    Arc::clone(&types[n])
}

/// The type (2^8)^<2^(n+1): an optional run of 2^n bytes, then the same for n - 1.
pub fn buffer8_two_n_plus_one(n: usize) -> Arc<Final> {
    static TYPES: OnceLock<Vec<Arc<Final>>> = OnceLock::new();
    let types = TYPES.get_or_init(|| {
        let mut types = vec![Final::successor(nth_power_of_2(3))];
        while types.len() < BUFFERS {
            let run = Final::successor(nth_power_of_2(3 + types.len()));
            let tail = types.last().expect("the first is there");
            let next = Final::product(run, Arc::clone(tail));
            types.push(next);
        }
        types
    });
    Arc::clone(&types[n])
}

/// The type of a SHA-256 state: buffer, count of bytes, midstate.
pub fn ctx8() -> Arc<Final> {
    static TYPE: OnceLock<Arc<Final>> = OnceLock::new();
    let ty = TYPE.get_or_init(|| {
        let count_and_midstate = Final::product(nth_power_of_2(6), nth_power_of_2(8));
        Final::product(buffer8_two_n_plus_one(5), count_and_midstate)
    });
    Arc::clone(ty)
}
