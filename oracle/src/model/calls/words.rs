//! Words from numbers and from bytes.

use super::put;
use crate::library::{Answer, Request};
use crate::model::bits::{all_bits, bits_of_number};
use crate::model::ladder::{record_types, refuse_if, Test};
use crate::model::types::Types;
use crate::model::words::{is_word, LAST_WORD};

fn small_word(t: &Types, q: &Request, a: &mut Answer, n: u64) -> Test {
    record_types(t, &[q.node])?;
    let width = 1 << n;
    refuse_if(q.n >= 1 << width, 6)?;
    refuse_if(!is_word(t, q.node as usize, n), 7)?;
    put(a, &bits_of_number(q.n, width))
}

pub fn u1(t: &Types, q: &Request, a: &mut Answer) -> Test {
    small_word(t, q, a, 0)
}

pub fn u2(t: &Types, q: &Request, a: &mut Answer) -> Test {
    small_word(t, q, a, 1)
}

pub fn u4(t: &Types, q: &Request, a: &mut Answer) -> Test {
    small_word(t, q, a, 2)
}

fn fixed_word(t: &Types, q: &Request, a: &mut Answer, n: u64) -> Test {
    record_types(t, &[q.node])?;
    refuse_if(8 * q.data.len() as u128 != 1 << n, 6)?;
    refuse_if(!is_word(t, q.node as usize, n), 7)?;
    put(a, &all_bits(q.data))
}

pub fn u8(t: &Types, q: &Request, a: &mut Answer) -> Test {
    fixed_word(t, q, a, 3)
}

pub fn u16(t: &Types, q: &Request, a: &mut Answer) -> Test {
    fixed_word(t, q, a, 4)
}

pub fn u32(t: &Types, q: &Request, a: &mut Answer) -> Test {
    fixed_word(t, q, a, 5)
}

pub fn u64(t: &Types, q: &Request, a: &mut Answer) -> Test {
    fixed_word(t, q, a, 6)
}

pub fn u128(t: &Types, q: &Request, a: &mut Answer) -> Test {
    fixed_word(t, q, a, 7)
}

pub fn u256(t: &Types, q: &Request, a: &mut Answer) -> Test {
    fixed_word(t, q, a, 8)
}

pub fn u512(t: &Types, q: &Request, a: &mut Answer) -> Test {
    fixed_word(t, q, a, 9)
}

pub fn from_byte_array(t: &Types, q: &Request, a: &mut Answer) -> Test {
    record_types(t, &[q.node])?;
    let n = (3..=LAST_WORD).find(|n| 8 * q.data.len() as u128 == 1 << n);
    let Some(n) = n else { return refuse_if(true, 6) };
    refuse_if(!is_word(t, q.node as usize, n), 7)?;
    put(a, &all_bits(q.data))
}
