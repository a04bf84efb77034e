//! Words joined and read.

use super::{bits, put, put_read, rest};
use crate::library::{Answer, Request};
use crate::model::ladder::{record_types, records_fit, refuse_if, stream_fits, Test};
use crate::model::records::read_compact;
use crate::model::types::Types;
use crate::model::words::{is_word, LAST_WORD};

pub fn word_product(t: &Types, q: &Request, a: &mut Answer) -> Test {
    record_types(t, &[q.a.node, q.b.node, q.node])?;
    records_fit(t, &[q.a, q.b])?;
    let Some(n) = t.word(q.a.node as usize) else { return refuse_if(true, 7) };
    refuse_if(!is_word(t, q.b.node as usize, n), 7)?;
    refuse_if(!is_word(t, q.node as usize, n + 1), 7)?;
    put(a, &[bits(t, q.a), bits(t, q.b)].concat())
}

pub fn word_from_bits(t: &Types, q: &Request, a: &mut Answer) -> Test {
    record_types(t, &[q.node])?;
    stream_fits(&q.stream)?;
    refuse_if(q.n > LAST_WORD, 6)?;
    refuse_if(!is_word(t, q.node as usize, q.n), 7)?;
    put_read(a, read_compact(t, q.node as usize, &rest(q)))
}
