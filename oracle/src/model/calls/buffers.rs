//! Buffers and the hash state.

use super::put;
use crate::library::{Answer, Request};
use crate::model::ladder::{record_types, refuse_if, Test};
use crate::model::types::Types;
use crate::model::words::{self, LAST_BUFFER, MOST_BUFFERED};

pub fn buffer8_two_n_plus_one(t: &Types, q: &Request, a: &mut Answer) -> Test {
    record_types(t, &[q.node])?;
    refuse_if(q.n > LAST_BUFFER, 6)?;
    refuse_if(q.data.len() > words::buffer_holds(q.n), 6)?;
    refuse_if(!words::is_buffer(t, q.node as usize, q.n), 7)?;
    put(a, &words::buffer_record(q.n, q.data))
}

pub fn ctx8(t: &Types, q: &Request, a: &mut Answer) -> Test {
    record_types(t, &[q.node])?;
    refuse_if(q.data.len() != 32 || q.buffer.len() > MOST_BUFFERED, 6)?;
    refuse_if(!words::is_ctx8(t, q.node as usize), 7)?;
    put(a, &words::ctx8_record(q.data, q.n, q.buffer))
}
