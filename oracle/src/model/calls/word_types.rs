//! Questions about word types, buffer types and the hash state's type.

use super::one_type;
use crate::library::{Answer, Request};
use crate::model::ladder::{nodes_exist, refuse_if, Test};
use crate::model::types::Types;
use crate::model::words::{self, LAST_BUFFER, LAST_WORD};

pub fn as_word(t: &Types, q: &Request, a: &mut Answer) -> Test {
    nodes_exist(t, &[q.node])?;
    match t.word(q.node as usize) {
        Some(n) if n <= LAST_WORD => a.values[0] = n,
        _ => return refuse_if(true, 7),
    }
    Ok(())
}

pub fn word_width(q: &Request, a: &mut Answer) -> Test {
    refuse_if(q.n > LAST_WORD, 6)?;
    a.values[0] = 1 << q.n;
    Ok(())
}

pub fn buffer_width(q: &Request, a: &mut Answer) -> Test {
    refuse_if(q.n > LAST_BUFFER, 6)?;
    a.values[0] = words::buffer_width(q.n);
    Ok(())
}

pub fn is_buffer8(t: &Types, q: &Request, a: &mut Answer) -> Test {
    nodes_exist(t, &[q.node])?;
    refuse_if(q.n > LAST_BUFFER, 6)?;
    a.values[0] = u64::from(words::is_buffer(t, q.node as usize, q.n));
    Ok(())
}

pub fn is_ctx8(t: &Types, q: &Request, a: &mut Answer) -> Test {
    one_type(t, q, a, |x| u64::from(words::is_ctx8(t, x)))
}
