//! Refusals, and the tests that give them, one a number. A call asks them in the order of the numbers.

use super::types::Types;
use crate::library::{Record, Stream};

/// A number and a place.
#[derive(Clone, Copy, PartialEq, Eq, Debug)]
pub struct Refusal {
    pub number: u64,
    pub place: u64,
}

impl Refusal {
    /// The refusal as the C interface gives it.
    pub fn code(self) -> u64 {
        self.number + 256 * self.place
    }
}

/// A test's outcome.
pub type Test = Result<(), Refusal>;

/// Refuses with `number`, place 0, if `fact` holds.
pub fn refuse_if(fact: bool, number: u64) -> Test {
    if fact {
        Err(Refusal { number, place: 0 })
    } else {
        Ok(())
    }
}

/// An unsound table: 1, with its place.
pub fn unsound(place: usize) -> Refusal {
    Refusal { number: 1, place: place as u64 }
}

const MOST_BITS: u64 = 524_288;
const LARGEST_SIZE: u64 = 2_097_152;

/// 2: a named node isn't in the table.
pub fn nodes_exist(types: &Types, nodes: &[u64]) -> Test {
    refuse_if(nodes.iter().any(|node| *node >= types.count() as u64), 2)
}

/// 2, then 3, then 4, over all the named record types.
pub fn record_types(types: &Types, nodes: &[u64]) -> Test {
    nodes_exist(types, nodes)?;
    refuse_if(nodes.iter().any(|node| types.width(*node as usize) > MOST_BITS), 3)?;
    refuse_if(nodes.iter().any(|node| types.size(*node as usize) > LARGEST_SIZE), 4)
}

/// 5: offset plus width runs past the bytes. True numbers: nothing wraps.
pub fn records_fit(types: &Types, records: &[Record]) -> Test {
    let runs_past = |record: &Record| {
        let end = u128::from(record.offset) + u128::from(types.width(record.node as usize));
        end > 8 * record.bytes.len() as u128
    };
    refuse_if(records.iter().any(runs_past), 5)
}

/// 5: a stream's length runs past the bytes, or the position lies past that length.
pub fn stream_fits(stream: &Stream) -> Test {
    let length_past = u128::from(stream.length) > 8 * stream.bytes.len() as u128;
    refuse_if(length_past || stream.position > stream.length, 5)
}

/// 9: the output is shorter than `bits` need.
pub fn room(out: &[u8], bits: u64) -> Test {
    refuse_if((out.len() as u64) < bits.div_ceil(8), 9)
}

/// 9: fewer places for accepted values than there are values.
pub fn places(values: &[u64], needed: usize) -> Test {
    refuse_if(values.len() < needed, 9)
}
