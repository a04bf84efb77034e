//! Every public call: its tests in the order of the numbers, then what it does. A file for each part of
//! include/calls.list.
//!
//! A test that holds returns its refusal; the caller then takes back whatever was written. So each function of a part
//! reads as the ladder of its call: 1, 2, 3, 4, 5, 6, 7, 8, 9. Rung 1 of a call that is handed a table is asked here.
//! What several parts do is at the end.

mod buffers;
mod codecs;
mod comparing;
mod constructors;
mod cuts;
mod joins;
mod lengths;
mod tables;
mod types;
mod views;
mod word_types;
mod words;

use super::bits::{bits_of, write_bits};
use super::ladder::{nodes_exist, record_types, records_fit, refuse_if, room, Test};
use super::types::Types;
use super::Model;
use crate::library::{Answer, Call, Record, Request};

/// Answers one request.
pub fn answer(model: &Model, q: &Request, a: &mut Answer) -> Test {
    let t = || model.types(&q.table);
    match q.call {
        // calls.list begins: tools/calls writes what stands up to its end.
        Call::ReadTable => tables::read_table(q, a),
        Call::FillFacts => tables::fill_facts(q, a),
        Call::CheckTable => tables::check_table(&*t()?, q, a),
        Call::FactsOf => types::facts_of(&*t()?, q, a),
        Call::SameType => types::same_type(&*t()?, q, a),
        Call::IsUnit => types::is_unit(&*t()?, q, a),
        Call::IsEmpty => types::is_empty(&*t()?, q, a),
        Call::TypeAsSum => types::type_as_sum(&*t()?, q, a),
        Call::TypeAsProduct => types::type_as_product(&*t()?, q, a),
        Call::PadLeft => types::pad_left(&*t()?, q, a),
        Call::PadRight => types::pad_right(&*t()?, q, a),
        Call::AsWord => word_types::as_word(&*t()?, q, a),
        Call::WordWidth => word_types::word_width(q, a),
        Call::BufferWidth => word_types::buffer_width(q, a),
        Call::IsBuffer8 => word_types::is_buffer8(&*t()?, q, a),
        Call::IsCtx8 => word_types::is_ctx8(&*t()?, q, a),
        Call::AsLeft => views::as_left(&*t()?, q, a),
        Call::AsRight => views::as_right(&*t()?, q, a),
        Call::AsProduct => views::as_product(&*t()?, q, a),
        Call::Equal => comparing::equal(&*t()?, q, a),
        Call::Compare => comparing::compare(&*t()?, q, a),
        Call::CompactLen => lengths::compact_len(&*t()?, q, a),
        Call::PaddedLen => lengths::padded_len(&*t()?, q, a),
        Call::Unit => constructors::unit(&*t()?, q, a),
        Call::Left => constructors::left(&*t()?, q, a),
        Call::Right => constructors::right(&*t()?, q, a),
        Call::Product => constructors::product(&*t()?, q, a),
        Call::None => constructors::none(&*t()?, q, a),
        Call::Some => constructors::some(&*t()?, q, a),
        Call::Zero => constructors::zero(&*t()?, q, a),
        Call::U1 => words::u1(&*t()?, q, a),
        Call::U2 => words::u2(&*t()?, q, a),
        Call::U4 => words::u4(&*t()?, q, a),
        Call::U8 => words::u8(&*t()?, q, a),
        Call::U16 => words::u16(&*t()?, q, a),
        Call::U32 => words::u32(&*t()?, q, a),
        Call::U64 => words::u64(&*t()?, q, a),
        Call::U128 => words::u128(&*t()?, q, a),
        Call::U256 => words::u256(&*t()?, q, a),
        Call::U512 => words::u512(&*t()?, q, a),
        Call::FromByteArray => words::from_byte_array(&*t()?, q, a),
        Call::WordProduct => joins::word_product(&*t()?, q, a),
        Call::WordFromBits => joins::word_from_bits(&*t()?, q, a),
        Call::Buffer8TwoNPlusOne => buffers::buffer8_two_n_plus_one(&*t()?, q, a),
        Call::Ctx8 => buffers::ctx8(&*t()?, q, a),
        Call::FromCompactBits => codecs::from_compact_bits(&*t()?, q, a),
        Call::FromPaddedBits => codecs::from_padded_bits(&*t()?, q, a),
        Call::ToCompactBits => codecs::to_compact_bits(&*t()?, q, a),
        Call::ToPaddedBits => codecs::to_padded_bits(&*t()?, q, a),
        Call::Prune => cuts::prune(&*t()?, q, a),
        // calls.list ends
    }
}

/// A question about one type.
fn one_type(t: &Types, q: &Request, a: &mut Answer, question: impl Fn(usize) -> u64) -> Test {
    nodes_exist(t, &[q.node])?;
    a.values[0] = question(q.node as usize);
    Ok(())
}

/// 2 to 5 of one record.
fn record_stands(t: &Types, record: Record) -> Test {
    record_types(t, &[record.node])?;
    records_fit(t, &[record])
}

/// The bits of a record that stands.
fn bits(t: &Types, record: Record) -> Vec<bool> {
    bits_of(record.bytes, record.offset, t.width(record.node as usize))
}

/// A record, or bits, goes to bit 0 of `out`; the width is the accepted value.
fn put(a: &mut Answer, record: &[bool]) -> Test {
    room(&a.out, record.len() as u64)?;
    write_bits(&mut a.out, record);
    a.values[0] = record.len() as u64;
    Ok(())
}

/// The bits of a stream that stands, from its position to its length.
fn rest(q: &Request) -> Vec<bool> {
    bits_of(q.stream.bytes, q.stream.position, q.stream.length - q.stream.position)
}

/// Writes what was read and moves the position.
fn put_read(a: &mut Answer, read: Option<(Vec<bool>, usize)>) -> Test {
    let Some((record, taken)) = read else { return refuse_if(true, 8) };
    room(&a.out, record.len() as u64)?;
    write_bits(&mut a.out, &record);
    a.position += taken as u64;
    Ok(())
}
