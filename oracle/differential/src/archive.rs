//! The archive asked through its C interface.

use oracle::library::{Answer, Call, Library, OwnedColumns, Record, Request};
use quelomavunt::raw;

// Both sides lay groups of the same size.
const _: () = assert!(oracle::library::GROUP_BYTES == raw::GROUP_BYTES);

/// The archive that this program is linked with.
pub struct Archive;

fn record<'a>(record: &Record<'a>) -> raw::RawRecord<'a> {
    raw::RawRecord { bytes: record.bytes, offset: record.offset, node: record.node }
}

fn lent(columns: &mut OwnedColumns) -> raw::ColumnsMut<'_> {
    raw::ColumnsMut {
        kinds: &mut columns.kinds,
        lefts: &mut columns.lefts,
        rights: &mut columns.rights,
        groups: &mut columns.groups,
    }
}

impl Library for Archive {
    fn ask(&self, q: &Request, answer: &mut Answer) {
        answer.start(q);
        let t = raw::Columns {
            kinds: q.table.kinds,
            lefts: q.table.lefts,
            rights: q.table.rights,
            groups: q.table.groups,
            count: q.table.count,
        };
        let (t, a, b) = (&t, &record(&q.a), &record(&q.b));
        let columns = &mut answer.columns;
        let mut no_value = 0;
        let values = &mut answer.values[..];
        let (many, one) = match values.len() {
            1 if !q.call.values_are_a_slice() => (&mut [][..], &mut values[0]),
            _ => (values, &mut no_value),
        };
        let (out, position) = (&mut answer.out[..], &mut answer.position);
        let (bytes, length) = (q.stream.bytes, q.stream.length);
        answer.code = match q.call {
            // calls.list begins: tools/calls writes what stands up to its end.
            Call::ReadTable => raw::read_table(q.data, lent(columns), one),
            Call::FillFacts => raw::fill_facts(t.kinds, t.lefts, t.rights, t.count, &mut columns.groups),
            Call::CheckTable => raw::check_table(t),
            Call::FactsOf => raw::facts_of(t, q.node, many),
            Call::SameType => raw::same_type(t, q.node, q.other, one),
            Call::IsUnit => raw::is_unit(t, q.node, one),
            Call::IsEmpty => raw::is_empty(t, q.node, one),
            Call::TypeAsSum => raw::type_as_sum(t, q.node, many),
            Call::TypeAsProduct => raw::type_as_product(t, q.node, many),
            Call::PadLeft => raw::pad_left(t, q.node, q.other, one),
            Call::PadRight => raw::pad_right(t, q.node, q.other, one),
            Call::AsWord => raw::as_word(t, q.node, one),
            Call::WordWidth => raw::word_width(q.n, one),
            Call::BufferWidth => raw::buffer_width(q.n, one),
            Call::IsBuffer8 => raw::is_buffer8(t, q.node, q.n, one),
            Call::IsCtx8 => raw::is_ctx8(t, q.node, one),
            Call::AsLeft => raw::as_left(t, a, many),
            Call::AsRight => raw::as_right(t, a, many),
            Call::AsProduct => raw::as_product(t, a, many),
            Call::Equal => raw::equal(t, a, b, one),
            Call::Compare => raw::compare(t, a, b, one),
            Call::CompactLen => raw::compact_len(t, a, one),
            Call::PaddedLen => raw::padded_len(t, a, one),
            Call::Unit => raw::unit(t, q.node, one, out),
            Call::Left => raw::left(t, a, q.node, one, out),
            Call::Right => raw::right(t, a, q.node, one, out),
            Call::Product => raw::product(t, a, b, q.node, one, out),
            Call::None => raw::none(t, q.node, one, out),
            Call::Some => raw::some(t, a, q.node, one, out),
            Call::Zero => raw::zero(t, q.node, one, out),
            Call::U1 => raw::u1(t, q.n, q.node, one, out),
            Call::U2 => raw::u2(t, q.n, q.node, one, out),
            Call::U4 => raw::u4(t, q.n, q.node, one, out),
            Call::U8 => raw::u8(t, q.data, q.node, one, out),
            Call::U16 => raw::u16(t, q.data, q.node, one, out),
            Call::U32 => raw::u32(t, q.data, q.node, one, out),
            Call::U64 => raw::u64(t, q.data, q.node, one, out),
            Call::U128 => raw::u128(t, q.data, q.node, one, out),
            Call::U256 => raw::u256(t, q.data, q.node, one, out),
            Call::U512 => raw::u512(t, q.data, q.node, one, out),
            Call::FromByteArray => raw::from_byte_array(t, q.data, q.node, one, out),
            Call::WordProduct => raw::word_product(t, a, b, q.node, one, out),
            Call::WordFromBits => raw::word_from_bits(t, bytes, length, position, q.n, q.node, out),
            Call::Buffer8TwoNPlusOne => raw::buffer8_two_n_plus_one(t, q.n, q.data, q.node, one, out),
            Call::Ctx8 => raw::ctx8(t, q.data, q.n, q.buffer, q.node, one, out),
            Call::FromCompactBits => raw::from_compact_bits(t, bytes, length, position, q.node, out),
            Call::FromPaddedBits => raw::from_padded_bits(t, bytes, length, position, q.node, out),
            Call::ToCompactBits => raw::to_compact_bits(t, a, one, out),
            Call::ToPaddedBits => raw::to_padded_bits(t, a, one, out),
            Call::Prune => raw::prune(t, a, q.node, one, out),
            // calls.list ends
        };
    }
}
