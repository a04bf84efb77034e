//! The model behind the C interface of `include/quelomavunt.h`.
//!
//! Each export makes a request of its parameters, asks the model, and copies back what the answer changed.
//!
//! With the environment variable `QV_FAULT` set to a call's name, or to `all`, that call answers wrongly (its last
//! output byte, accepted value or result is off by one): so a run can be seen to notice.

use oracle::library::{Answer, Call, Columns, Library, Record, Request, Stream};
use oracle::model::Model;
use std::slice::{from_raw_parts, from_raw_parts_mut};

thread_local! {
    static MODEL: Model = Model::new();
    static FAULT: Option<String> = std::env::var("QV_FAULT").ok();
}

fn ask(request: &Request) -> Answer {
    let mut answer = Answer::default();
    MODEL.with(|model| model.ask(request, &mut answer));
    FAULT.with(|fault| {
        if fault.as_deref().is_some_and(|name| name == "all" || name == request.call.name()) {
            spoil(&mut answer);
        }
    });
    answer
}

fn spoil(answer: &mut Answer) {
    if let Some(last) = answer.out.last_mut() {
        *last ^= 1;
    } else if let Some(last) = answer.values.last_mut() {
        *last ^= 1;
    } else {
        answer.code ^= 1;
    }
}

/// Declares exports, with the kinds of include/calls.list and the members of a request that they go to.
macro_rules! exports {
    ($(fn $symbol:ident = $call:ident ($($given:tt)*);)*) => {
        $(exports!(@ $symbol $call q a [] [] [] $($given)*);)*
    };
    (@ $s:ident $c:ident $q:ident $a:ident [$($p:tt)*] [$($set:tt)*] [$($back:tt)*] table $(, $($rest:tt)*)?) => {
        exports!(@ $s $c $q $a
            [$($p)* kinds: *const u8, kinds_len: usize, lefts: *const u16, lefts_len: usize, rights: *const u16,
             rights_len: usize, groups: *const u8, groups_len: usize, count: u64,]
            [$($set)* $q.table = Columns {
                kinds: from_raw_parts(kinds, kinds_len), lefts: from_raw_parts(lefts, lefts_len),
                rights: from_raw_parts(rights, rights_len), groups: from_raw_parts(groups, groups_len), count };]
            [$($back)*] $($($rest)*)?);
    };
    (@ $s:ident $c:ident $q:ident $a:ident [$($p:tt)*] [$($set:tt)*] [$($back:tt)*] entries $(, $($rest:tt)*)?) => {
        exports!(@ $s $c $q $a
            [$($p)* kinds: *const u8, kinds_len: usize, lefts: *const u16, lefts_len: usize, rights: *const u16,
             rights_len: usize, count: u64,]
            [$($set)* $q.table.kinds = from_raw_parts(kinds, kinds_len);
             $q.table.lefts = from_raw_parts(lefts, lefts_len);
             $q.table.rights = from_raw_parts(rights, rights_len); $q.table.count = count;]
            [$($back)*] $($($rest)*)?);
    };
    (@ $s:ident $c:ident $q:ident $a:ident [$($p:tt)*] [$($set:tt)*] [$($back:tt)*] columns $(, $($rest:tt)*)?) => {
        exports!(@ $s $c $q $a
            [$($p)* kinds: *mut u8, kinds_len: usize, lefts: *mut u16, lefts_len: usize, rights: *mut u16,
             rights_len: usize,]
            [$($set)* $q.table.kinds = from_raw_parts(kinds, kinds_len);
             $q.table.lefts = from_raw_parts(lefts, lefts_len);
             $q.table.rights = from_raw_parts(rights, rights_len);]
            [$($back)* from_raw_parts_mut(kinds, kinds_len).copy_from_slice(&$a.columns.kinds);
             from_raw_parts_mut(lefts, lefts_len).copy_from_slice(&$a.columns.lefts);
             from_raw_parts_mut(rights, rights_len).copy_from_slice(&$a.columns.rights);]
            groups $(, $($rest)*)?);
    };
    (@ $s:ident $c:ident $q:ident $a:ident [$($p:tt)*] [$($set:tt)*] [$($back:tt)*] groups $(, $($rest:tt)*)?) => {
        exports!(@ $s $c $q $a
            [$($p)* groups: *mut u8, groups_len: usize,]
            [$($set)* $q.table.groups = from_raw_parts(groups, groups_len);]
            [$($back)* from_raw_parts_mut(groups, groups_len).copy_from_slice(&$a.columns.groups);]
            $($($rest)*)?);
    };
    (@ $s:ident $c:ident $q:ident $a:ident [$($p:tt)*] [$($set:tt)*] [$($back:tt)*] record $r:ident $(, $($rest:tt)*)?) => {
        exports!(@ $s $c $q $a
            [$($p)* bytes: *const u8, length: usize, offset: u64, node: u64,]
            [$($set)* $q.$r = Record { bytes: from_raw_parts(bytes, length), offset, node };]
            [$($back)*] $($($rest)*)?);
    };
    (@ $s:ident $c:ident $q:ident $a:ident [$($p:tt)*] [$($set:tt)*] [$($back:tt)*] stream $(, $($rest:tt)*)?) => {
        exports!(@ $s $c $q $a
            [$($p)* bytes: *const u8, bytes_len: usize, length: u64, position: &mut u64,]
            [$($set)* $q.stream = Stream { bytes: from_raw_parts(bytes, bytes_len), length, position: *position };]
            [$($back)* *position = $a.position;] $($($rest)*)?);
    };
    (@ $s:ident $c:ident $q:ident $a:ident [$($p:tt)*] [$($set:tt)*] [$($back:tt)*] number $n:ident $(, $($rest:tt)*)?) => {
        exports!(@ $s $c $q $a [$($p)* $n: u64,] [$($set)* $q.$n = $n;] [$($back)*] $($($rest)*)?);
    };
    (@ $s:ident $c:ident $q:ident $a:ident [$($p:tt)*] [$($set:tt)*] [$($back:tt)*] bytes $b:ident $(, $($rest:tt)*)?) => {
        exports!(@ $s $c $q $a
            [$($p)* $b: *const u8, length: usize,] [$($set)* $q.$b = from_raw_parts($b, length);]
            [$($back)*] $($($rest)*)?);
    };
    (@ $s:ident $c:ident $q:ident $a:ident [$($p:tt)*] [$($set:tt)*] [$($back:tt)*] value $(, $($rest:tt)*)?) => {
        exports!(@ $s $c $q $a
            [$($p)* value: &mut u64,] [$($set)* $q.values = std::slice::from_ref(&*value);]
            [$($back)* *value = $a.values[0];] $($($rest)*)?);
    };
    (@ $s:ident $c:ident $q:ident $a:ident [$($p:tt)*] [$($set:tt)*] [$($back:tt)*] values $(, $($rest:tt)*)?) => {
        exports!(@ $s $c $q $a
            [$($p)* values: *mut u64, values_len: usize,] [$($set)* $q.values = from_raw_parts(values, values_len);]
            [$($back)* from_raw_parts_mut(values, values_len).copy_from_slice(&$a.values);] $($($rest)*)?);
    };
    (@ $s:ident $c:ident $q:ident $a:ident [$($p:tt)*] [$($set:tt)*] [$($back:tt)*] out) => {
        exports!(@ $s $c $q $a
            [$($p)* out: *mut u8, out_len: usize,] [$($set)* $q.out = from_raw_parts(out, out_len);]
            [$($back)* from_raw_parts_mut(out, out_len).copy_from_slice(&$a.out);]);
    };
    (@ $s:ident $c:ident $q:ident $a:ident [$($p:tt)*] [$($set:tt)*] [$($back:tt)*]) => {
        /// # Safety
        /// As `include/quelomavunt.h` says of every pointer.
        #[no_mangle]
        #[allow(unused_mut, clippy::too_many_arguments)]
        pub unsafe extern "C" fn $s($($p)*) -> u64 {
            let $a = {
                let mut $q = Request::new(Call::$c, Columns::default());
                $($set)*
                ask(&$q)
            };
            $($back)*
            $a.code
        }
    };
}

exports! {
    // calls.list begins: tools/calls writes what stands up to its end.
    fn qv_read_table = ReadTable(bytes data, columns, value);
    fn qv_fill_facts = FillFacts(entries, groups);
    fn qv_check_table = CheckTable(table);
    fn qv_facts_of = FactsOf(table, number node, values);
    fn qv_same_type = SameType(table, number node, number other, value);
    fn qv_is_unit = IsUnit(table, number node, value);
    fn qv_is_empty = IsEmpty(table, number node, value);
    fn qv_type_as_sum = TypeAsSum(table, number node, values);
    fn qv_type_as_product = TypeAsProduct(table, number node, values);
    fn qv_pad_left = PadLeft(table, number node, number other, value);
    fn qv_pad_right = PadRight(table, number node, number other, value);
    fn qv_as_word = AsWord(table, number node, value);
    fn qv_word_width = WordWidth(number n, value);
    fn qv_buffer_width = BufferWidth(number n, value);
    fn qv_is_buffer8 = IsBuffer8(table, number node, number n, value);
    fn qv_is_ctx8 = IsCtx8(table, number node, value);
    fn qv_as_left = AsLeft(table, record a, values);
    fn qv_as_right = AsRight(table, record a, values);
    fn qv_as_product = AsProduct(table, record a, values);
    fn qv_equal = Equal(table, record a, record b, value);
    fn qv_compare = Compare(table, record a, record b, value);
    fn qv_compact_len = CompactLen(table, record a, value);
    fn qv_padded_len = PaddedLen(table, record a, value);
    fn qv_unit = Unit(table, number node, value, out);
    fn qv_left = Left(table, record a, number node, value, out);
    fn qv_right = Right(table, record a, number node, value, out);
    fn qv_product = Product(table, record a, record b, number node, value, out);
    fn qv_none = None(table, number node, value, out);
    fn qv_some = Some(table, record a, number node, value, out);
    fn qv_zero = Zero(table, number node, value, out);
    fn qv_u1 = U1(table, number n, number node, value, out);
    fn qv_u2 = U2(table, number n, number node, value, out);
    fn qv_u4 = U4(table, number n, number node, value, out);
    fn qv_u8 = U8(table, bytes data, number node, value, out);
    fn qv_u16 = U16(table, bytes data, number node, value, out);
    fn qv_u32 = U32(table, bytes data, number node, value, out);
    fn qv_u64 = U64(table, bytes data, number node, value, out);
    fn qv_u128 = U128(table, bytes data, number node, value, out);
    fn qv_u256 = U256(table, bytes data, number node, value, out);
    fn qv_u512 = U512(table, bytes data, number node, value, out);
    fn qv_from_byte_array = FromByteArray(table, bytes data, number node, value, out);
    fn qv_word_product = WordProduct(table, record a, record b, number node, value, out);
    fn qv_word_from_bits = WordFromBits(table, stream, number n, number node, out);
    fn qv_buffer8_two_n_plus_one = Buffer8TwoNPlusOne(table, number n, bytes data, number node, value, out);
    fn qv_ctx8 = Ctx8(table, bytes data, number n, bytes buffer, number node, value, out);
    fn qv_from_compact_bits = FromCompactBits(table, stream, number node, out);
    fn qv_from_padded_bits = FromPaddedBits(table, stream, number node, out);
    fn qv_to_compact_bits = ToCompactBits(table, record a, value, out);
    fn qv_to_padded_bits = ToPaddedBits(table, record a, value, out);
    fn qv_prune = Prune(table, record a, number node, value, out);
    // calls.list ends
}
