//! The exported calls as they are: the only unsafe code of this package.
//!
//! Each function below takes slices and numbers, hands them to the call of the same name with the prefix `qv_`, and
//! returns its result: 0, or number + 256 * place. It is safe: every pointer comes from a slice or a reference with
//! its true length, and what is written is borrowed mutably, so nothing overlaps. `include/quelomavunt.h` says what
//! each call does. The safe face is the rest of this package; this module is public for tests and measurements.

#![allow(unsafe_code)]

/// The bytes of one node's facts in the groups, numbers low byte first: width 8, size 8, padded 1, class 2, least 8.
pub const GROUP_BYTES: usize = 27;

/// A table with its facts, as every call takes it. Nothing is assumed of it: each call checks it.
#[derive(Clone, Copy, Debug, Default)]
pub struct Columns<'a> {
    /// 0 unit, 1 sum, 2 product.
    pub kinds: &'a [u8],
    /// Left sides; 0 for unit.
    pub lefts: &'a [u16],
    /// Right sides; 0 for unit.
    pub rights: &'a [u16],
    /// The facts: node n's are the [`GROUP_BYTES`] bytes from byte `GROUP_BYTES * n` on.
    pub groups: &'a [u8],
    /// How many nodes there are.
    pub count: u64,
}

/// The columns and groups that `read_table` writes.
#[derive(Debug)]
pub struct ColumnsMut<'a> {
    /// 0 unit, 1 sum, 2 product.
    pub kinds: &'a mut [u8],
    /// Left sides.
    pub lefts: &'a mut [u16],
    /// Right sides.
    pub rights: &'a mut [u16],
    /// The facts.
    pub groups: &'a mut [u8],
}

/// A record as the calls take it. Nothing is assumed of it.
#[derive(Clone, Copy, Debug, Default)]
pub struct RawRecord<'a> {
    /// The bytes it lies in.
    pub bytes: &'a [u8],
    /// The bit at which it starts.
    pub offset: u64,
    /// Its type.
    pub node: u64,
}

/// Declares calls. Each parameter is a word and, from `record` on but for `out`, a name:
/// `table`: columns, groups and count, lent for reading; `columns`: columns and groups, lent for writing;
/// `entries`: kinds, lefts, rights and the count of a table without facts; `groups`: the groups alone, lent for writing;
/// `record`; `number`; `bytes`: a byte slice; `value`: one accepted number, or a position in and out; `values`: a slice
/// of accepted numbers; `out`.
macro_rules! calls {
    ($($(#[$doc:meta])* fn $name:ident = $symbol:literal ($($given:tt)*);)*) => {
        $(calls!(@ [$(#[$doc])*] $name $symbol [] [] [] $($given)*);)*
    };
    (@ $d:tt $name:ident $symbol:literal [$($ext:tt)*] [$($par:tt)*] [$($arg:tt)*] table $(, $($rest:tt)*)?) => {
        calls!(@ $d $name $symbol
            [$($ext)* _: *const u8, _: usize, _: *const u16, _: usize, _: *const u16, _: usize, _: *const u8, _: usize,
             _: u64,]
            [$($par)* table: &Columns<'_>,]
            [$($arg)* table.kinds.as_ptr(), table.kinds.len(), table.lefts.as_ptr(), table.lefts.len(),
             table.rights.as_ptr(), table.rights.len(), table.groups.as_ptr(), table.groups.len(), table.count,]
            $($($rest)*)?);
    };
    (@ $d:tt $name:ident $symbol:literal [$($ext:tt)*] [$($par:tt)*] [$($arg:tt)*] entries $(, $($rest:tt)*)?) => {
        calls!(@ $d $name $symbol
            [$($ext)* _: *const u8, _: usize, _: *const u16, _: usize, _: *const u16, _: usize, _: u64,]
            [$($par)* kinds: &[u8], lefts: &[u16], rights: &[u16], count: u64,]
            [$($arg)* kinds.as_ptr(), kinds.len(), lefts.as_ptr(), lefts.len(), rights.as_ptr(), rights.len(), count,]
            $($($rest)*)?);
    };
    (@ $d:tt $name:ident $symbol:literal [$($ext:tt)*] [$($par:tt)*] [$($arg:tt)*] columns $(, $($rest:tt)*)?) => {
        calls!(@ $d $name $symbol
            [$($ext)* _: *mut u8, _: usize, _: *mut u16, _: usize, _: *mut u16, _: usize, _: *mut u8, _: usize,]
            [$($par)* columns: ColumnsMut<'_>,]
            [$($arg)* columns.kinds.as_mut_ptr(), columns.kinds.len(), columns.lefts.as_mut_ptr(),
             columns.lefts.len(), columns.rights.as_mut_ptr(), columns.rights.len(),
             columns.groups.as_mut_ptr(), columns.groups.len(),]
            $($($rest)*)?);
    };
    (@ $d:tt $name:ident $symbol:literal [$($ext:tt)*] [$($par:tt)*] [$($arg:tt)*] groups $(, $($rest:tt)*)?) => {
        calls!(@ $d $name $symbol
            [$($ext)* _: *mut u8, _: usize,] [$($par)* groups: &mut [u8],]
            [$($arg)* groups.as_mut_ptr(), groups.len(),]
            $($($rest)*)?);
    };
    (@ $d:tt $name:ident $symbol:literal [$($ext:tt)*] [$($par:tt)*] [$($arg:tt)*] record $r:ident $(, $($rest:tt)*)?) => {
        calls!(@ $d $name $symbol
            [$($ext)* _: *const u8, _: usize, _: u64, _: u64,]
            [$($par)* $r: &RawRecord<'_>,]
            [$($arg)* $r.bytes.as_ptr(), $r.bytes.len(), $r.offset, $r.node,]
            $($($rest)*)?);
    };
    (@ $d:tt $name:ident $symbol:literal [$($ext:tt)*] [$($par:tt)*] [$($arg:tt)*] number $n:ident $(, $($rest:tt)*)?) => {
        calls!(@ $d $name $symbol [$($ext)* _: u64,] [$($par)* $n: u64,] [$($arg)* $n,] $($($rest)*)?);
    };
    (@ $d:tt $name:ident $symbol:literal [$($ext:tt)*] [$($par:tt)*] [$($arg:tt)*] bytes $b:ident $(, $($rest:tt)*)?) => {
        calls!(@ $d $name $symbol
            [$($ext)* _: *const u8, _: usize,] [$($par)* $b: &[u8],] [$($arg)* $b.as_ptr(), $b.len(),]
            $($($rest)*)?);
    };
    (@ $d:tt $name:ident $symbol:literal [$($ext:tt)*] [$($par:tt)*] [$($arg:tt)*] value $v:ident $(, $($rest:tt)*)?) => {
        calls!(@ $d $name $symbol
            [$($ext)* _: &mut u64,] [$($par)* $v: &mut u64,] [$($arg)* $v,] $($($rest)*)?);
    };
    (@ $d:tt $name:ident $symbol:literal [$($ext:tt)*] [$($par:tt)*] [$($arg:tt)*] values $v:ident $(, $($rest:tt)*)?) => {
        calls!(@ $d $name $symbol
            [$($ext)* _: *mut u64, _: usize,] [$($par)* $v: &mut [u64],] [$($arg)* $v.as_mut_ptr(), $v.len(),]
            $($($rest)*)?);
    };
    (@ $d:tt $name:ident $symbol:literal [$($ext:tt)*] [$($par:tt)*] [$($arg:tt)*] out) => {
        calls!(@ $d $name $symbol
            [$($ext)* _: *mut u8, _: usize,] [$($par)* out: &mut [u8],] [$($arg)* out.as_mut_ptr(), out.len(),]);
    };
    (@ [$($doc:tt)*] $name:ident $symbol:literal [$($ext:tt)*] [$($par:tt)*] [$($arg:tt)*]) => {
        $($doc)*
        #[allow(clippy::too_many_arguments)]
        pub fn $name($($par)*) -> u64 {
            unsafe extern "C" {
                #[link_name = $symbol]
                fn exported($($ext)*) -> u64;
            }
            // SAFETY: each pointer comes with the count of elements that lie behind it and is valid for the call;
            // what is written is borrowed mutably and so overlaps nothing; the call keeps no pointer. That the
            // compiled call stays within these lengths is what the library's proof is about.
            unsafe { exported($($arg)*) }
        }
    };
}

calls! {
    // calls.list begins: tools/calls writes what stands up to its end.
    /// Reads a table file.
    fn read_table = "qv_read_table"(bytes file, columns, value count);
    /// Computes a table's facts.
    fn fill_facts = "qv_fill_facts"(entries, groups);
    /// Checks a table and its facts.
    fn check_table = "qv_check_table"(table);
    /// Width, size, padded, class, kind, left, right, least: 8 values.
    fn facts_of = "qv_facts_of"(table, number node, values facts);
    /// Whether two nodes are the same tree.
    fn same_type = "qv_same_type"(table, number a, number b, value answer);
    /// Whether a node is unit.
    fn is_unit = "qv_is_unit"(table, number node, value answer);
    /// Whether a node has no width.
    fn is_empty = "qv_is_empty"(table, number node, value answer);
    /// The sides of a sum: 2 values.
    fn type_as_sum = "qv_type_as_sum"(table, number node, values sides);
    /// The sides of a product: 2 values.
    fn type_as_product = "qv_type_as_product"(table, number node, values sides);
    /// The padding of left values of a + b.
    fn pad_left = "qv_pad_left"(table, number a, number b, value padding);
    /// The padding of right values of a + b.
    fn pad_right = "qv_pad_right"(table, number a, number b, value padding);
    /// The n of a word type.
    fn as_word = "qv_as_word"(table, number node, value n);
    /// The width of word n.
    fn word_width = "qv_word_width"(number n, value width);
    /// The width of buffer n.
    fn buffer_width = "qv_buffer_width"(number n, value width);
    /// Whether a node is buffer type n.
    fn is_buffer8 = "qv_is_buffer8"(table, number node, number n, value answer);
    /// Whether a node is the hash state's type.
    fn is_ctx8 = "qv_is_ctx8"(table, number node, value answer);
    /// The payload of a left record: offset and node.
    fn as_left = "qv_as_left"(table, record record, values view);
    /// The payload of a right record: offset and node.
    fn as_right = "qv_as_right"(table, record record, values view);
    /// The halves of a product record: left offset, left node, right offset, right node.
    fn as_product = "qv_as_product"(table, record record, values views);
    /// Whether two records are equal.
    fn equal = "qv_equal"(table, record a, record b, value answer);
    /// The order of two records: 0, 1 or 2.
    fn compare = "qv_compare"(table, record a, record b, value order);
    /// How many compact bits a record has.
    fn compact_len = "qv_compact_len"(table, record record, value bits);
    /// How many padded bits a record has.
    fn padded_len = "qv_padded_len"(table, record record, value bits);
    /// The unit record.
    fn unit = "qv_unit"(table, number result, value width, out);
    /// A left record.
    fn left = "qv_left"(table, record record, number result, value width, out);
    /// A right record.
    fn right = "qv_right"(table, record record, number result, value width, out);
    /// A pair.
    fn product = "qv_product"(table, record a, record b, number result, value width, out);
    /// The absent record of unit + anything.
    fn none = "qv_none"(table, number result, value width, out);
    /// The present record of unit + the payload's type.
    fn some = "qv_some"(table, record record, number result, value width, out);
    /// The record of zero bits.
    fn zero = "qv_zero"(table, number result, value width, out);
    /// A word of 1 bit.
    fn u1 = "qv_u1"(table, number number, number result, value width, out);
    /// A word of 2 bits.
    fn u2 = "qv_u2"(table, number number, number result, value width, out);
    /// A word of 4 bits.
    fn u4 = "qv_u4"(table, number number, number result, value width, out);
    /// A word of 8 bits.
    fn u8 = "qv_u8"(table, bytes data, number result, value width, out);
    /// A word of 16 bits.
    fn u16 = "qv_u16"(table, bytes data, number result, value width, out);
    /// A word of 32 bits.
    fn u32 = "qv_u32"(table, bytes data, number result, value width, out);
    /// A word of 64 bits.
    fn u64 = "qv_u64"(table, bytes data, number result, value width, out);
    /// A word of 128 bits.
    fn u128 = "qv_u128"(table, bytes data, number result, value width, out);
    /// A word of 256 bits.
    fn u256 = "qv_u256"(table, bytes data, number result, value width, out);
    /// A word of 512 bits.
    fn u512 = "qv_u512"(table, bytes data, number result, value width, out);
    /// A word of all bits of a byte array.
    fn from_byte_array = "qv_from_byte_array"(table, bytes data, number result, value width, out);
    /// Two words joined.
    fn word_product = "qv_word_product"(table, record a, record b, number result, value width, out);
    /// A word read from a stream.
    fn word_from_bits = "qv_word_from_bits"(table, bytes bytes, number until, value position, number n, number node, out);
    /// A buffer.
    fn buffer8_two_n_plus_one = "qv_buffer8_two_n_plus_one"(table, number n, bytes data, number result, value width, out);
    /// A hash state.
    fn ctx8 = "qv_ctx8"(table, bytes midstate, number bytes_hashed, bytes buffer, number result, value width, out);
    /// A record read from compact bits.
    fn from_compact_bits = "qv_from_compact_bits"(table, bytes bytes, number until, value position, number node, out);
    /// A record read from padded bits.
    fn from_padded_bits = "qv_from_padded_bits"(table, bytes bytes, number until, value position, number node, out);
    /// A record's compact bits.
    fn to_compact_bits = "qv_to_compact_bits"(table, record record, value bits, out);
    /// A record's padded bits.
    fn to_padded_bits = "qv_to_padded_bits"(table, record record, value bits, out);
    /// A record cut down to another type.
    fn prune = "qv_prune"(table, record record, number target, value width, out);
    // calls.list ends
}
