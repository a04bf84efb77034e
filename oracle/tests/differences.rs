//! Each difference between the rules and the crate's text that docs/DIFFERENCES.md lists, by running the text on the
//! smallest input found. What the rules say is asked of the model beside it.

use oracle::library::{Answer, Call, Library, Record, Request, Stream};
use oracle::model::Model;
use oracle::supply::TableMaker;
use oracle::types::Final;
use oracle::{BitIter, Value, Word};
use std::sync::Arc;

/// The model's answer.
fn rules(q: &Request) -> Answer {
    let mut answer = Answer::default();
    Model::new().ask(q, &mut answer);
    answer
}

/// A value of 2 × 2 with these bits at the top of a byte.
fn pair(byte: u8) -> Value {
    Value::from_padded_bits(&mut BitIter::new([byte].into_iter()), &Final::u2()).expect("eight bits are there")
}

/// The left half of a value of 2 × 2.
fn left_half(pair: &Value) -> Value {
    pair.as_product().expect("a product").0.to_value()
}

#[test]
fn d1_equality_and_order_read_the_neighbours_bits() {
    let (a, b) = (left_half(&pair(0xC0)), left_half(&pair(0x80)));
    assert!(a.iter_padded().eq(b.iter_padded()), "the same bits");
    assert!(a != b && a > b, "and yet the text tells them apart");
    let mut maker = TableMaker::new();
    let bit = maker.word(0).into();
    let table = maker.finish();
    let (a, b) = (Record { bytes: &[0xC0], offset: 0, node: bit }, Record { bytes: &[0x80], offset: 0, node: bit });
    assert_eq!(rules(&Request { a, b, ..Request::new(Call::Equal, table.lend()) }).values, [1]);
    assert_eq!(rules(&Request { a, b, ..Request::new(Call::Compare, table.lend()) }).values, [1]);
}

#[test]
fn d2_built_and_cut_values_carry_their_neighbours_along() {
    let (a, b) = (left_half(&pair(0xC0)), left_half(&pair(0x80)));
    let (some_a, some_b) = (Value::some(a.clone()), Value::some(b.clone()));
    assert!(some_a.iter_padded().eq(some_b.iter_padded()) && some_a != some_b);
    let (times_a, times_b) = (Value::product(a, Value::unit()), Value::product(b, Value::unit()));
    assert!(times_a.iter_padded().eq(times_b.iter_padded()) && times_a != times_b);
    let target = Final::product(Final::u1(), Final::unit());
    let cut = |byte| pair(byte).prune(&target).expect("2 × 2 to 2 × 1");
    assert!(cut(0xC0).iter_padded().eq(cut(0x80).iter_padded()) && cut(0xC0) != cut(0x80));
    // By the rules a made or cut record has zero bits after its width.
    let mut maker = TableMaker::new();
    let (bit, two) = (maker.word(0), maker.word(1).into());
    let target = maker.shared(2, bit, 0).into();
    let table = maker.finish();
    let a = Record { bytes: &[0xC0], offset: 0, node: two };
    let q = Request { a, node: target, out: &[0xFF], ..Request::new(Call::Prune, table.lend()) };
    assert_eq!(rules(&q).out, [0x80]);
}

#[test]
fn d3_types_are_ordered_by_root_and_not_by_class() {
    // Two tables that list 1 + 1 and 1 × 1 the one way and the other: the rules' order turns round. The text's order
    // is that of the roots and knows no table.
    let order = |first: u8| {
        let mut maker = TableMaker::new();
        maker.push(0, 0, 0);
        maker.push(first, 0, 0);
        maker.push(3 - first, 0, 0);
        let table = maker.finish();
        let node = |kind: u8| if kind == first { 1 } else { 2 };
        let (a, b) =
            (Record { bytes: &[0], offset: 0, node: node(1) }, Record { bytes: &[0], offset: 0, node: node(2) });
        rules(&Request { a, b, ..Request::new(Call::Compare, table.lend()) }).values[0]
    };
    assert_eq!((order(1), order(2)), (0, 2));
    let (sum, product) = (Value::u1(0), Value::product(Value::unit(), Value::unit()));
    assert_eq!(sum.cmp(&product), sum.ty().tmr().cmp(&product.ty().tmr()));
}

#[test]
fn d4_after_an_early_end_the_iterator_has_moved() {
    // 2 + 2 × 2 from the bits 1 1: the text has taken both.
    let ty = Final::sum(Final::u1(), Final::u2());
    let mut bits = BitIter::window(&[0xC0], 0, 2);
    assert!(Value::from_compact_bits(&mut bits, &ty).is_err());
    assert_eq!(bits.n_total_read(), 2);
    let mut maker = TableMaker::new();
    let (bit, two) = (maker.word(0), maker.word(1));
    let node = maker.shared(1, bit, two).into();
    let table = maker.finish();
    let stream = Stream { bytes: &[0xC0], length: 2, position: 0 };
    let answer = rules(&Request { stream, node, out: &[0], ..Request::new(Call::FromCompactBits, table.lend()) });
    assert_eq!((answer.code, answer.position), (8, 0));
}

#[test]
fn d5_words_of_2_to_the_30_bits_do_not_join() {
    // The text's own comment says that only words of 2^31 bits don't.
    let read = |n| Word::from_bits(&mut BitIter::new(std::iter::repeat(0)), n).expect("endless zeros");
    assert!(read(3).product(read(3)).is_some());
    let widest = read(30);
    assert!(widest.shallow_clone().product(widest).is_none());
}

#[test]
fn d6_what_panics_in_the_text_is_a_refusal() {
    std::panic::set_hook(Box::new(|_| {}));
    assert!(std::panic::catch_unwind(|| Value::u1(2)).is_err());
    assert!(std::panic::catch_unwind(|| Value::u2(4)).is_err());
    assert!(std::panic::catch_unwind(|| Value::u4(16)).is_err());
    assert!(std::panic::catch_unwind(|| Value::from_byte_array([0; 3])).is_err());
    assert!(std::panic::catch_unwind(|| Value::from_byte_array([])).is_err());
    let from_bits = || Word::from_bits(&mut BitIter::new([0].into_iter()), 32).is_ok();
    assert!(std::panic::catch_unwind(from_bits).is_err());
    let mut maker = TableMaker::new();
    let node = maker.word(0).into();
    let table = maker.finish();
    let q = Request { n: 2, node, out: &[0], ..Request::new(Call::U1, table.lend()) };
    assert_eq!(rules(&q).code, 6);
    assert_eq!(rules(&Request { call: Call::FromByteArray, data: &[0; 3], ..q }).code, 6);
    assert_eq!(rules(&Request { call: Call::FromByteArray, data: &[], ..q }).code, 6);
    assert_eq!(rules(&Request { call: Call::WordFromBits, n: 32, ..q }).code, 6);
}

#[test]
fn d7_the_text_has_no_limits_of_width_and_size() {
    // 1 + 2^(2^20): the bit 0 alone is its absent value.
    let mut bits = BitIter::window(&[0], 0, 1);
    let wide = Value::from_compact_bits(&mut bits, &Final::successor(Final::two_two_n(20).expect("a word")));
    assert_eq!(wide.expect("one bit is enough").padded_len(), 1_048_577);
    // No width, and 2^22 - 1 tree nodes.
    let hollow = (0..21).fold(Final::unit(), |ty, _| Final::product(Arc::clone(&ty), ty));
    assert_eq!(Value::zero(&hollow).padded_len(), 0);
    let mut maker = TableMaker::new();
    let word = maker.word(20);
    let wide = maker.shared(1, 0, word).into();
    let hollow = (0..21).fold(0, |node, _| maker.push(2, node, node)).into();
    let table = maker.finish();
    let stream = Stream { bytes: &[0], length: 1, position: 0 };
    let q = Request { stream, node: wide, ..Request::new(Call::FromCompactBits, table.lend()) };
    assert_eq!(rules(&q).code, 3);
    assert_eq!(rules(&Request { node: hollow, ..Request::new(Call::Zero, table.lend()) }).code, 4);
}

#[test]
fn d8_a_cut_never_looks_at_the_untaken_side() {
    // The text's comment asks for A1 ≤ A2 and B1 ≤ B2; its code, as the rules, looks at the side taken alone.
    let value = Value::left(Value::unit(), Final::u1());
    let target = Final::sum(Final::unit(), Final::u64());
    assert!(Value::u1(0).prune(&Final::u2()).is_none(), "2 is not 2 × 2");
    let cut = value.prune(&target).expect("and still 1 + 2 is cut to 1 + 2^64");
    assert_eq!(cut.padded_len(), 65);
}

#[test]
fn d9_a_constructor_names_no_result_in_the_text() {
    // The text makes the type; the rules are told it, and refuse with 7 where it is another.
    assert!(Value::left(Value::u1(1), Final::u2()).is_of_type(&Final::sum(Final::u1(), Final::u2())));
    let mut maker = TableMaker::new();
    let (bit, two) = (maker.word(0), maker.word(1));
    let sum = maker.shared(1, two, bit).into();
    let table = maker.finish();
    let a = Record { bytes: &[0x80], offset: 0, node: bit.into() };
    let q = Request { a, node: sum, out: &[0], ..Request::new(Call::Left, table.lend()) };
    assert_eq!(rules(&q).code, 7);
}

#[test]
fn d10_buffers_stop_where_a_table_of_the_crate_stops() {
    // The length of that table is not in the text; the stand-in has the port's own 13.
    assert!(Value::buffer8_two_n_plus_one(12, &[]).is_ok());
    assert!(Value::buffer8_two_n_plus_one(13, &[]).is_err());
    assert_eq!(rules(&Request { n: 12, ..Request::new(Call::BufferWidth, Default::default()) }).values, [65_541]);
    assert_eq!(rules(&Request { n: 13, ..Request::new(Call::BufferWidth, Default::default()) }).code, 6);
}

#[test]
fn d11_small_words_lie_at_the_end_of_a_byte_and_padded_readings_keep_a_byte_more() {
    let told = |value: &Value, what: &str| assert!(format!("{value:?}").contains(what), "{value:?}");
    told(&Value::u1(1), "raw_value: [1], raw_bit_offset: 7");
    told(&Value::u2(2), "raw_value: [2], raw_bit_offset: 6");
    told(&Value::u4(10), "raw_value: [10], raw_bit_offset: 4");
    let read = |ty: &Final| Value::from_padded_bits(&mut BitIter::new([0xA5].into_iter()), ty).expect("enough bits");
    told(&read(&Final::u8()), "raw_value: [165, 0], raw_bit_offset: 0");
    told(&read(&Final::unit()), "raw_value: [0], raw_bit_offset: 0");
    told(&Value::right(Final::unit(), Value::unit()), "raw_value: [1], raw_bit_offset: 7");
    // By the rules a result starts at bit 0, takes its width rounded up to bytes, and later bytes stay.
    let mut maker = TableMaker::new();
    let [bit, pair, nibble, byte] = [0, 1, 2, 3].map(|n| u64::from(maker.word(n)));
    let table = maker.finish();
    for (call, n, node, first) in
        [(Call::U1, 1, bit, 0x80), (Call::U2, 2, pair, 0x80), (Call::U4, 10, nibble, 0xA0), (Call::Right, 0, bit, 0x80)]
    {
        let q = Request { n, node, out: &[0xFF; 2], ..Request::new(call, table.lend()) };
        assert_eq!(rules(&q).out, [first, 0xFF], "{call:?}");
    }
    let stream = Stream { bytes: &[0xA5], length: 8, position: 0 };
    for (node, out) in [(byte, [0xA5, 0xFF]), (0, [0xFF, 0xFF])] {
        let q = Request { stream, node, out: &[0xFF; 2], ..Request::new(Call::FromPaddedBits, table.lend()) };
        assert_eq!(rules(&q).out, out);
    }
}

#[test]
fn d12_slips_of_the_text_that_a_reader_of_both_will_meet() {
    // One word of four bits, written in two ways.
    assert_eq!((Value::u4(10).to_string(), Word::u4(10).to_string()), ("0xa".to_string(), "0b1010".to_string()));
    // The maximum that is told is the first n that is refused.
    assert_eq!(Final::two_two_n(32).unwrap_err().to_string(), "maximum n for 2^(2^n) is 32; got 32");
    // A call that names another in its panic.
    std::panic::set_hook(Box::new(|_| {}));
    let panic = std::panic::catch_unwind(|| Value::u4(16)).expect_err("16 is out of range");
    assert_eq!(panic.downcast_ref::<String>().expect("a message"), "16 out of range for Value::u2");
}

#[test]
#[ignore = "the text walks 2^32 nodes, which takes minutes"]
fn d12_the_last_word_type_is_shown_with_a_sign() {
    assert_eq!(Final::two_two_n(31).expect("the last word").to_string(), "2^-2147483648");
}
