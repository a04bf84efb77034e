//! The stand-ins do what the crate's text needs of them.

use oracle::supply::Random;
use oracle::types::Final;
use oracle::{BitCollector, BitIter, Tmr};

fn bit(bytes: &[u8], i: usize) -> bool {
    bytes[i / 8] >> (7 - i % 8) & 1 == 1
}

#[test]
fn a_window_gives_its_bits_and_no_more() {
    let bytes = Random::new(1).bytes(5);
    for start in 0..40 {
        for end in start..=40 {
            let read: Vec<bool> = BitIter::window(&bytes, start, end).collect();
            let bits: Vec<bool> = (start..end).map(|i| bit(&bytes, i)).collect();
            assert_eq!(read, bits, "{start} to {end}");
        }
    }
}

#[test]
fn bytes_are_read_at_every_alignment() {
    let bytes = Random::new(2).bytes(6);
    for start in 0..20 {
        for first in 0..10 {
            for end in start + first..=48 {
                let mut bits = BitIter::window(&bytes, start, end);
                for i in 0..first {
                    assert_eq!(bits.read_bit(), Ok(bit(&bytes, start + i)));
                }
                let at = start + first;
                let whole = (0..8).fold(0, |byte, i| byte << 1 | u8::from(at + i < end && bit(&bytes, at + i)));
                match bits.read_u8() {
                    Ok(byte) => assert!(at + 8 <= end && byte == whole, "{start} {first} {end}"),
                    Err(_) => assert!(at + 8 > end, "{start} {first} {end}"),
                }
                let taken = if at + 8 <= end { first + 8 } else { first };
                assert_eq!(bits.n_total_read(), taken);
                assert_eq!(bits.next(), (start + taken < end).then(|| bit(&bytes, start + taken)));
            }
        }
    }
}

#[test]
fn bits_are_collected_from_the_top() {
    let (bytes, count) = [true, false, true, true, false, false, false, false, true].into_iter().collect_bits();
    assert_eq!((bytes, count), (vec![0xB0, 0x80], 9));
    assert_eq!([true; 9].into_iter().try_collect_bytes(), Err(9));
    assert_eq!([true; 8].into_iter().try_collect_bytes(), Ok(vec![0xFF]));
}

#[test]
fn roots_are_alike_exactly_for_the_same_tree() {
    let trees = oracle::supply::trees_up_to(4);
    let mut maker = oracle::supply::TableMaker::new();
    let nodes: Vec<u16> = trees.iter().map(|tree| maker.add_shared(tree)).collect();
    let table = maker.finish();
    let types = oracle::published::Published::new().types(&table.lend());
    for (i, a) in nodes.iter().enumerate() {
        for (j, b) in nodes.iter().enumerate() {
            assert_eq!(types[usize::from(*a)].tmr() == types[usize::from(*b)].tmr(), i == j);
        }
    }
}

#[test]
fn the_lists_name_the_types_of_the_rules() {
    assert!(oracle::published::lists_are_consistent());
    assert_eq!(Tmr::TWO_TWO_N.len(), 32);
    assert_eq!(Final::ctx8().bit_width(), 830);
    assert_eq!(Final::buffer8_two_n_plus_one(5).expect("within the list").bit_width(), 510);
}
