//! Copies of 60 KiB from every bit of a byte to every bit of a byte.
//!
//! Ours is `product` of a left side of 8 + d bits and a right side of 60 KiB that stands at bit s: the right side is
//! copied to bit 8 + d, and the table is checked first. The crate's is `copy_bits` alone, from bit s to bit d.

use crate::copy_bits::copy_bits;
use crate::measure::Effort;
use crate::subjects::copies;
use oracle::supply::Random;
use quelomavunt::{raw, Record};
use std::hint::black_box;

const BITS: usize = 8 * 60 * 1024;

pub fn run(effort: Effort) {
    let subject = copies();
    let source = Random::new(7).bytes(BITS / 8 + 2);
    let left_bytes = [0u8; 2];
    let mut out = vec![0; BITS / 8 + 4];
    println!(
        "\ncopies of 60 KiB, from bit s (down) to bit d (across) of a byte: ratio of the crate's copy_bits to ours"
    );
    println!("      d=0     d=1     d=2     d=3     d=4     d=5     d=6     d=7");
    let mut ratios = Vec::new();
    let mut aligned = Vec::new();
    let mut best_times = (f64::MAX, f64::MAX);
    for s in 0..8 {
        let mut row = format!("s={s}");
        for d in 0..8 {
            let (left_node, product_node) = subject.lefts[d];
            let columns = subject.table.columns();
            let left = Record::new(&left_bytes, 0, left_node).raw();
            let right = Record::new(&source, s as u64, subject.big).raw();
            let mut width = 0;
            let code = raw::product(&columns, &left, &right, product_node as u64, &mut width, &mut out);
            assert_eq!((code, width), (0, (BITS + 8 + d) as u64));
            same_bits(&source, s, &out, 8 + d);
            let ours = effort.best(|| {
                black_box(raw::product(&columns, &left, black_box(&right), product_node as u64, &mut width, &mut out));
            });
            let mut target = vec![0; BITS / 8 + 4];
            let text = effort.best(|| copy_bits(black_box(&source), s, black_box(&mut target), d, BITS));
            let ratio = text / ours;
            row += &format!(" {ratio:>7.2}");
            if s == d {
                aligned.push(ratio)
            } else {
                ratios.push(ratio)
            }
            best_times = (best_times.0.min(ours), best_times.1.min(text));
        }
        println!("{row}");
    }
    let least = |list: &[f64]| list.iter().copied().fold(f64::MAX, f64::min);
    let most = |list: &[f64]| list.iter().copied().fold(0.0, f64::max);
    println!("alike in their bytes (8 pairs): {:.2} to {:.2}", least(&aligned), most(&aligned));
    println!("the other 56 pairs: {:.2} to {:.2}", least(&ratios), most(&ratios));
    println!(
        "best times: ours {}, copy_bits {}",
        crate::measure::words(best_times.0),
        crate::measure::words(best_times.1)
    );
}

/// Both runs of bits are alike, looked at here and there.
fn same_bits(a: &[u8], a_offset: usize, b: &[u8], b_offset: usize) {
    let bit = |bytes: &[u8], i: usize| bytes[i / 8] >> (7 - i % 8) & 1;
    for i in (0..BITS).step_by(61).chain([BITS - 1]) {
        assert_eq!(bit(a, a_offset + i), bit(b, b_offset + i), "bit {i}");
    }
}
