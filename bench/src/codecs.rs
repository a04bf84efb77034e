//! Compact and padded reading and writing, and cuts.

use crate::measure::{head, line, Effort};
use crate::subjects::{readings, small, tags, word_19, Subject};
use oracle::{BitCollector, BitIter, Value};
use quelomavunt::{bytes_for, Stream};
use std::hint::black_box;

pub fn run(effort: Effort) {
    for subject in [word_19(), readings(), tags(), small()] {
        head(&format!(
            "{}: {} bits, {} tree nodes, table of {} nodes checked in every call",
            subject.name,
            subject.width(),
            subject.tree_nodes,
            subject.table.len()
        ));
        compare(&subject);
        measure(effort, &subject);
    }
}

/// The compact bits and their number.
fn compact_of(s: &Subject) -> (Vec<u8>, usize) {
    s.value.iter_compact().collect_bits()
}

/// Both sides give the same bytes.
fn compare(s: &Subject) {
    let mut out = vec![0; bytes_for(s.width())];
    let (compact, bits) = compact_of(s);
    assert_eq!(s.table.to_compact_bits(s.record(), &mut out), Ok(bits as u64));
    assert_eq!(out[..compact.len()], compact[..]);
    let mut stream = Stream { bytes: &compact, length: bits as u64, position: 0 };
    assert_eq!(s.table.from_compact_bits(&mut stream, s.node, &mut out), Ok(()));
    let mut text_bits = BitIter::window(&compact, 0, bits);
    let read = Value::from_compact_bits(&mut text_bits, &s.ty).expect("its own bits");
    assert_eq!(out, read.iter_padded().collect_bits().0);
    s.table.to_padded_bits(s.record(), &mut out).expect("a record");
    assert_eq!(out, s.value.iter_padded().collect_bits().0);
    let width = s.table.prune(s.record(), s.target, &mut out).expect("the target fits");
    let cut = s.value.prune(&s.target_ty).expect("the target fits");
    assert_eq!(out[..bytes_for(width)], cut.iter_padded().collect_bits().0[..]);
}

fn measure(effort: Effort, s: &Subject) {
    let mut out = vec![0; bytes_for(s.width())];
    let (compact, bits) = compact_of(s);
    let width = s.width() as usize;

    let ours = effort.best(|| {
        let mut stream = Stream { bytes: black_box(&compact), length: bits as u64, position: 0 };
        black_box(s.table.from_compact_bits(&mut stream, s.node, &mut out)).expect("its own bits");
    });
    let text = effort.best(|| {
        let mut stream = BitIter::window(black_box(&compact), 0, bits);
        black_box(Value::from_compact_bits(&mut stream, &s.ty)).expect("its own bits");
    });
    line("read compact bits", ours, text, "");

    let ours = effort.best(|| {
        black_box(s.table.to_compact_bits(black_box(s.record()), &mut out)).expect("a record");
    });
    let text = effort.best(|| {
        black_box(black_box(&s.value).iter_compact().collect_bits());
    });
    line("write compact bits", ours, text, "");

    let ours = effort.best(|| {
        let mut stream = Stream { bytes: black_box(&s.bytes), length: s.width(), position: 0 };
        black_box(s.table.from_padded_bits(&mut stream, s.node, &mut out)).expect("enough bits");
    });
    let text = effort.best(|| {
        let mut stream = BitIter::window(black_box(&s.bytes), 0, width);
        black_box(Value::from_padded_bits(&mut stream, &s.ty)).expect("enough bits");
    });
    line("read padded bits", ours, text, "");

    let ours = effort.best(|| {
        black_box(s.table.to_padded_bits(black_box(s.record()), &mut out)).expect("a record");
    });
    let text = effort.best(|| {
        black_box(black_box(&s.value).iter_padded().collect_bits());
    });
    line("write padded bits", ours, text, "");

    let ours = effort.best(|| {
        black_box(s.table.prune(black_box(s.record()), s.target, &mut out)).expect("the target fits");
    });
    let text = effort.best(|| {
        black_box(black_box(&s.value).prune(&s.target_ty)).expect("the target fits");
    });
    line("cut", ours, text, "");

    let ours = effort.best(|| {
        black_box(s.table.prune(black_box(s.record()), s.node, &mut out)).expect("its own type");
    });
    let text = effort.best(|| {
        black_box(black_box(&s.value).prune(&s.ty)).expect("its own type");
    });
    line("cut to its own type", ours, text, "(the crate shares the bytes and copies nothing)");

    let ours = effort.best(|| {
        black_box(s.table.compact_len(black_box(s.record()))).expect("a record");
    });
    let text = effort.best(|| {
        black_box(black_box(&s.value).compact_len());
    });
    line("compact length", ours, text, "");

    let other = s.value.clone();
    let ours = effort.best(|| {
        black_box(s.table.equal(black_box(s.record()), s.record())).expect("two records");
    });
    let text = effort.best(|| {
        black_box(black_box(&s.value) == &other);
    });
    line("equality of equal records", ours, text, "");
}
