//! Bad input on the raw layer, call by call: every member that a call looks at is broken in turn, and the refusal,
//! its place and the untouched outputs are compared. Then two things at once: the smaller number is answered.

mod support;

use quelomavunt::raw::{self, GROUP_BYTES};
use support::*;

const FAR: [u64; 4] = [u64::MAX, u64::MAX - 7, 1 << 63, 1 << 61];

#[test]
fn every_call_accepts_its_good_world() {
    for call in calls() {
        let after = call.accepts(call.good_world(), "the good world");
        if let Some(needed) = call.out {
            assert!(after.out[needed..].iter().all(|byte| *byte == 0x77), "{}: later bytes stay", call.name);
        }
        if call.values > 0 {
            assert!(after.values[call.values..].iter().all(|value| *value == 0x5A5A_5A5A), "{}", call.name);
        }
    }
}

/// A count for which `GROUP_BYTES` times it, in 64 bits, is less than one group: the least count past a whole turn.
fn count_that_turns_over() -> u64 {
    u64::MAX / GROUP_BYTES as u64 + 1
}

#[test]
fn a_bad_count_or_a_short_column_is_1_at_0() {
    for call in calls().iter().filter(|call| call.table || call.name == "fill_facts") {
        let count = call.good_world().table.count;
        for bad in [0, count + 1, 1025, count_that_turns_over(), u64::MAX] {
            let mut world = call.good_world();
            world.table.count = bad;
            call.refuses(world, 1, 0, "a bad count");
        }
        for column in 0..3 {
            for length in [0, count as usize - 1] {
                let mut world = call.good_world();
                shorten(&mut world.table, column, length);
                call.refuses(world, 1, 0, "a short column");
            }
        }
    }
}

fn shorten(table: &mut Zoo, column: usize, length: usize) {
    match column {
        0 => table.kinds.truncate(length),
        1 => table.lefts.truncate(length),
        _ => table.rights.truncate(length),
    }
}

#[test]
fn groups_hold_the_facts_low_byte_first() {
    let zoo = Zoo::new();
    for node in 0..zoo.count {
        let mut facts = [0; 8];
        assert_eq!(raw::facts_of(&zoo.columns(), node, &mut facts), 0);
        let [width, size, padded, class, .., least] = facts;
        let mut group = Vec::new();
        group.extend(width.to_le_bytes());
        group.extend(size.to_le_bytes());
        group.push(padded as u8);
        group.extend((class as u16).to_le_bytes());
        group.extend(least.to_le_bytes());
        assert_eq!(zoo.groups[GROUP_BYTES * node as usize..][..GROUP_BYTES], group, "node {node}");
    }
}

#[test]
fn short_groups_are_1_at_0_where_they_are_read_and_9_where_they_are_written() {
    for call in calls() {
        let number = match call.name {
            "fill_facts" | "read_table" => 9,
            _ if call.table => 1,
            _ => continue,
        };
        let nodes = if call.name == "read_table" { 10 } else { call.good_world().table.count as usize };
        let needed = GROUP_BYTES * nodes;
        for length in 0..needed {
            let mut world = call.good_world();
            world.table.groups.truncate(length);
            call.refuses(world, number, 0, "short groups");
        }
        let mut world = call.good_world();
        world.table.groups.truncate(needed);
        call.accepts(world, "groups exactly as long as the count needs");
    }
}

#[test]
fn a_wrong_entry_or_fact_is_1_at_its_node() {
    for call in calls().iter().filter(|call| call.table) {
        let count = call.good_world().table.count as usize;
        for node in 0..count {
            for column in 0..3 {
                let mut world = call.good_world();
                let t = &mut world.table;
                match column {
                    0 => t.kinds[node] = 3,
                    1 => t.lefts[node] = node.max(1) as u16,
                    _ => t.rights[node] = 1024,
                }
                call.refuses(world, 1, node as u64, "a wrong entry");
            }
            for byte in 0..GROUP_BYTES {
                let mut world = call.good_world();
                world.table.group(node)[byte] ^= 1 << (node % 8);
                call.refuses(world, 1, node as u64, "a wrong byte of a group");
            }
        }
    }
}

#[test]
fn what_lies_past_the_count_is_not_looked_at() {
    for call in calls().iter().filter(|call| call.table) {
        let mut world = call.good_world();
        let t = &mut world.table;
        t.kinds.push(9);
        t.lefts.push(u16::MAX);
        t.rights.push(u16::MAX);
        // Part of a group, too: nothing past the count's groups needs to be a whole one.
        t.groups.extend([0xFF; GROUP_BYTES + 1]);
        call.accepts(world, "longer columns and groups");
    }
}

#[test]
fn what_lies_past_the_count_is_not_written() {
    for (name, nodes) in [("read_table", 10), ("fill_facts", Zoo::new().kinds.len())] {
        let call = calls().into_iter().find(|call| call.name == name).expect("it is there");
        let mut world = call.good_world();
        // More than another group, and no whole number of them.
        world.table.groups = vec![0x77; GROUP_BYTES * nodes + GROUP_BYTES + 6];
        let after = call.accepts(world, "longer groups").table.groups;
        assert_eq!(after[GROUP_BYTES * nodes..], [0x77; GROUP_BYTES + 6], "{name}: later bytes stay");
    }
}

/// A way to set one of a world's nodes.
type SetNode = fn(&mut World, u64);

/// The named nodes of a call, each as a way to set it; and whether it is the node of a record type.
fn named(call: &Call) -> Vec<(SetNode, bool)> {
    let mut list: Vec<(SetNode, bool)> = Vec::new();
    if call.records > 0 {
        list.push((|w, node| w.a.2 = node, true));
    }
    if call.records > 1 {
        list.push((|w, node| w.b.2 = node, true));
    }
    match call.names {
        Names::Nothing => {}
        Names::Type => list.push((|w, node| w.node = node, false)),
        Names::TwoTypes => {
            list.push((|w, node| w.node = node, false));
            list.push((|w, node| w.other = node, false));
        }
        Names::RecordType => list.push((|w, node| w.node = node, true)),
    }
    list
}

#[test]
fn a_node_outside_the_table_is_2_a_wide_type_3_a_large_type_4() {
    for call in calls() {
        let count = call.good_world().table.count;
        for (set, is_record_type) in named(&call) {
            for node in [count, count + 1, 1024, 65_536, 1 << 32, u64::MAX] {
                let mut world = call.good_world();
                set(&mut world, node);
                call.refuses(world, 2, 0, "a node outside");
            }
            if is_record_type {
                let mut world = call.good_world();
                set(&mut world, WIDE);
                call.refuses(world, 3, 0, "too wide");
                let mut world = call.good_world();
                set(&mut world, LARGE);
                call.refuses(world, 4, 0, "too large");
            }
        }
    }
}

#[test]
fn a_record_or_stream_outside_its_bytes_is_5() {
    for call in calls() {
        for which in 0..call.records {
            let world = call.good_world();
            let (bytes, _, node) = if which == 0 { &world.a } else { &world.b };
            let width = world.table.width(*node);
            let end = 8 * bytes.len() as u64;
            for offset in [end - width + 1, end, end + 1].into_iter().chain(FAR) {
                let mut world = call.good_world();
                let record = if which == 0 { &mut world.a } else { &mut world.b };
                record.1 = offset;
                call.refuses(world, 5, 0, "an offset that runs past");
            }
            let mut world = call.good_world();
            let record = if which == 0 { &mut world.a } else { &mut world.b };
            *record = (Vec::new(), 0, record.2);
            call.refuses(world, 5, 0, "no bytes");
        }
        if call.stream {
            for length in [17, 1 << 32].into_iter().chain(FAR) {
                call.refuses(World { length, ..call.good_world() }, 5, 0, "a length that runs past");
            }
            for position in [14, 16, 1 << 32].into_iter().chain(FAR) {
                call.refuses(World { position, ..call.good_world() }, 5, 0, "a position past the length");
            }
        }
    }
}

#[test]
fn a_record_that_ends_with_its_bytes_fits() {
    for call in calls().iter().filter(|call| call.records == 1 && !matches!(call.name, "as_left" | "as_right")) {
        let mut world = call.good_world();
        let width = world.table.width(world.a.2);
        world.a.1 = 8 * world.a.0.len() as u64 - width;
        call.accepts(world, "the last bits");
    }
    let lengths = calls().into_iter().find(|call| call.name == "padded_len").expect("it is there");
    let mut world = lengths.good_world();
    world.a = (vec![0; 2], 16, UNIT);
    lengths.accepts(world.clone(), "no width, at the very end");
    world.a.1 = 17;
    lengths.refuses(world.clone(), 5, 0, "no width, past the very end");
    world.a = (Vec::new(), 0, UNIT);
    lengths.accepts(world, "no width, no bytes");
}

#[test]
fn an_output_one_short_is_9_and_exactly_full_is_accepted() {
    for call in calls() {
        if let Some(needed) = call.out {
            let full = World { out: vec![0x77; needed], ..call.good_world() };
            call.accepts(full, "an output exactly full");
            for room in 0..needed {
                call.refuses(World { out: vec![0x77; room], ..call.good_world() }, 9, 0, "a short output");
            }
        }
        if call.values > 0 {
            let full = World { values: vec![1; call.values], ..call.good_world() };
            call.accepts(full, "as many places as values");
            for room in 0..call.values {
                call.refuses(World { values: vec![1; room], ..call.good_world() }, 9, 0, "too few places");
            }
        }
    }
}

#[test]
fn of_several_refusals_the_smallest_is_answered() {
    for call in calls() {
        // From the last rung up: each step breaks one thing more, and the number falls.
        let mut world = call.good_world();
        if call.out.is_some_and(|needed| needed > 0) {
            world.out.clear();
            call.refuses(world.clone(), 9, 0, "9 alone");
        }
        if call.records > 0 {
            world.a.1 = u64::MAX;
            call.refuses(world.clone(), 5, 0, "5 before 9");
        }
        if call.stream {
            world.length = u64::MAX;
            call.refuses(world.clone(), 5, 0, "5 before 9");
        }
        let names = named(&call);
        let record_types: Vec<_> = names.iter().filter(|(_, is_record_type)| *is_record_type).collect();
        if let Some((set, _)) = record_types.first() {
            set(&mut world, LARGE);
            call.refuses(world.clone(), 4, 0, "4 before 5");
            set(&mut world, WIDE);
            call.refuses(world.clone(), 3, 0, "3 before 4");
        }
        if let Some((set, _)) = names.last() {
            set(&mut world, u64::MAX);
            call.refuses(world.clone(), 2, 0, "2 before 3");
        }
        if call.table {
            world.table.group(30)[0] ^= 1;
            call.refuses(world.clone(), 1, 30, "1 before 2");
            world.table.group(12)[GROUP_BYTES - 1] ^= 1;
            call.refuses(world, 1, 12, "the first node at fault");
        }
    }
}

#[test]
fn early_ends_are_8_whatever_the_output() {
    for call in calls().iter().filter(|call| call.stream) {
        let end = call.accepts(call.good_world(), "the good world").position;
        for length in 2..end {
            for room in [0, 1, 110] {
                let world = World { length, out: vec![0x77; room], ..call.good_world() };
                call.refuses(world, 8, 0, "an early end");
            }
        }
        call.accepts(World { length: end, ..call.good_world() }, "exactly as many bits as needed");
    }
}

#[test]
fn numbers_and_lengths_outside_their_range_are_6() {
    let find = |name: &str| calls().into_iter().find(|call| call.name == name).expect("a call of that name");
    for (name, most) in [("u1", 1), ("u2", 3), ("u4", 15), ("word_width", 31), ("buffer_width", 12)] {
        let call = find(name);
        call.accepts(World { n: most, ..call.good_world() }, "the largest number");
        for n in [most + 1, 255, 256, 256 + most, 1 << 32].into_iter().chain(FAR) {
            call.refuses(World { n, ..call.good_world() }, 6, 0, "a number out of range");
        }
    }
    for name in ["is_buffer8", "buffer8_two_n_plus_one"] {
        let call = find(name);
        for n in [13, 14, 63, 64, 1 << 32].into_iter().chain(FAR) {
            call.refuses(World { n, ..call.good_world() }, 6, 0, "an n out of range");
        }
    }
    let call = find("word_from_bits");
    for n in [32, 33, 256 + 3].into_iter().chain(FAR) {
        call.refuses(World { n, ..call.good_world() }, 6, 0, "an n out of range");
    }
    for (name, length) in [("u8", 1), ("u16", 2), ("u32", 4), ("u64", 8), ("u128", 16), ("u256", 32), ("u512", 64)] {
        let call = find(name);
        for other in (0..70).filter(|other| *other != length) {
            call.refuses(World { data: vec![1; other], ..call.good_world() }, 6, 0, "another length");
        }
    }
    let call = find("from_byte_array");
    for length in (0..300usize).filter(|length| !length.is_power_of_two()) {
        call.refuses(World { data: vec![1; length], ..call.good_world() }, 6, 0, "no power of two");
    }
    for length in [1, 2, 4, 8, 32, 64] {
        call.refuses(World { data: vec![1; length], ..call.good_world() }, 7, 0, "a power of two, another word");
    }
    let call = find("buffer8_two_n_plus_one");
    for length in 2..10 {
        call.refuses(World { data: vec![1; length], ..call.good_world() }, 6, 0, "more than it holds");
    }
    let call = find("ctx8");
    for length in (0..70).filter(|length| *length != 32) {
        call.refuses(World { data: vec![1; length], ..call.good_world() }, 6, 0, "a midstate of another length");
    }
    for length in [64, 65, 200] {
        call.refuses(World { buffer: vec![1; length], ..call.good_world() }, 6, 0, "more than 63 buffered");
    }
}

#[test]
fn wrong_shapes_are_7() {
    let find = |name: &str| calls().into_iter().find(|call| call.name == name).expect("a call of that name");
    for (name, node) in [
        ("type_as_sum", PAIR),
        ("type_as_sum", UNIT),
        ("type_as_product", SUM),
        ("type_as_product", UNIT),
        ("as_word", SUM),
        ("as_word", UNIT),
        ("as_word", PAIR),
        ("unit", BIT),
        ("left", PAIR),
        ("left", BUFFER),
        ("right", BUFFER),
        ("right", BIT),
        ("product", SUM),
        ("product", BIT + 1),
        ("none", SUM),
        ("none", PAIR),
        ("some", SUM),
        ("some", BIT),
        ("u1", BIT + 1),
        ("u2", BIT),
        ("u4", BYTE),
        ("u8", BYTE + 1),
        ("u16", BYTE),
        ("u512", BYTE),
        ("word_product", BIT),
        ("word_product", SUM),
        ("word_from_bits", BIT),
        ("buffer8_two_n_plus_one", BYTE),
        ("ctx8", BUFFER),
        ("prune", SUM),
        ("prune", BYTE),
    ] {
        let call = find(name);
        call.refuses(World { node, ..call.good_world() }, 7, 0, "another shape");
    }
    for (name, other) in [("as_left", "as_right"), ("as_right", "as_left"), ("as_left", "as_product")] {
        let call = find(name);
        let mut world = find(other).good_world();
        if other == "as_product" {
            world.a.2 = PAIR;
        }
        call.refuses(world, 7, 0, "another tag or kind");
    }
}

#[test]
fn files_are_judged_whole_before_9() {
    let call = calls().into_iter().find(|call| call.name == "read_table").expect("it is there");
    let file = quelomavunt::samples::TABLE_S.to_vec();
    for end in 0..file.len() {
        // Every number of this file is one byte long, so the number that is missing starts at the end.
        call.refuses(World { data: file[..end].to_vec(), ..call.good_world() }, 1, end as u64, "cut short");
    }
    for surplus in [vec![0], vec![1, 2], vec![0xFF; 9]] {
        let data = [file.clone(), surplus].concat();
        call.refuses(World { data, ..call.good_world() }, 1, 29, "a surplus byte");
    }
    for column in 0..3 {
        let mut world = call.good_world();
        shorten(&mut world.table, column, 9);
        call.refuses(world.clone(), 9, 0, "a short column");
        world.table.groups.clear();
        world.data.push(0);
        call.refuses(world.clone(), 1, 29, "a surplus byte, a short column and no groups");
        world.data.truncate(3);
        call.refuses(world, 1, 3, "a cut file, a short column and no groups");
        let mut world = call.good_world();
        shorten(&mut world.table, column, 10);
        call.accepts(world, "columns exactly as long as the count");
    }
}
