//! Table files and tables in memory: every short file, sound files with something wrong, columns and groups of all
//! lengths.
//!
//! The crate has no tables, so these requests compare the archive with the model alone.

use super::groups::change_group;
use super::Size;
use crate::run::Run;
use oracle::library::{Call, OwnedColumns, Request, GROUP_BYTES};
use oracle::supply::{put_number, Random, TableMaker};

pub fn sweep(run: &mut Run, size: &Size) {
    let mut random = size.random(110);
    short_files(run, size);
    let columns = OwnedColumns::marked(1030);
    for _ in 0..size.pick(30, 400) {
        let maker = random_maker(&mut random);
        let file = maker.file();
        read(run, &file, &columns);
        cut_and_changed(run, &mut random, &file, &columns, size);
        columns_of_all_lengths(run, &mut random, &maker);
    }
    full_tables(run, &mut random, &columns);
}

fn read(run: &mut Run, file: &[u8], columns: &OwnedColumns) {
    run.check_archive(&Request { data: file, ..Request::new(Call::ReadTable, columns.lend()) });
}

/// All files of up to two bytes, and longer ones over the bytes that matter.
fn short_files(run: &mut Run, size: &Size) {
    let columns = OwnedColumns::marked(6);
    read(run, &[], &columns);
    for a in 0..=255u8 {
        read(run, &[a], &columns);
        for b in 0..=255u8 {
            read(run, &[a, b], &columns);
        }
    }
    let letters = [0, 1, 2, 3, 4, 0x7F, 0x80, 0x81, 0x82, 0xFF];
    for length in 3..=size.pick(5, 6) as u32 {
        for number in 0..10u64.pow(length) {
            let file: Vec<u8> = (0..length).map(|i| letters[(number / 10u64.pow(i) % 10) as usize]).collect();
            read(run, &file, &columns);
        }
    }
}

fn random_maker(random: &mut Random) -> TableMaker {
    let mut maker = TableMaker::new();
    let count = 1 + random.below(*random.clone().pick(&[3, 12, 150, 400]));
    maker.push(0, 0, 0);
    for node in 1..count {
        let kind = random.below(7).min(2) as u8;
        let (left, right) = (random.below(node) as u16, random.below(node) as u16);
        if kind == 0 {
            maker.push(0, 0, 0);
        } else {
            maker.push(1 + (left + right) as u8 % 2, left, right);
        }
    }
    maker
}

/// A sound file cut at every point, with a byte changed, left out or added.
fn cut_and_changed(run: &mut Run, random: &mut Random, file: &[u8], columns: &OwnedColumns, size: &Size) {
    for end in 0..file.len().min(300) {
        read(run, &file[..end], columns);
    }
    for _ in 0..size.pick(100, 1000) {
        let mut changed = file.to_vec();
        for _ in 0..1 + random.below(2) {
            let at = random.below(changed.len() as u64) as usize;
            match random.below(4) {
                0 => changed[at] = random.draw() as u8,
                1 => changed[at] ^= 0x80,
                2 => changed.insert(at, *random.pick(&[0, 1, 2, 0x80, 0xFF])),
                _ if changed.len() > 1 => {
                    changed.remove(at);
                }
                _ => changed.push(0),
            }
        }
        read(run, &changed, columns);
    }
}

/// Columns and groups shorter than, as long as and longer than the count needs, each in turn; in memory too.
fn columns_of_all_lengths(run: &mut Run, random: &mut Random, maker: &TableMaker) {
    let file = maker.file();
    let count = maker.count();
    let sound = maker.finish();
    let mut written_and_read = |change: &dyn Fn(&mut OwnedColumns)| {
        let mut columns = OwnedColumns::marked(count + 1);
        change(&mut columns);
        read(run, &file, &columns);
        let mut facts = OwnedColumns::marked(count + 1);
        facts.kinds = sound.kinds.clone();
        facts.lefts = sound.lefts.clone();
        facts.rights = sound.rights.clone();
        facts.count = count as u64;
        change(&mut facts);
        run.check_archive(&Request::new(Call::FillFacts, facts.lend()));
        let mut table = sound.clone();
        change(&mut table);
        run.check_archive(&Request::new(Call::CheckTable, table.lend()));
    };
    for column in 0..4 {
        for length in [0, count - 1, count, count + 1] {
            written_and_read(&|columns| resize(columns, column, length));
        }
    }
    // Groups one byte short, and one byte longer than they need be.
    for length in [GROUP_BYTES * count - 1, GROUP_BYTES * count + 1] {
        written_and_read(&|columns| columns.groups.resize(length, 0));
    }
    for _ in 0..60 {
        let mut table = sound.clone();
        for _ in 0..1 + random.below(2) {
            change(random, &mut table);
        }
        run.check_archive(&Request::new(Call::CheckTable, table.lend()));
        run.check_archive(&Request::new(Call::FillFacts, table.lend()));
    }
}

/// Gives one of the three columns, or the groups, the length of so many nodes.
fn resize(columns: &mut OwnedColumns, column: usize, nodes: usize) {
    match column {
        0 => columns.kinds.resize(nodes, 0),
        1 => columns.lefts.resize(nodes, 0),
        2 => columns.rights.resize(nodes, 0),
        _ => columns.groups.resize(GROUP_BYTES * nodes, 0),
    }
}

fn change(random: &mut Random, table: &mut OwnedColumns) {
    let node = random.below(table.kinds.len() as u64) as usize;
    match random.below(8) {
        0 => table.kinds[node] = random.below(4) as u8,
        1 => table.lefts[node] = random.below(node as u64 + 2) as u16,
        2 => table.rights[node] = random.below(node as u64 + 2) as u16,
        3..=6 => change_group(random, table, node),
        _ => table.count = random.below(table.count + 3),
    }
}

/// Tables of exactly 1,024 nodes and counts past them; numbers of two and three groups.
fn full_tables(run: &mut Run, random: &mut Random, columns: &OwnedColumns) {
    let mut maker = TableMaker::new();
    maker.push(0, 0, 0);
    for node in 1..1024u64 {
        maker.push(1 + (node % 2) as u8, (node - 1) as u16, random.below(node) as u16);
    }
    let file = maker.file();
    read(run, &file, columns);
    read(run, &file[..file.len() - 1], columns);
    read(run, &[&file[..], &[0]].concat(), columns);
    read(run, &file, &OwnedColumns::marked(1024));
    read(run, &file, &OwnedColumns::marked(1023));
    for count in [0u16, 1, 127, 128, 129, 1023, 1024, 1025, 2047, 16_383] {
        let mut file = Vec::new();
        put_number(&mut file, count);
        file.extend(vec![0; usize::from(count).min(1030)]);
        read(run, &file, columns);
        file.push(0);
        read(run, &file, columns);
    }
    for start in [&[0x81, 0x00][..], &[0x80, 0x00], &[0x80, 0x80, 0x01], &[0x82, 0x80, 0x00], &[0x80], &[0xFF, 0x7F]] {
        read(run, &[start, &[0; 40]].concat(), columns);
        read(run, start, columns);
        // The same numbers as a kind and as a side.
        read(run, &[&[2, 0], start, &[0; 4]].concat(), columns);
        read(run, &[&[2, 0, 1], start, &[0; 4]].concat(), columns);
        read(run, &[&[2, 0, 1, 0], start].concat(), columns);
    }
    // In memory: a full table, and one node more than may be.
    let mut table = maker.finish();
    run.check_archive(&Request::new(Call::CheckTable, table.lend()));
    for column in 0..4 {
        resize(&mut table, column, 1025);
    }
    table.count = 1025;
    run.check_archive(&Request::new(Call::CheckTable, table.lend()));
    run.check_archive(&Request::new(Call::FillFacts, table.lend()));
}
