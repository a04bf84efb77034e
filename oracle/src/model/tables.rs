//! A table in memory and in a file: what is sound, and where it is at fault.

use super::ladder::{refuse_if, unsound, Refusal, Test};
use super::types::{Shape, Types};
use crate::library::{Columns, OwnedColumns, GROUP_BYTES};

const MOST_NODES: u64 = 1024;

/// The entries of a table: kinds and sides, without facts.
#[derive(Clone, Debug, Default, PartialEq, Eq)]
pub struct Entries {
    pub kinds: Vec<u8>,
    pub lefts: Vec<u16>,
    pub rights: Vec<u16>,
}

/// The shape that an entry says, if it is sound.
fn shape_of(node: usize, kind: u8, left: u16, right: u16) -> Option<Shape> {
    let (l, r) = (usize::from(left), usize::from(right));
    match kind {
        0 if l == 0 && r == 0 => Some(Shape::Unit),
        1 if l < node && r < node => Some(Shape::Sum(l, r)),
        2 if l < node && r < node => Some(Shape::Product(l, r)),
        _ => None,
    }
}

/// The count is in range, and columns and groups that must hold so many nodes do: else 1 at 0.
fn count_fits(count: u64, lengths: &[usize]) -> Result<usize, Refusal> {
    let in_range = (1..=MOST_NODES).contains(&count);
    if in_range && lengths.iter().all(|length| *length as u64 >= count) {
        Ok(count as usize)
    } else {
        Err(unsound(0))
    }
}

/// How many whole groups so many bytes hold.
fn whole_groups(bytes: usize) -> usize {
    bytes / GROUP_BYTES
}

/// A node's facts laid as its group: numbers low byte first, one after the other.
fn group_of(types: &Types, node: usize) -> Vec<u8> {
    let mut group = Vec::with_capacity(GROUP_BYTES);
    group.extend(types.width(node).to_le_bytes());
    group.extend(types.size(node).to_le_bytes());
    group.push(u8::from(types.padded(node)));
    group.extend((types.class(node) as u16).to_le_bytes());
    group.extend(types.least(node).to_le_bytes());
    group
}

/// A table with facts: sound, or 1 at the first node whose entry or any byte of whose group is wrong.
pub fn judge(t: &Columns) -> Result<Types, Refusal> {
    let lengths = [t.kinds.len(), t.lefts.len(), t.rights.len(), whole_groups(t.groups.len())];
    let count = count_fits(t.count, &lengths)?;
    let mut types = Types::default();
    for (node, group) in t.groups.chunks_exact(GROUP_BYTES).enumerate().take(count) {
        let shape = shape_of(node, t.kinds[node], t.lefts[node], t.rights[node]).ok_or(unsound(node))?;
        types.add(shape);
        if group != group_of(&types, node) {
            return Err(unsound(node));
        }
    }
    Ok(types)
}

/// A table without facts: its types, or 1 at the first node whose entry is wrong.
pub fn judge_entries(kinds: &[u8], lefts: &[u16], rights: &[u16], count: u64) -> Result<Types, Refusal> {
    let count = count_fits(count, &[kinds.len(), lefts.len(), rights.len()])?;
    let mut types = Types::default();
    for node in 0..count {
        types.add(shape_of(node, kinds[node], lefts[node], rights[node]).ok_or(unsound(node))?);
    }
    Ok(types)
}

/// 9: the groups are too short for `count` nodes.
pub fn facts_fit(columns: &OwnedColumns, count: usize) -> Test {
    refuse_if(whole_groups(columns.groups.len()) < count, 9)
}

/// 9: an entries column is too short for `count` nodes.
pub fn entries_fit(columns: &OwnedColumns, count: usize) -> Test {
    let shortest = [columns.kinds.len(), columns.lefts.len(), columns.rights.len()];
    refuse_if(shortest.iter().any(|length| *length < count), 9)
}

/// Writes the facts of all types; bytes past them stay.
pub fn write_facts(types: &Types, columns: &mut OwnedColumns) {
    let groups: Vec<u8> = (0..types.count()).flat_map(|node| group_of(types, node)).collect();
    columns.groups[..groups.len()].copy_from_slice(&groups);
}

/// Writes the entries; what lies past them stays.
pub fn write_entries(entries: &Entries, columns: &mut OwnedColumns) {
    let count = entries.kinds.len();
    columns.kinds[..count].copy_from_slice(&entries.kinds);
    columns.lefts[..count].copy_from_slice(&entries.lefts);
    columns.rights[..count].copy_from_slice(&entries.rights);
}

/// A table with its right facts, from sound entries.
pub fn with_facts(entries: &Entries) -> OwnedColumns {
    let count = entries.kinds.len();
    let types = judge_entries(&entries.kinds, &entries.lefts, &entries.rights, count as u64).expect("sound entries");
    let mut columns = OwnedColumns::marked(count);
    write_entries(entries, &mut columns);
    write_facts(&types, &mut columns);
    columns
}

/// One number of the file at `at`: its value and the offset after it. None if it is cut off, not shortest, or has
/// more than two groups.
fn number_at(file: &[u8], at: usize) -> Option<(u64, usize)> {
    let first = u64::from(*file.get(at)?);
    if first < 128 {
        return Some((first, at + 1));
    }
    let second = u64::from(*file.get(at + 1)?);
    if second == 0 || second >= 128 {
        return None;
    }
    Some((first - 128 + 128 * second, at + 2))
}

/// A number of the file that must be below `end` and not below `least`; else 1 at its first byte.
fn number_in(file: &[u8], at: usize, least: u64, end: u64) -> Result<(u64, usize), Refusal> {
    match number_at(file, at) {
        Some((value, after)) if least <= value && value < end => Ok((value, after)),
        _ => Err(unsound(at)),
    }
}

/// The entries of a file, or 1 at the first faulty number or surplus byte.
pub fn read_file(file: &[u8]) -> Result<Entries, Refusal> {
    let (count, mut at) = number_in(file, 0, 1, MOST_NODES + 1)?;
    let mut entries = Entries::default();
    for node in 0..count {
        let (kind, after_kind) = number_in(file, at, 0, 3)?;
        at = after_kind;
        let (mut left, mut right) = (0, 0);
        if kind != 0 {
            (left, at) = number_in(file, at, 0, node)?;
            (right, at) = number_in(file, at, 0, node)?;
        }
        entries.kinds.push(kind as u8);
        entries.lefts.push(left as u16);
        entries.rights.push(right as u16);
    }
    if at < file.len() {
        return Err(unsound(at));
    }
    Ok(entries)
}
