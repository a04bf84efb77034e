//! Tables.

use crate::library::{Answer, Request};
use crate::model::ladder::Test;
use crate::model::tables::{entries_fit, facts_fit, judge_entries, read_file, write_entries, write_facts};
use crate::model::types::Types;

pub fn read_table(q: &Request, a: &mut Answer) -> Test {
    let entries = read_file(q.data)?;
    let count = entries.kinds.len();
    entries_fit(&a.columns, count)?;
    facts_fit(&a.columns, count)?;
    let types = judge_entries(&entries.kinds, &entries.lefts, &entries.rights, count as u64)?;
    write_entries(&entries, &mut a.columns);
    write_facts(&types, &mut a.columns);
    a.values[0] = count as u64;
    Ok(())
}

pub fn fill_facts(q: &Request, a: &mut Answer) -> Test {
    let types = judge_entries(q.table.kinds, q.table.lefts, q.table.rights, q.table.count)?;
    facts_fit(&a.columns, types.count())?;
    write_facts(&types, &mut a.columns);
    Ok(())
}

/// A table that has types is sound.
pub fn check_table(_: &Types, _: &Request, _: &mut Answer) -> Test {
    Ok(())
}
