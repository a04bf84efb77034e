//! Asks one request of everybody and keeps the count.
//!
//! * the archive against the model: result, accepted values, position, output bytes, columns and groups, all of them
//! * the crate's text against the model, where the text has an answer
//! * least compact length and width of every type that an accepted request names, against the type's structure
//! * the compact length of every record that an accepted request hands in, shows or makes, against both
//!
//! Everybody is asked for these too, by `facts_of` and `compact_len`. The lengths that `to_compact_bits` and
//! `from_compact_bits` tell are held besides.
//!
//! What counts as agreement, and which differences are listed, is `oracle::agreement`'s to say.

use crate::lengths::{Bounds, Met};
use oracle::agreement::{self, Listed, Verdict};
use oracle::library::{Answer, Call, Columns, Library, Request};
use oracle::model::Model;
use oracle::published::Published;
use std::fmt::Write;

/// Counts of one call.
#[derive(Clone, Debug, Default)]
pub struct Tally {
    pub archive: u64,
    pub archive_differs: u64,
    pub text: u64,
    pub text_differs: u64,
    pub accepted: u64,
    pub refused: [u64; 10],
}

/// Counts of what was held to least compact lengths.
#[derive(Clone, Debug, Default)]
pub struct Lengths {
    /// Accepted answers of `facts_of`, each held to the structure of its type.
    pub facts: u64,
    /// Accepted records whose compact length was held between the least and the width of their type.
    pub records: u64,
    /// Types all of whose records were met, so that the shortest must have just the least.
    pub reached: u64,
}

/// Everybody who is asked, and the counts.
pub struct Run<'l> {
    pub model: Model,
    pub published: Published,
    archive: Option<&'l dyn Library>,
    pub tallies: Vec<Tally>,
    pub listed: [u64; Listed::ALL.len()],
    pub model_faults: u64,
    pub lengths: Lengths,
    met: Met,
    shown: u64,
    expected: Answer,
    given: Answer,
}

const MOST_SHOWN: u64 = 8;

impl<'l> Run<'l> {
    /// A run that asks the archive too, if there is one.
    pub fn new(archive: Option<&'l dyn Library>) -> Run<'l> {
        Run {
            model: Model::new(),
            published: Published::new(),
            archive,
            tallies: vec![Tally::default(); Call::ALL.len()],
            listed: [0; Listed::ALL.len()],
            model_faults: 0,
            lengths: Lengths::default(),
            met: Met::default(),
            shown: 0,
            expected: Answer::default(),
            given: Answer::default(),
        }
    }

    /// Whether there is an archive to ask.
    pub fn asks_the_archive(&self) -> bool {
        self.archive.is_some()
    }

    /// Asks a request of everybody. Answers with the model's answer.
    pub fn check(&mut self, q: &Request) -> &Answer {
        self.compare(q);
        let verdict = agreement::judge(&self.published, q, &self.expected);
        self.count_text(q, verdict);
        if self.expected.code == 0 && matches!(q.call, Call::Equal | Call::Compare) {
            let verdict = agreement::judge_in_place(&self.published, q, &self.expected);
            self.count_text(q, verdict);
        }
        self.hold(q);
        &self.expected
    }

    /// Asks a request of archive and model alone: for input that the crate's text has no answer to.
    pub fn check_archive(&mut self, q: &Request) -> &Answer {
        self.compare(q);
        self.hold(q);
        &self.expected
    }

    /// Asks archive and model.
    fn compare(&mut self, q: &Request) {
        self.model.ask(q, &mut self.expected);
        let tally = &mut self.tallies[q.call.number()];
        match self.expected.number() {
            0 => tally.accepted += 1,
            number => tally.refused[number as usize] += 1,
        }
        if let Some(archive) = self.archive {
            archive.ask(q, &mut self.given);
            tally.archive += 1;
            if self.given != self.expected {
                tally.archive_differs += 1;
                let (given, expected) = (short(&self.given), short(&self.expected));
                self.show(q, "the archive", &given, &expected);
            }
        }
    }

    /// Holds the types and records of an accepted request to the structure of the types. Facts are asked for once in a
    /// table, and a record is not measured again if it is the one of its type that was measured last.
    fn hold(&mut self, q: &Request) {
        if self.expected.code != 0 || !q.call.takes_a_table() {
            return;
        }
        self.met.turn_to(&q.table);
        // The answer is kept: whoever asked looks at it after this, and records lie in it.
        let answer = std::mem::take(&mut self.expected);
        let records = answer.records(q);
        if q.call == Call::FactsOf {
            self.hold_facts(q, &answer);
        }
        for node in q.nodes().chain(records.iter().map(|record| record.node)) {
            if !self.met.has_met(node) {
                self.check_accepted(&Request { node, ..Request::new(Call::FactsOf, q.table) });
            }
        }
        match q.call {
            Call::CompactLen => {
                self.hold_length(q, q.a.node, answer.values[0]);
                self.met.note_measured(&q.a);
            }
            Call::ToCompactBits => self.hold_length(q, q.a.node, answer.values[0]),
            Call::FromCompactBits => self.hold_length(q, q.node, answer.position - q.stream.position),
            _ => {}
        }
        for a in records {
            if !self.met.has_measured(&a) {
                self.check_accepted(&Request { a, ..Request::new(Call::CompactLen, q.table) });
            }
        }
        self.expected = answer;
    }

    /// Asks everybody for what must be accepted, being about a type or record that was.
    fn check_accepted(&mut self, q: &Request) {
        if self.check(q).code != 0 {
            self.model_fault(q, "accepted");
        }
    }

    /// Holds an answer of `facts_of`.
    fn hold_facts(&mut self, q: &Request, answer: &Answer) {
        let said = Bounds { least: answer.values[7], width: answer.values[0] };
        let found = self.met.meet(q.node);
        self.lengths.facts += 1;
        if said != found {
            self.model_fault(q, &format!("{found:?}"));
        }
    }

    /// Holds the compact length of a record.
    fn hold_length(&mut self, q: &Request, node: u64, bits: u64) {
        let Bounds { least, width } = self.met.meet(node);
        self.lengths.records += 1;
        if bits < least || width < bits {
            self.model_fault(q, &format!("{least} to {width} bits may be, and not {bits}"));
        }
    }

    /// Every record of a type was met, and the shortest has so many compact bits: `facts_of` must say this number.
    pub fn check_reached(&mut self, table: Columns, node: u64, fewest: u64) {
        let q = Request { node, ..Request::new(Call::FactsOf, table) };
        self.lengths.reached += 1;
        if self.check(&q).values[7] != fewest {
            self.model_fault(&q, &format!("the shortest record has {fewest} bits"));
        }
    }

    /// A fault that the run finds in the model itself, by a definition that is not the model's.
    pub fn model_fault(&mut self, q: &Request, what: &str) {
        self.model_faults += 1;
        self.show(q, "a definition", what, "otherwise");
    }

    fn count_text(&mut self, q: &Request, verdict: Verdict) {
        let tally = &mut self.tallies[q.call.number()];
        tally.text += u64::from(verdict != Verdict::NoAnswer);
        match verdict {
            Verdict::NoAnswer | Verdict::Agrees => {}
            Verdict::Differs(listed) => self.listed[listed as usize] += 1,
            Verdict::Beyond(said) => {
                tally.text_differs += 1;
                let expected = short(&self.expected);
                self.show(q, "the crate's text", &said, &expected);
            }
        }
    }

    /// Compares the distances of views by the crate's `Debug` text. The request is one of a view.
    pub fn check_distances(&mut self, q: &Request) {
        self.model.ask(q, &mut self.expected);
        let distances = self.published.view_distances(q);
        let rule = (self.expected.code == 0)
            .then(|| self.expected.values.chunks_exact(2).map(|view| view[0] - q.a.offset).collect::<Vec<_>>());
        self.tallies[q.call.number()].text += 1;
        if distances != rule {
            self.tallies[q.call.number()].text_differs += 1;
            self.show(q, "the text's distances", &format!("{distances:?}"), &format!("{rule:?}"));
        }
    }

    /// Counts an early end after which the crate's iterator has moved.
    pub fn note_moved_iterator(&mut self, q: &Request) {
        let types = self.published.types(&q.table);
        if oracle::published::moved_by_early_end(&types, q).is_some_and(|moved| moved > 0) {
            self.listed[Listed::MovedIterator as usize] += 1;
        }
    }

    fn show(&mut self, q: &Request, who: &str, said: &str, expected: &str) {
        self.shown += 1;
        if self.shown <= MOST_SHOWN {
            println!("DIFFERENCE in {}: {who} says {said}, the model {expected}", q.call.name());
            println!("    {}", clipped(&format!("{q:?}"), 900));
        }
    }
}

fn short(answer: &Answer) -> String {
    let mut text = String::new();
    let _ = write!(text, "{} at {}", answer.code % 256, answer.code / 256);
    let _ = write!(text, ", values {:?}, position {}, out {:02x?}", answer.values, answer.position, answer.out);
    if !answer.columns.kinds.is_empty() {
        let _ = write!(text, ", columns {:?}", answer.columns);
    }
    clipped(&text, 400)
}

fn clipped(text: &str, most: usize) -> String {
    text.chars().take(most).collect()
}
