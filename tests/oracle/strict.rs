//! Strict loading, which 000 does not have: what it has to answer is told by the tolerant load, which 000 is compared
//! with, and by the two formats of each table, read once more.
use crate::calls;
use crate::compare::{hold, Verdict};
use crate::fonts::word;
use crate::reading::{directory_entry, is_known, u32_at};
use crate::structs::{FontAnswer, Record};
use crate::tally::Tally;
use std::ops::Range;

const METRICS: u32 = 4;

/// a known table: its type, the format in the directory, where that stands, and the table's bytes
struct Known {
    kind: u32,
    form: u32,
    at: usize,
    bytes: Range<usize>,
}

impl Known {
    /// none of an unknown table, or of one that begins past the file
    fn of(b: &[u8], entry: usize) -> Option<Known> {
        let [kind, form, size, offset] = directory_entry(b, entry);
        let known = is_known(kind) && offset as usize <= b.len();
        let end = b.len().min(offset as usize + size as usize);
        known.then(|| Known { kind, form, at: 8 + 16 * entry + 4, bytes: offset as usize..end })
    }

    /// its own format, where it has the four bytes, if that is not the directory's
    fn other_format(&self, b: &[u8]) -> Option<u32> {
        (self.bytes.len() >= 4).then(|| u32_at(b, self.bytes.start, false)).filter(|&own| own != self.form)
    }
}

/// the known tables of a whole directory, with the numbers of their entries
fn known(b: &[u8]) -> impl Iterator<Item = (usize, Known)> + '_ {
    (0..u32_at(b, 4, false) as usize).filter_map(|entry| Some((entry, Known::of(b, entry)?)))
}

/// the first entry of a whole directory whose table has two formats that differ
pub fn differing(b: &[u8]) -> Option<u64> {
    known(b).find(|(_, table)| table.other_format(b).is_some()).map(|(entry, _)| entry as u64)
}

/// number and place, of what the tolerant load answers
fn expected(b: &[u8], tolerant: &FontAnswer) -> (u32, u64) {
    let two_formats = match tolerant.refusal {
        1..=4 => None,
        5..=7 => differing(b).filter(|&entry| entry <= tolerant.place),
        _ => differing(b),
    };
    two_formats.map_or((tolerant.refusal, tolerant.place), |entry| (27, entry))
}

/// the record of a refusal: each number 0, each bool false
fn no_record() -> Record {
    // SAFETY: it is made of integers and bools, and all bits 0 are one of their values
    unsafe { std::mem::zeroed() }
}

pub fn compare(b: &[u8], tolerant: &FontAnswer, tally: &mut Tally) -> Verdict {
    let (strict, expected) = (calls::load_strict(b), expected(b, tolerant));
    tally.strict(expected.0);
    let said = format!("strict loading answers {} at {}", strict.refusal, strict.place);
    hold((strict.refusal, strict.place) == expected, &format!("{said}, by the two formats it is {expected:?}"))?;
    let rec = if strict.refusal == 27 { no_record() } else { tolerant.rec };
    hold(strict.rec == rec, "strict loading gives another record")
}

/// A font that loads, with the format that does not count made the other one wherever they differ: it has the same
/// record, and loads strictly. None where that would change bytes of another table too, or of the directory and what
/// stands before it.
pub fn agreeing(b: &[u8]) -> Option<Vec<u8>> {
    let mut made = b.to_vec();
    let directory = 0..8 + 16 * u32_at(b, 4, false) as usize;
    for (entry, table) in known(b) {
        let Some(own) = table.other_format(b) else { continue };
        let in_table = table.kind == METRICS;
        let (at, new) = if in_table { (table.bytes.start, table.form) } else { (table.at, own) };
        let touched = |bytes: &Range<usize>| bytes.start < at + 4 && at < bytes.end;
        let elsewhere = known(b).any(|(k, other)| touched(&other.bytes) && !(in_table && k == entry));
        if elsewhere || in_table && touched(&directory) {
            return None;
        }
        made[at..at + 4].copy_from_slice(&word(new));
    }
    Some(made)
}
