//! How much was compared, and how.
use crate::asked::{Function, FUNCTIONS};
use crate::departures::{Departure, DEPARTURES};
use crate::sides::Kind;
use std::collections::BTreeMap;

#[derive(Default)]
pub struct Tally {
    pub fonts: u64,
    pub calls: u64,
    kinds: BTreeMap<(usize, usize), u64>,
    used: BTreeMap<usize, u64>,
    coloured: BTreeMap<usize, u64>,
    /// by what vetting answers, fonts; and of those refused 27 the copies with formats that agree
    vetted: [BTreeMap<u32, u64>; 2],
    /// fonts by what strict loading answers: the record, a refusal of loading, 27
    strict: [u64; 3],
    /// drawings of rows in another order that 000 was given in the usual one, and those of them with pixels coloured
    usual_rows: [u64; 2],
    /// without 000: refused 15
    pub outside: u64,
    /// without 000: refused 19, or stepped through as Rust's own decoder does
    pub utf8: u64,
    /// with the reason
    pub not_compared: BTreeMap<&'static str, u64>,
    families: Vec<(String, u64, u64)>,
}

fn passed_and_refused(vetted: &BTreeMap<u32, u64>) -> String {
    let refused: Vec<String> =
        vetted.iter().filter(|(&n, _)| n != 0).map(|(n, count)| format!("{n}: {count}")).collect();
    format!("{} pass and others are refused ({})", vetted.get(&0).unwrap_or(&0), refused.join(", "))
}

impl Tally {
    pub fn called(&mut self, function: Function, kind: Kind) {
        self.calls += 1;
        *self.kinds.entry((function as usize, kind as usize)).or_default() += 1;
    }

    /// a call from which 000 returned had coloured pixels
    pub fn coloured(&mut self, function: Function) {
        *self.coloured.entry(function as usize).or_default() += 1;
    }

    /// with this number, or 0
    pub fn vetted(&mut self, number: u32, copy: bool) {
        *self.vetted[usize::from(copy)].entry(number).or_default() += 1;
    }

    /// fonts in vetting, and copies of them with formats that agree
    pub fn refused_27_and_copies(&self) -> [u64; 2] {
        [self.vetted[0].get(&27).copied().unwrap_or(0), self.vetted[1].values().sum()]
    }

    /// with this number, or 0
    pub fn strict(&mut self, number: u32) {
        self.strict[match number {
            0 => 0,
            27 => 2,
            _ => 1,
        }] += 1;
    }

    pub fn strictly_loaded(&self) -> [u64; 3] {
        self.strict
    }

    /// those that were, of all calls
    pub fn compared(&self) -> u64 {
        self.calls - self.not_compared.values().sum::<u64>()
    }

    pub fn used(&mut self, departure: Departure) {
        *self.used.entry(departure as usize).or_default() += 1;
    }

    pub fn not_compared(&mut self, why: &'static str) {
        *self.not_compared.entry(why).or_default() += 1;
    }

    pub fn in_usual_rows(&mut self, coloured: bool) {
        self.usual_rows[0] += 1;
        self.usual_rows[1] += u64::from(coloured);
    }

    /// how many of them coloured pixels
    pub fn coloured_in_usual_rows(&self) -> u64 {
        self.usual_rows[1]
    }

    /// ends a family: what was counted since the last one
    pub fn family(&mut self, name: &str) {
        let (fonts, calls) = self.families.iter().fold((0, 0), |(f, c), (_, fonts, calls)| (f + fonts, c + calls));
        self.families.push((name.to_string(), self.fonts - fonts, self.calls - calls));
        let (name, fonts, calls) = self.families.last().unwrap();
        println!("{name}: {fonts} fonts, {calls} calls");
    }

    pub fn count(&self, function: Function, kind: Kind) -> u64 {
        self.kinds.get(&(function as usize, kind as usize)).copied().unwrap_or(0)
    }

    pub fn print(&self) {
        for (function, name) in FUNCTIONS.into_iter().filter(|(function, _)| *function != Function::Vet) {
            let [returned, nothing, stopped] =
                [Kind::Returned, Kind::Nothing, Kind::Stopped].map(|kind| self.count(function, kind));
            let coloured = match self.coloured.get(&(function as usize)) {
                Some(count) => format!(" ({count} with pixels coloured)"),
                None => String::new(),
            };
            println!("{name}: 000 returned {returned}{coloured}, None {nothing}, did not return {stopped}");
        }
        for (departure, name) in DEPARTURES {
            println!("departure {name}: {}", self.used.get(&(departure as usize)).unwrap_or(&0));
        }
        let [all, coloured] = self.usual_rows;
        println!("rows in another order, given to 000 in the usual one: {all} drawings agree ({coloured} with pixels)");
        for (why, count) in &self.not_compared {
            println!("not compared, because {why}: {count}");
        }
        let [loaded, refused, differing] = self.strict;
        println!(
            "strict loading: {loaded} fonts with the record of loading, {refused} with its refusal, {differing} \
             refused 27 at the first table whose own format is not the directory's"
        );
        let [fonts, copies] = self.vetted.each_ref().map(passed_and_refused);
        println!("vetting: of the fonts {fonts}, as 000's answers and the two formats tell");
        let [_, count] = self.refused_27_and_copies();
        println!("of those refused 27, {count} vetted once more with formats that agree: {copies}");
        println!("arguments outside the limits: {} calls of the port, each refused 15", self.outside);
        println!("UTF-8: {} calls of the port agree with Rust's own decoder", self.utf8);
    }

    pub fn never_used(&self) -> Vec<&'static str> {
        DEPARTURES.iter().filter(|(d, _)| !self.used.contains_key(&(*d as usize))).map(|(_, name)| *name).collect()
    }
}
