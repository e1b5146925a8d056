//! Calls with lent buffers, or other things, compared under one name: what they show, and the first
//! difference.

use super::{agreeing, inputs};
use crate::coverage::{add, Features, Kind};
use crate::parts::in_parts;
use std::collections::BTreeMap;

pub struct Compared<T: 'static> {
    name: &'static str,
    calls: u64,
    /// What they are called.
    noun: &'static str,
    /// Sums by their names, besides.
    sums: BTreeMap<&'static str, u64>,
    kinds: &'static [Kind<T>],
    shown: Vec<Features<T>>,
    difference: Option<String>,
}

impl<T> Compared<T> {
    pub fn new(name: &'static str, kinds: &'static [Kind<T>]) -> Compared<T> {
        Compared {
            name,
            calls: 0,
            noun: "calls",
            sums: BTreeMap::new(),
            kinds,
            shown: kinds.iter().map(|(.., of)| Features::new(of)).collect(),
            difference: None,
        }
    }

    /// Things of another name instead of calls.
    pub fn counting(self, noun: &'static str) -> Compared<T> {
        Compared { noun, ..self }
    }

    /// The calls of so many seeds.
    pub fn generated(
        kinds: &'static [Kind<T>],
        seeds: u64,
        compare: impl Fn(&mut Compared<T>, u64) + Sync,
    ) -> Compared<T> {
        Compared::new("generated", kinds).with(seeds, compare)
    }

    /// With the calls of so many seeds from 0 on, or of a hundredth of them where few are enough.
    pub fn with(
        mut self,
        seeds: u64,
        compare: impl Fn(&mut Compared<T>, u64) + Sync,
    ) -> Compared<T> {
        let seeds: Vec<u64> = (0..inputs(seeds)).collect();
        let parts = in_parts(&seeds, |seeds| {
            let mut part = Compared::new(self.name, self.kinds);
            seeds.iter().for_each(|seed| compare(&mut part, *seed));
            part
        });
        parts.into_iter().for_each(|part| self.join(part));
        self
    }

    /// With the calls of another one behind its own.
    fn join(&mut self, other: Compared<T>) {
        self.calls += other.calls;
        add(&mut self.sums, other.sums);
        for (own, others) in std::iter::zip(&mut self.shown, &other.shown) {
            own.join(others);
        }
        self.difference = self.difference.take().or(other.difference);
    }

    pub fn count(&mut self, call: &T) {
        self.calls += 1;
        for ((_, such, _), shown) in std::iter::zip(self.kinds, &mut self.shown) {
            if such(call) {
                shown.count(call);
            }
        }
    }

    /// Adds to the sum of this name.
    pub fn add(&mut self, name: &'static str, count: usize) {
        *self.sums.entry(name).or_default() += count as u64;
    }

    /// Keeps the first difference.
    pub fn differ(&mut self, text: impl FnOnce() -> String) {
        self.difference.get_or_insert_with(text);
    }

    /// Prints the lines of these calls; true if nothing differed.
    pub fn report(&self) -> bool {
        let verdict = self.difference.as_deref().unwrap_or("ok");
        let sums = self
            .sums
            .iter()
            .map(|(name, sum)| format!(", {sum} {name}"));
        let sums: String = sums.collect();
        println!(
            "{}: {} {}{sums}: {verdict}",
            self.name, self.calls, self.noun
        );
        for ((title, ..), shown) in std::iter::zip(self.kinds, &self.shown) {
            shown.print(title);
        }
        agreeing(self.difference.is_none())
    }

    /// Whether each feature is shown by so many calls.
    pub fn holds_enough(&self, fewest: u64) -> bool {
        let enough = self.shown.iter().map(|shown| shown.hold_enough(fewest));
        !enough.collect::<Vec<_>>().contains(&false)
    }
}
