//! Counts of what recordings come to, in words.

use super::case::{Case, Group};
use std::collections::{BTreeMap, BTreeSet};
use std::fmt::Debug;

/// The recordings that were tried, by group: how many, and their different names.
#[derive(Default)]
pub struct Groups(BTreeMap<Group, (u64, BTreeSet<String>)>);

impl Groups {
    /// Counts a recording.
    pub fn add(&mut self, case: &Case) {
        let (count, names) = self.0.entry(case.group).or_default();
        *count += 1;
        names.insert(case.name.clone());
    }

    /// The recordings of a group, and how many of them have different names.
    fn of(&self, group: Group) -> (u64, usize) {
        self.0.get(&group).map_or((0, 0), |(count, names)| (*count, names.len()))
    }

    /// The counts of some groups in words.
    pub fn text(&self, groups: &[(Group, usize)]) -> String {
        let text = |&(group, _): &(Group, usize)| {
            let (count, names) = self.of(group);
            format!("{group}: {count}, of {names} names\n")
        };
        groups.iter().map(text).collect()
    }

    /// The groups with too few names, in words; the random ones only where there are random recordings.
    pub fn missing_text(&self, groups: &[(Group, usize)], random: bool) -> String {
        let asked = groups.iter().filter(|(group, _)| random || !group.is_random());
        let few = asked.filter(|(group, wanted)| self.of(*group).1 < *wanted);
        few.map(|(group, wanted)| {
            format!("    never reached: {group}: {} of {wanted} names\n", self.of(*group).1)
        })
        .collect()
    }
}

/// Items of one group of counts.
pub type Titled<Item> = (&'static str, Vec<Item>);

/// How often each item was come to.
pub struct Counts<Item>(BTreeMap<Item, u64>);

impl<Item> Default for Counts<Item> {
    fn default() -> Self {
        Counts(BTreeMap::new())
    }
}

impl<Item: Ord + Debug> Counts<Item> {
    /// Counts one thing.
    pub fn add(&mut self, item: Item) {
        *self.0.entry(item).or_default() += 1;
    }

    /// Counts things.
    pub fn add_all(&mut self, items: impl IntoIterator<Item = Item>) {
        items.into_iter().for_each(|item| self.add(item));
    }

    /// The counts in a line for each group of them.
    pub fn text(&self, wanted: &[Titled<Item>]) -> String {
        let line = |(title, items): &Titled<Item>| {
            let counts = items.iter().filter_map(|item| self.0.get(item));
            let (reached, least) = (counts.clone().count(), counts.min().copied().unwrap_or(0));
            format!("{title}: {reached} of {}, each at least {least} times\n", items.len())
        };
        wanted.iter().map(line).collect()
    }

    /// What was never come to, in words.
    pub fn missing_text(&self, wanted: &[Titled<Item>]) -> String {
        wanted.iter().map(|(title, items)| missing_in(title, items, &self.0)).collect()
    }
}

/// Some counts in a line.
pub fn counts_text<Counted: Ord + Debug>(
    title: &str,
    every: &[Counted],
    counts: &BTreeMap<Counted, u64>,
) -> String {
    let count = |counted| format!("{counted:?}: {}", counts.get(counted).copied().unwrap_or(0));
    let parts: Vec<String> = every.iter().map(count).collect();
    format!("{title}: {}\n", parts.join(", "))
}

/// What has no count.
pub fn missing_in<Counted: Ord + Debug>(
    title: &str,
    every: &[Counted],
    counts: &BTreeMap<Counted, u64>,
) -> String {
    let missing = every.iter().filter(|counted| !counts.contains_key(counted));
    missing.map(|counted| format!("    never reached: {title}: {counted:?}\n")).collect()
}
