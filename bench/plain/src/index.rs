//! Classes sorted by an aggregate. A change marks its class, and a marked class is looked at on its own. When many are marked,
//! they are merged into the sorted list.
use crate::numbers::Fraction;
use crate::schema::{Agg, Key};
use crate::tree::{Part, Tree};
use std::cmp::Ordering;

/// A class with its aggregate as a numerator and a denominator.
#[derive(Clone, Copy, Default)]
struct Entry {
    num: i64,
    den: u32,
    node: u32,
}

#[derive(Default)]
pub struct Indexes {
    sorted: Vec<(Key, Vec<Entry>)>,
    changed: Vec<u32>,
    marks: Vec<u64>,
}

/// An aggregate as a fraction: a numerator and a denominator.
pub fn value_of(key: Key, count: u32, parts: &[Part]) -> (i64, u32) {
    let (agg, measure) = key;
    match agg {
        Agg::Count => (i64::from(count), 1),
        Agg::Sum => (parts[measure].sum, 1),
        Agg::Least => (parts[measure].least, 1),
        Agg::Greatest => (parts[measure].greatest, 1),
        Agg::Mean => (parts[measure].sum, count),
    }
}

pub fn compare(a: (i64, u32), b: (i64, u32)) -> Ordering {
    if a.1 == b.1 {
        return a.0.cmp(&b.0);
    }
    (i128::from(a.0) * i128::from(b.1)).cmp(&(i128::from(b.0) * i128::from(a.1)))
}

/// The bound of an iceberg: an aggregate, whether it must be at least the value, and the value in units of the measure's last
/// place.
#[derive(Clone, Copy)]
pub struct Ask {
    pub key: Key,
    pub at_least: bool,
    pub value: Fraction,
}

impl Ask {
    pub fn passes(&self, value: (i64, u32)) -> bool {
        let (left, right) = (i128::from(value.0) * self.value.den, self.value.num * i128::from(value.1));
        if self.at_least { left >= right } else { left <= right }
    }

    pub fn is_asked(&self, tree: &Tree, node: u32) -> bool {
        let count = tree.node(node).count;
        count > 0 && self.passes(value_of(self.key, count, tree.parts(node)))
    }
}

impl Indexes {
    pub fn new(keys: &[Key]) -> Indexes {
        Indexes { sorted: keys.iter().map(|key| (*key, Vec::new())).collect(), ..Indexes::default() }
    }

    /// Sorts all classes of a tree from scratch.
    pub fn rebuild(&mut self, tree: &mut Tree) {
        if let Some(changed) = &mut tree.changed {
            changed.clear();
        }
        self.changed.clear();
        self.marks.clear();
        for (key, entries) in &mut self.sorted {
            entries.clear();
            entries.reserve_exact(tree.classes);
            entries.extend((0..tree.nodes.len() as u32).filter_map(|node| entry(tree, *key, node)));
            sort(entries);
        }
    }

    /// Marks the classes that a batch changed.
    pub fn take_changes(&mut self, tree: &mut Tree) {
        let Some(mut changed) = tree.changed.take() else { return };
        self.marks.resize(self.marks.len().max(tree.nodes.len() / 64 + 1), 0);
        for node in changed.drain(..) {
            let (word, bit) = (node as usize / 64, node % 64);
            if word >= self.marks.len() {
                self.marks.resize(word + 1, 0);
            }
            if self.marks[word] >> bit & 1 == 0 {
                self.marks[word] |= 1 << bit;
                self.changed.push(node);
            }
        }
        tree.changed = Some(changed);
        if self.changed.len() > 1_000 + tree.classes / 12 {
            self.merge(tree);
        }
    }

    // Moves the marked classes into the sorted lists.
    fn merge(&mut self, tree: &mut Tree) {
        for (key, entries) in &mut self.sorted {
            let mut come: Vec<Entry> = self.changed.iter().filter_map(|node| entry(tree, *key, *node)).collect();
            sort(&mut come);
            let mut come = come.into_iter().peekable();
            let mut merged = Vec::with_capacity(entries.len() + come.len());
            for own in entries.iter().filter(|own| self.marks[own.node as usize / 64] >> (own.node % 64) & 1 == 0) {
                while let Some(other) = come.next_if(|other| other.compare(own).is_lt()) {
                    merged.push(other);
                }
                merged.push(*own);
            }
            merged.extend(come);
            *entries = merged;
        }
        self.changed.clear();
        self.marks.fill(0);
    }

    /// The classes that pass, if there is an index of the aggregate.
    pub fn ask(&self, tree: &Tree, ask: &Ask) -> Option<Vec<u32>> {
        let entries = &self.sorted.iter().find(|index| index.0 == ask.key)?.1;
        let mut answer: Vec<u32> = self
            .changed
            .iter()
            .copied()
            .filter(|node| (*node as usize) < tree.nodes.len() && ask.is_asked(tree, *node))
            .collect();
        let is_marked = |node: u32| self.marks.get(node as usize / 64).is_some_and(|word| word >> (node % 64) & 1 == 1);
        let fails = |entry: &Entry| !ask.passes((entry.num, entry.den));
        let passing = if ask.at_least {
            &entries[entries.partition_point(fails)..]
        } else {
            &entries[..entries.partition_point(|entry| !fails(entry))]
        };
        answer.extend(passing.iter().map(|entry| entry.node).filter(|node| !is_marked(*node)));
        Some(answer)
    }
}

impl Entry {
    fn compare(&self, other: &Entry) -> Ordering {
        compare((self.num, self.den), (other.num, other.den))
    }

    // A number that rises with the quotient, unless quotients are nearly equal.
    fn rank(&self) -> u64 {
        let bits = (self.num as f64 / f64::from(self.den)).to_bits();
        if bits >> 63 == 1 { !bits } else { bits | 1 << 63 }
    }
}

fn entry(tree: &Tree, key: Key, node: u32) -> Option<Entry> {
    let count = tree.nodes.get(node as usize)?.count;
    let (num, den) = if count > 0 { value_of(key, count, tree.parts(node)) } else { return None };
    Some(Entry { num, den, node })
}

// Sorts by digits of 16 bits of the rank, and then corrects the order of nearly equal quotients.
fn sort(entries: &mut Vec<Entry>) {
    if entries.len() < 10_000 {
        return entries.sort_unstable_by(Entry::compare);
    }
    let mut sorted = vec![Entry::default(); entries.len()];
    for shift in [0, 16, 32, 48] {
        let digit = |entry: &Entry| (entry.rank() >> shift & 0xFFFF) as usize;
        let mut starts = vec![0_u32; 0x1_0001];
        entries.iter().for_each(|entry| starts[digit(entry) + 1] += 1);
        if starts.contains(&(entries.len() as u32)) {
            continue;
        }
        for k in 1..starts.len() {
            starts[k] += starts[k - 1];
        }
        for entry in entries.iter() {
            let start = &mut starts[digit(entry)];
            sorted[*start as usize] = *entry;
            *start += 1;
        }
        std::mem::swap(entries, &mut sorted);
    }
    for k in 1..entries.len() {
        let mut at = k;
        while at > 0 && entries[at - 1].compare(&entries[at]).is_gt() {
            entries.swap(at - 1, at);
            at -= 1;
        }
    }
}
