//! Repairs the tree in place when a row is deleted.
//!
//! All is planned on the old tree and then written. Only nodes that generalize the row's tuple change. If no other row has the
//! tuple, all remaining rows of a class may share a further value. The class then ends. The class of the remaining rows exists
//! already, and is its heir.
use crate::rows::Rows;
use crate::tree::*;

/// A node that generalizes the tuple.
struct Seen {
    node: u32,
    class: u32,
    labels: (u32, u32),
}

/// A label with the tuple's value: its dimension, its place among the edges, and the mask of its target.
struct Drill {
    dim: usize,
    place: u32,
    mask: u32,
}

/// The source of one of the remaining rows of a class.
#[derive(Clone, Copy)]
enum Witness {
    Missing,
    Row(u32),
    Class(u32),
}

/// A class that generalizes the tuple, and its fate.
struct Class {
    node: u32,
    mask: u32,
    count: u32,
    /// The upper bound of the remaining rows: the class's own node if the class stays.
    heir: u32,
    /// The dimensions in which the remaining rows share a further value.
    gains: u32,
    witness: Witness,
    /// The place of its new parts.
    parts: usize,
}

/// Memory of a deletion, shared by calls.
#[derive(Default)]
pub struct Deleter {
    seen: Vec<Seen>,
    drills: Vec<Drill>,
    classes: Vec<Class>,
    order: Vec<u32>,
    parts: Vec<Part>,
    killed: Vec<u32>,
    place: Vec<u32>,
}

struct Deletion<'a> {
    tree: &'a mut Tree,
    table: &'a Rows,
    row: u32,
    tuple: &'a [u32],
    full: u32,
    /// Whether no other row has the tuple.
    is_alone: bool,
    plan: &'a mut Deleter,
}

/// Removes a row from the tree. The table still has it in its slot.
pub fn delete(tree: &mut Tree, table: &Rows, row: u32, plan: &mut Deleter) {
    let tuple = table.codes(row);
    let (Some(whole), Some(all)) = (tree.find(tuple), tree.find(&[ANY; 16][..tree.dims])) else { return };
    if tree.node(all).count == 1 {
        return tree.clear();
    }
    let is_alone = tree.node(whole).count == 1;
    let full = (1 << tree.dims) - 1;
    plan.place.resize(1 << tree.dims, 0);
    plan.seen.clear();
    plan.drills.clear();
    plan.classes.clear();
    plan.parts.clear();
    let mut deletion = Deletion { tree, table, row, tuple, full, is_alone, plan };
    deletion.see(ROOT, 0);
    deletion.plan_classes();
    deletion.write();
}

impl Deletion<'_> {
    // Collects the nodes that generalize the tuple, each with the place of its class.
    fn see(&mut self, node: u32, mask: u32) -> u32 {
        let index = self.plan.seen.len();
        self.plan.place[mask as usize] = index as u32;
        let begin = self.plan.drills.len() as u32;
        let forced = self.tree.forced(node);
        let end = forced.map_or(self.tree.dims, |edge| dim_of(edge.label));
        for dim in self.tree.next_dim(node)..end {
            if let Ok(place) = find(&self.tree.node(node).edges, label(dim, self.tuple[dim])) {
                let target = self.tree.node(node).edges[place].node;
                let is_child = self.tree.node(target).parent == node;
                let target = if is_child { mask | 1 << dim } else { self.tree.mask(target) };
                self.plan.drills.push(Drill { dim, place: place as u32, mask: target });
            }
        }
        let labels = (begin, self.plan.drills.len() as u32);
        self.plan.seen.push(Seen { node, class: NONE, labels });
        for k in labels.0..labels.1 {
            let drill = &self.plan.drills[k as usize];
            if drill.mask == mask | 1 << drill.dim {
                let (child, below) = (self.tree.node(node).edges[drill.place as usize].node, drill.mask);
                self.see(child, below);
            }
        }
        let class = match forced {
            Some(edge) => self.see(edge.node, mask | 1 << end),
            None => self.add_class(node, mask),
        };
        self.plan.seen[index].class = class;
        class
    }

    fn add_class(&mut self, node: u32, mask: u32) -> u32 {
        let count = self.tree.node(node).count;
        let parts = self.plan.parts.len();
        self.plan.parts.extend_from_slice(self.tree.parts(node));
        self.plan.classes.push(Class { node, mask, count, heir: node, gains: 0, witness: Witness::Missing, parts });
        self.plan.classes.len() as u32 - 1
    }

    // Begins with the most specific class: a mask is greater than each of its subsets.
    fn plan_classes(&mut self) {
        let mut order = std::mem::take(&mut self.plan.order);
        order.clear();
        order.extend(0..self.plan.classes.len() as u32);
        order.sort_unstable_by_key(|k| std::cmp::Reverse(self.plan.classes[*k as usize].mask));
        for (done, &k) in order.iter().enumerate() {
            let k = k as usize;
            if self.plan.classes[k].mask == self.full {
                self.plan_tuple(k);
            } else {
                self.plan_class(k, &order[..done]);
            }
        }
        self.plan.order = order;
    }

    fn plan_tuple(&mut self, k: usize) {
        let (node, count) = (self.plan.classes[k].node, self.plan.classes[k].count);
        if self.is_alone {
            self.plan.classes[k].heir = NONE;
            return;
        }
        let other = self.tree.node(node).rows ^ self.row;
        if count == 2 {
            self.plan.classes[k].witness = Witness::Row(other);
        }
        if self.subtract(k) {
            let at = self.plan.classes[k].parts;
            let parts = &mut self.plan.parts[at..at + self.tree.measures];
            parts.fill(Part::EMPTY);
            for row in self.tree.groups.get(&node).into_iter().flatten().filter(|row| **row != self.row) {
                for (part, amount) in parts.iter_mut().zip(self.table.amounts(*row)) {
                    part.add(Part::of(*amount));
                }
            }
        }
    }

    fn plan_class(&mut self, k: usize, done: &[u32]) {
        let Class { node, mask, count, .. } = self.plan.classes[k];
        let mut above = mask;
        let mut witness = Witness::Missing;
        for &other in done {
            let other = &self.plan.classes[other as usize];
            if other.mask & mask == mask && other.heir != NONE {
                above |= other.mask;
                if let Witness::Row(_) | Witness::Class(_) = other.witness {
                    witness = other.witness;
                }
            }
        }
        if count == 2 {
            witness = Witness::Row(self.tree.node(node).rows ^ self.row);
        }
        let alone = self.full & !above;
        if self.is_alone && alone != 0 {
            let heir = self.heir(node, count, alone, &mut witness);
            if heir != NONE {
                let class = &mut self.plan.classes[k];
                class.heir = heir;
                class.gains = self.tree.mask(heir) & !mask;
                class.witness = Witness::Class(heir);
                return;
            }
        }
        self.plan.classes[k].witness = witness;
        if self.subtract(k) {
            self.combine(k, done);
        }
    }

    // The class of the remaining rows, if it is another one. In each dimension of `alone`, no other row of the class has the
    // row's value.
    fn heir(&self, node: u32, count: u32, alone: u32, witness: &mut Witness) -> u32 {
        if let (2, Witness::Row(row)) = (count, *witness) {
            return self.tree.find(self.table.codes(row)).unwrap_or(NONE);
        }
        let next = self.tree.next_dim(node);
        for dim in (next..self.tree.dims).filter(|dim| alone >> dim & 1 == 1) {
            if let [first, second] = self.tree.labels(node, dim) {
                let is_first = code_of(first.label) != self.tuple[dim];
                return self.tree.class_of(if is_first { first.node } else { second.node });
            }
        }
        let before = alone & ((1_u32 << next) - 1);
        if before == 0 {
            return NONE;
        }
        let cell = self.tree.cell(node);
        let known = match *witness {
            Witness::Row(row) => self.known(self.table.codes(row)),
            Witness::Class(class) => self.tree.cell(class),
            Witness::Missing => {
                let class = self.any_other(node, &cell, next, before);
                *witness = Witness::Class(class);
                self.tree.cell(class)
            }
        };
        for dim in (0..next).filter(|dim| before >> dim & 1 == 1 && known[*dim] != ANY) {
            let mut asked = cell;
            asked[dim] = known[dim];
            if let Some(class) = self.tree.find(&asked[..self.tree.dims]) {
                if self.tree.node(class).count == count - 1 {
                    return class;
                }
            }
        }
        NONE
    }

    fn known(&self, codes: &[u32]) -> Cell {
        let mut cell = [ANY; 16];
        cell[..codes.len()].copy_from_slice(codes);
        cell
    }

    // A class of some of a class's remaining rows.
    fn any_other(&self, node: u32, cell: &Cell, next: usize, before: u32) -> u32 {
        if next < self.tree.dims {
            let other = self.tree.labels(node, next).iter().find(|edge| code_of(edge.label) != self.tuple[next]);
            if let Some(edge) = other {
                return self.tree.class_of(edge.node);
            }
        }
        let dim = before.trailing_zeros() as usize;
        let mut any = NONE;
        self.tree.parts_of(node, cell, dim, |code, class| {
            if code != self.tuple[dim] {
                any = class;
            }
            code == self.tuple[dim]
        });
        any
    }

    // Subtracts the row from a class's parts. True if the row had the least or the greatest amount of a measure.
    fn subtract(&mut self, k: usize) -> bool {
        let Class { parts: at, witness, count, .. } = self.plan.classes[k];
        let mut is_own = false;
        for (measure, amount) in self.table.amounts(self.row).iter().enumerate() {
            let part = &mut self.plan.parts[at + measure];
            part.sum -= amount;
            is_own |= part.least == *amount || part.greatest == *amount;
        }
        if let (true, 2, Witness::Row(row)) = (is_own, count, witness) {
            for (measure, amount) in self.table.amounts(row).iter().enumerate() {
                self.plan.parts[at + measure] = Part::of(*amount);
            }
            return false;
        }
        is_own
    }

    // Computes a class's parts from those of its rows by their values in a dimension: the dimension with the fewest values.
    fn combine(&mut self, k: usize, done: &[u32]) {
        let Class { node, mask, parts: at, .. } = self.plan.classes[k];
        let cell = self.tree.cell(node);
        let free = (0..self.tree.dims).filter(|dim| mask >> dim & 1 == 0);
        let Some(dim) = free.min_by_key(|dim| self.tree.labels(self.tree.before(node, *dim), *dim).len()) else { return };
        let many = self.tree.measures;
        let mut sums = vec![Part::EMPTY; many];
        let mut add = |parts: &[Part]| sums.iter_mut().zip(parts).for_each(|(sum, part)| sum.add(*part));
        self.tree.parts_of(node, &cell, dim, |code, class| {
            if code != self.tuple[dim] {
                add(self.tree.parts(class));
            }
            true
        });
        let wanted = mask | 1 << dim;
        let above = done.iter().map(|k| &self.plan.classes[*k as usize]).filter(|class| class.mask & wanted == wanted);
        if let Some(class) = above.min_by_key(|class| class.mask.count_ones()) {
            if class.heir == class.node {
                add(&self.plan.parts[class.parts..class.parts + many]);
            } else if class.heir != NONE {
                add(self.tree.parts(class.heir));
            }
        }
        self.plan.parts[at..at + many].copy_from_slice(&sums);
    }

    // Whether a node stays: it has rows left, and they share no further value before its last one.
    fn stays(&self, seen: &Seen) -> bool {
        let class = &self.plan.classes[seen.class as usize];
        let before = (1_u32 << self.tree.next_dim(seen.node)) - 1;
        class.heir != NONE && class.gains & before == 0
    }

    fn write(&mut self) {
        self.plan.killed.clear();
        for k in 0..self.plan.seen.len() {
            if self.stays(&self.plan.seen[k]) {
                self.rewrite(k);
            } else {
                let node = self.plan.seen[k].node;
                self.plan.killed.push(node);
            }
        }
        for k in 0..self.plan.killed.len() {
            let node = self.plan.killed[k];
            let at = self.tree.node_mut(node);
            let (edges, is_class) = (std::mem::take(&mut at.edges), at.count > 0);
            at.count = 0;
            self.tree.edges -= edges.len();
            if is_class {
                self.tree.classes -= 1;
                self.tree.note(node);
            }
            self.tree.free.push(node);
        }
    }

    fn rewrite(&mut self, k: usize) {
        let Seen { node, class, labels, .. } = self.plan.seen[k];
        let Class { heir, gains, .. } = self.plan.classes[class as usize];
        let forced = self.tree.forced(node);
        let end = forced.map_or(self.tree.dims, |edge| dim_of(edge.label));
        let gain = if gains == 0 { end } else { gains.trailing_zeros() as usize };
        for k in (labels.0..labels.1).rev() {
            let Drill { dim, place, mask } = self.plan.drills[k as usize];
            if dim > gain {
                continue;
            }
            let target = &self.plan.seen[self.plan.place[mask as usize] as usize];
            let below = self.plan.classes[target.class as usize].heir;
            if below == NONE {
                self.tree.node_mut(node).edges.remove(place as usize);
                self.tree.edges -= 1;
            } else if !self.stays(target) {
                let front = self.tree.ancestor(below, dim);
                self.tree.node_mut(node).edges[place as usize].node = front;
            }
        }
        if gain < end {
            let edges = &mut self.tree.node_mut(node).edges;
            let many = edges.len();
            edges.truncate(edges.partition_point(|edge| edge.label < label(gain + 1, 0)));
            let gone = many - edges.len();
            self.tree.edges -= gone;
        }
        if self.tree.node(node).count > 0 {
            if heir == node {
                self.update(node, class);
            } else {
                self.tree.node_mut(node).count = 0;
                self.tree.classes -= 1;
                self.tree.note(node);
            }
        }
    }

    fn update(&mut self, node: u32, class: u32) {
        let row = self.row;
        let Class { mask, parts: at, .. } = self.plan.classes[class as usize];
        let class = self.tree.node_mut(node);
        class.count -= 1;
        class.rows ^= row;
        let count = class.count;
        let many = self.tree.measures;
        self.tree.parts_mut(node).copy_from_slice(&self.plan.parts[at..at + many]);
        self.tree.note(node);
        if mask == self.full {
            if count == 1 {
                self.tree.groups.remove(&node);
            } else if let Some(group) = self.tree.groups.get_mut(&node) {
                group.retain(|other| *other != row);
            }
        }
    }
}
