//! Repairs the tree in place when a row is inserted.
//!
//! Only nodes that generalize the row's tuple change. They are visited depth first, in rising dimensions. A visited node is an
//! old one, or a new one whose rows were at another node before; a new node copies that node's labels. A visit reads its node's
//! own record in the old tree, and nodes that don't generalize the tuple, which never change.
use crate::rows::Rows;
use crate::tree::*;

struct Inserter<'a> {
    tree: &'a mut Tree,
    tuple: &'a [u32],
    amounts: &'a [i64],
    row: u32,
    /// The visited node of each set of dimensions.
    found: &'a mut Vec<u32>,
}

/// Adds a row of the table to the tree. Calls share the memory `found`.
pub fn insert(tree: &mut Tree, table: &Rows, row: u32, found: &mut Vec<u32>) {
    found.resize(1 << tree.dims, NONE);
    let is_empty = tree.is_empty();
    if is_empty {
        tree.add(ROOT, 0);
    }
    let mut inserter = Inserter { tree, tuple: table.codes(row), amounts: table.amounts(row), row, found };
    if is_empty {
        inserter.chain(ROOT, 0, 0);
    } else {
        inserter.visit(ROOT, 0);
    }
}

impl Inserter<'_> {
    fn label(&self, dim: usize) -> Label {
        label(dim, self.tuple[dim])
    }

    // Visits an old node.
    fn visit(&mut self, node: u32, mask: u32) {
        self.found[mask as usize] = node;
        let forced = self.tree.forced(node);
        let end = forced.map_or(self.tree.dims, |edge| dim_of(edge.label));
        for dim in self.tree.next_dim(node)..end {
            self.drill(node, mask, dim);
        }
        match forced {
            None => self.count(node, mask),
            Some(edge) if edge.label == self.label(end) => self.visit(edge.node, mask | 1 << end),
            Some(edge) => {
                self.drill(node, mask, end);
                self.copy(node, mask, edge.node, end + 1);
            }
        }
    }

    // Adds a child whose old rows were at another node.
    fn visit_new(&mut self, node: u32, mask: u32, from: u32) {
        self.found[mask as usize] = node;
        self.copy(node, mask, from, self.tree.next_dim(node));
    }

    // Copies the labels, from a dimension on, of a node that doesn't generalize the tuple, and of its forced children.
    fn copy(&mut self, node: u32, mask: u32, mut from: u32, mut dim: usize) {
        loop {
            let forced = self.tree.forced(from);
            let end = forced.map_or(self.tree.dims, |edge| dim_of(edge.label));
            // The record is taken out and put back. This is no change for a pin.
            let labels = std::mem::take(&mut self.tree.nodes[from as usize].edges);
            let many = labels.len() - usize::from(forced.is_some());
            self.tree.node_mut(node).edges.extend_from_slice(&labels[..many]);
            self.tree.nodes[from as usize].edges = labels;
            self.tree.edges += many;
            for i in dim..end {
                self.drill(node, mask, i);
            }
            let Some(edge) = forced else { return self.become_class(node, from) };
            if edge.label == self.label(end) {
                let child = self.child(node, edge.label);
                return self.visit_new(child, mask | 1 << end, edge.node);
            }
            self.tree.node_mut(node).edges.push(edge);
            self.tree.edges += 1;
            self.drill(node, mask, end);
            from = edge.node;
            dim = end + 1;
        }
    }

    // Sets a node's label with the tuple's value in a dimension.
    fn drill(&mut self, node: u32, mask: u32, dim: usize) {
        let wanted = self.label(dim);
        let below = mask | 1 << dim;
        match find(&self.tree.node(node).edges, wanted) {
            Ok(place) => {
                let old = self.tree.node(node).edges[place].node;
                if self.tree.node(old).parent == node {
                    return self.visit(old, below);
                }
                let meet = self.meet(old);
                let target = if meet == below { self.tree.add(node, wanted) } else { self.found[meet as usize] };
                self.tree.node_mut(node).edges[place].node = target;
                if meet == below {
                    self.visit_new(target, below, old);
                }
            }
            Err(place) => {
                let all = (2 << dim) - 1;
                let target = if all == below { self.tree.add(node, wanted) } else { self.found[all as usize] };
                self.tree.node_mut(node).edges.insert(place, Edge { label: wanted, node: target });
                self.tree.edges += 1;
                if all == below {
                    self.chain(target, all, dim + 1);
                }
            }
        }
    }

    // The dimensions in which a node has the tuple's values.
    fn meet(&self, mut node: u32) -> u32 {
        let mut mask = 0;
        while node != ROOT {
            let at = self.tree.node(node);
            let dim = dim_of(at.label);
            mask |= u32::from(at.label == self.label(dim)) << dim;
            node = at.parent;
        }
        mask
    }

    fn child(&mut self, node: u32, label: Label) -> u32 {
        let child = self.tree.add(node, label);
        self.tree.node_mut(node).edges.push(Edge { label, node: child });
        self.tree.edges += 1;
        child
    }

    // Adds a node that covers only the new row, and its forced children.
    fn chain(&mut self, mut node: u32, mut mask: u32, next: usize) {
        self.found[mask as usize] = node;
        for dim in next..self.tree.dims {
            node = self.child(node, self.label(dim));
            mask |= 1 << dim;
            self.found[mask as usize] = node;
        }
        let at = self.tree.node_mut(node);
        at.count = 1;
        at.rows = self.row;
        for (part, amount) in self.tree.parts_mut(node).iter_mut().zip(self.amounts) {
            *part = Part::of(*amount);
        }
        self.tree.classes += 1;
        self.tree.note(node);
    }

    fn add_row(&mut self, node: u32) {
        let row = self.row;
        let at = self.tree.node_mut(node);
        at.count += 1;
        at.rows ^= row;
        let amounts = self.amounts;
        for (part, amount) in self.tree.parts_mut(node).iter_mut().zip(amounts) {
            part.add(Part::of(*amount));
        }
        self.tree.note(node);
    }

    // Adds the row to an old class.
    fn count(&mut self, node: u32, mask: u32) {
        if mask + 1 == 1 << self.tree.dims {
            let only = self.tree.node(node).rows;
            let is_single = self.tree.node(node).count == 1;
            let group = self.tree.groups.entry(node).or_default();
            if is_single {
                group.push(only);
            }
            group.push(self.row);
        }
        self.add_row(node);
    }

    // Makes a node the upper bound of the rows of an old class and the new one.
    fn become_class(&mut self, node: u32, from: u32) {
        let (count, rows) = (self.tree.node(from).count, self.tree.node(from).rows);
        let at = self.tree.node_mut(node);
        at.count = count;
        at.rows = rows;
        for measure in 0..self.tree.measures {
            self.tree.parts_mut(node)[measure] = self.tree.parts(from)[measure];
        }
        self.tree.classes += 1;
        self.add_row(node);
    }
}
