//! The canonical tree as docs/concepts.md draws it, and searches in it.
//!
//! A node that is no class has its forced child as the last of its edges. A class has no forced child. Edges are sorted by label.
use crate::pins::{Pin, NOW};
use crate::rows::Rows;
use crate::schema::MAX_DIMS;
use crate::texts::Fast;
use smallvec::SmallVec;
use std::collections::HashMap;

pub const ANY: u32 = u32::MAX;
pub const NONE: u32 = u32::MAX;
pub const ROOT: u32 = 0;

pub type Cell = [u32; MAX_DIMS];

/// A dimension and a code in one number, so that labels compare by dimension and then by code.
pub type Label = u32;

pub fn label(dim: usize, code: u32) -> Label {
    (dim as u32) << 24 | code
}

pub fn dim_of(label: Label) -> usize {
    (label >> 24) as usize
}

pub fn code_of(label: Label) -> u32 {
    label & 0xFF_FFFF
}

#[derive(Clone, Copy, PartialEq, Eq)]
pub struct Edge {
    pub label: Label,
    pub node: u32,
}

#[derive(Clone)]
pub struct Node {
    pub edges: SmallVec<[Edge; 2]>,
    pub parent: u32,
    /// The label of the node's last value. The root has none.
    pub label: Label,
    /// The number of rows of the node's class. 0 if the node is no upper bound.
    pub count: u32,
    /// The exclusive or of the slots of the class's rows. If there are two rows, it gives the other one's slot.
    pub rows: u32,
}

/// SUM, MIN and MAX of a measure.
#[derive(Clone, Copy, PartialEq, Eq)]
pub struct Part {
    pub sum: i64,
    pub least: i64,
    pub greatest: i64,
}

impl Part {
    pub const EMPTY: Part = Part { sum: 0, least: i64::MAX, greatest: i64::MIN };

    pub fn of(amount: i64) -> Part {
        Part { sum: amount, least: amount, greatest: amount }
    }

    pub fn add(&mut self, other: Part) {
        self.sum += other.sum;
        self.least = self.least.min(other.least);
        self.greatest = self.greatest.max(other.greatest);
    }
}

#[derive(Default)]
pub struct Tree {
    pub dims: usize,
    pub measures: usize,
    pub nodes: Vec<Node>,
    /// The parts of each node, as many as there are measures.
    pub parts: Vec<Part>,
    pub free: Vec<u32>,
    pub classes: usize,
    /// The number of edges, tree edges and links together.
    pub edges: usize,
    /// The rows of each tuple that more than one row has.
    pub groups: HashMap<u32, Vec<u32>, Fast>,
    /// The classes that were changed, if there is an index to update.
    pub changed: Option<Vec<u32>>,
    pub pins: Vec<Pin>,
    /// The place of the pin that readers see, or `NOW`.
    pub view: usize,
}

impl Tree {
    pub fn new(dims: usize, measures: usize) -> Tree {
        Tree { dims, measures, view: NOW, ..Tree::default() }
    }

    pub fn len(&self) -> usize {
        self.nodes.len() - self.free.len()
    }

    pub fn links(&self) -> usize {
        self.edges - self.len().saturating_sub(1)
    }

    pub fn is_empty(&self) -> bool {
        if self.view == NOW { self.nodes.is_empty() } else { self.pins[self.view].counts.nodes == 0 }
    }

    pub fn clear(&mut self) {
        if !self.pins.is_empty() {
            (0..self.nodes.len() as u32).for_each(|node| self.save(node));
        }
        let changed = self.changed.take().map(|_| (0..self.nodes.len() as u32).collect());
        let pins = std::mem::take(&mut self.pins);
        *self = Tree { changed, pins, ..Tree::new(self.dims, self.measures) };
    }

    pub fn node(&self, node: u32) -> &Node {
        if self.view == NOW { &self.nodes[node as usize] } else { self.node_then(node) }
    }

    pub fn node_mut(&mut self, node: u32) -> &mut Node {
        if !self.pins.is_empty() {
            self.save(node);
        }
        &mut self.nodes[node as usize]
    }

    pub fn parts(&self, node: u32) -> &[Part] {
        if self.view != NOW {
            return self.parts_then(node);
        }
        &self.parts[node as usize * self.measures..][..self.measures]
    }

    pub fn parts_mut(&mut self, node: u32) -> &mut [Part] {
        if !self.pins.is_empty() {
            self.save(node);
        }
        &mut self.parts[node as usize * self.measures..][..self.measures]
    }

    /// Adds a node without edges. The caller sets its parent's edge.
    pub fn add(&mut self, parent: u32, label: Label) -> u32 {
        let node = Node { edges: SmallVec::new(), parent, label, count: 0, rows: 0 };
        let number = match self.free.pop() {
            Some(number) => {
                self.nodes[number as usize] = node;
                number
            }
            None => {
                self.nodes.push(node);
                self.parts.resize(self.parts.len() + self.measures, Part::EMPTY);
                self.nodes.len() as u32 - 1
            }
        };
        if !self.pins.is_empty() {
            self.save_new(number);
        }
        number
    }

    pub fn note(&mut self, node: u32) {
        if let Some(changed) = &mut self.changed {
            changed.push(node);
        }
    }

    /// The first dimension after a node's last value.
    pub fn next_dim(&self, node: u32) -> usize {
        if node == ROOT { 0 } else { dim_of(self.node(node).label) + 1 }
    }

    /// The edge to a node's forced child.
    pub fn forced(&self, node: u32) -> Option<Edge> {
        let node = self.node(node);
        if node.count > 0 { None } else { node.edges.last().copied() }
    }

    /// The target of a label.
    pub fn target(&self, node: u32, label: Label) -> Option<u32> {
        find(&self.node(node).edges, label).ok().map(|place| self.node(node).edges[place].node)
    }

    /// A node's edges with labels of a dimension.
    pub fn labels(&self, node: u32, dim: usize) -> &[Edge] {
        let edges = &self.node(node).edges;
        let begin = edges.partition_point(|edge| edge.label < label(dim, 0));
        let end = begin + edges[begin..].partition_point(|edge| edge.label < label(dim + 1, 0));
        &edges[begin..end]
    }

    /// The upper bound of a node's rows.
    pub fn class_of(&self, mut node: u32) -> u32 {
        while let Some(edge) = self.forced(node) {
            node = edge.node;
        }
        node
    }

    /// Goes down from the node before dimension `dim`, by the values of a cell from there up to `end`.
    pub fn walk(&self, mut node: u32, cell: &[u32], dim: usize, end: usize) -> Option<u32> {
        for i in dim..end {
            let code = cell[i];
            if code == ANY {
                continue;
            }
            node = self.step(node, i, code)?;
        }
        Some(node)
    }

    /// Goes down by a value in a dimension after the node's last value.
    pub fn step(&self, mut node: u32, dim: usize, code: u32) -> Option<u32> {
        let wanted = label(dim, code);
        loop {
            let at = self.node(node);
            if at.count > 0 {
                return self.target(node, wanted);
            }
            let forced = *at.edges.last()?;
            if forced.label >= label(dim, 0) {
                return if forced.label == wanted {
                    Some(forced.node)
                } else if dim_of(forced.label) == dim {
                    None
                } else {
                    self.target(node, wanted)
                };
            }
            node = forced.node;
        }
    }

    /// The upper bound of a cell's class, if the cell covers a row.
    pub fn find(&self, cell: &[u32]) -> Option<u32> {
        if self.is_empty() {
            return None;
        }
        Some(self.class_of(self.walk(ROOT, cell, 0, self.dims)?))
    }

    /// The cell of a node.
    pub fn cell(&self, mut node: u32) -> Cell {
        let mut cell = [ANY; MAX_DIMS];
        while node != ROOT {
            let at = self.node(node);
            cell[dim_of(at.label)] = code_of(at.label);
            node = at.parent;
        }
        cell
    }

    /// The dimensions of a node's values.
    pub fn mask(&self, mut node: u32) -> u32 {
        let mut mask = 0;
        while node != ROOT {
            let at = self.node(node);
            mask |= 1 << dim_of(at.label);
            node = at.parent;
        }
        mask
    }

    /// The ancestor whose last value is in a dimension.
    pub fn ancestor(&self, mut node: u32, dim: usize) -> u32 {
        while dim_of(self.node(node).label) > dim {
            node = self.node(node).parent;
        }
        node
    }

    /// The parts of some rows, one for each measure.
    pub fn set_class(&mut self, node: u32, rows: &[u32], table: &Rows) {
        let at = self.node_mut(node);
        at.count = rows.len() as u32;
        at.rows = rows.iter().fold(0, |rows, row| rows ^ row);
        for measure in 0..self.measures {
            let mut part = Part::EMPTY;
            for row in rows {
                part.add(Part::of(table.amounts(*row)[measure]));
            }
            self.parts_mut(node)[measure] = part;
        }
        self.classes += 1;
    }

    /// Gives each row the code 0 in a new last dimension.
    pub fn widen(&mut self) {
        let dim = self.dims;
        self.dims += 1;
        let classes: Vec<u32> = (0..self.nodes.len() as u32).filter(|node| self.node(*node).count > 0).collect();
        for node in classes {
            let child = self.add(node, label(dim, 0));
            self.note(node);
            self.note(child);
            for measure in 0..self.measures {
                self.parts_mut(child)[measure] = self.parts(node)[measure];
            }
            let at = self.node_mut(node);
            let (count, rows) = (at.count, at.rows);
            at.count = 0;
            at.rows = 0;
            at.edges.push(Edge { label: label(dim, 0), node: child });
            let at = self.node_mut(child);
            at.count = count;
            at.rows = rows;
            self.edges += 1;
            if let Some(group) = self.groups.remove(&node) {
                self.groups.insert(child, group);
            }
        }
    }
}

/// The place of a label among sorted edges, or the place at which to insert it.
pub fn find(edges: &[Edge], label: Label) -> Result<usize, usize> {
    edges.binary_search_by_key(&label, |edge| edge.label)
}

impl Tree {
    /// The node on a class's own path before a dimension in which the class has Any.
    pub fn before(&self, mut node: u32, dim: usize) -> u32 {
        while node != ROOT && dim_of(self.node(node).label) > dim {
            node = self.node(node).parent;
        }
        node
    }

    /// The groups of a class's rows by their codes in a dimension in which the class has Any: each code with the upper bound of
    /// its rows. It stops when `go_on` answers false.
    pub fn parts_of(&self, node: u32, cell: &Cell, dim: usize, mut go_on: impl FnMut(u32, u32) -> bool) {
        let next = self.next_dim(node);
        for edge in self.labels(self.before(node, dim), dim) {
            let found = if dim >= next { Some(edge.node) } else { self.walk(edge.node, cell, dim + 1, self.dims) };
            if let Some(found) = found {
                if !go_on(code_of(edge.label), self.class_of(found)) {
                    return;
                }
            }
        }
    }
}
