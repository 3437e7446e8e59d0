//! Answers about classes: bounds, neighbours, icebergs, roll-ups.
use crate::index::{compare, value_of, Ask};
use crate::pins::NOW;
use crate::reply::push_record;
use crate::tree::*;
use crate::warehouse::Warehouse;

/// A key that sorts cells which generalize one cell in cell order: in the first dimension in which they differ, Any comes first.
fn order(mask: &u32) -> u32 {
    mask.reverse_bits()
}

/// The upper bounds that generalize a class, each as its dimensions and its node. The class itself is left out.
fn classes_below(tree: &Tree, cell: &[u32], own: u32) -> Vec<(u32, u32)> {
    let mut classes = Vec::new();
    visit_below(tree, cell, own, ROOT, 0, &mut classes);
    classes
}

fn visit_below(tree: &Tree, cell: &[u32], own: u32, node: u32, mask: u32, classes: &mut Vec<(u32, u32)>) {
    let forced = tree.forced(node);
    let end = forced.map_or(tree.dims, |edge| dim_of(edge.label));
    for dim in tree.next_dim(node)..end {
        if cell[dim] != ANY {
            if let Some(child) = tree.target(node, label(dim, cell[dim])) {
                if tree.node(child).parent == node {
                    visit_below(tree, cell, own, child, mask | 1 << dim, classes);
                }
            }
        }
    }
    match forced {
        Some(edge) => visit_below(tree, cell, own, edge.node, mask | 1 << end, classes),
        None if node != own => classes.push((mask, node)),
        None => {}
    }
}

/// The most specific of some classes that generalize a class: no other one is between them and it.
fn greatest(mut classes: Vec<(u32, u32)>) -> Vec<(u32, u32)> {
    classes.sort_unstable_by_key(|class| std::cmp::Reverse(class.0.count_ones()));
    let mut kept: Vec<(u32, u32)> = Vec::new();
    for class in classes {
        if kept.iter().all(|other| class.0 & !other.0 != 0) {
            kept.push(class);
        }
    }
    kept
}

/// The dimensions of the lower bounds of a class: the least sets that no parent of the class contains.
fn lower_bounds(tree: &Tree, cell: &[u32], class: u32) -> Vec<u32> {
    let own = tree.mask(class);
    let mut bounds = vec![0_u32];
    for (parent, _) in greatest(classes_below(tree, cell, class)) {
        let gap = own & !parent;
        let (mut kept, open): (Vec<u32>, Vec<u32>) = bounds.into_iter().partition(|bound| bound & gap != 0);
        let hit = kept.len();
        for bound in open {
            for dim in (0..tree.dims).filter(|dim| gap >> dim & 1 == 1) {
                let more = bound | 1 << dim;
                if kept[..hit].iter().all(|other| other & !more != 0) {
                    kept.push(more);
                }
            }
        }
        bounds = kept;
    }
    bounds.sort_unstable_by_key(order);
    bounds
}

impl Warehouse {
    fn dims(&self) -> usize {
        self.schema.dims.len()
    }

    fn push_alone(&self, out: &mut Vec<u8>, line: usize, class: u32) {
        self.push_cell(out, "class", line, &self.tree.cell(class)[..self.dims()]);
        self.push_class(out, class);
    }

    fn push_with_bounds(&self, out: &mut Vec<u8>, line: usize, class: u32) {
        let cell = self.tree.cell(class);
        let cell = &cell[..self.dims()];
        self.push_cell(out, "class", line, cell);
        self.push_class(out, class);
        for bound in lower_bounds(&self.tree, cell, class) {
            let mut lower = [ANY; 16];
            for dim in 0..cell.len() {
                if bound >> dim & 1 == 1 {
                    lower[dim] = cell[dim];
                }
            }
            self.push_cell(out, "lower", line, &lower[..cell.len()]);
            out.push(b'\n');
        }
    }

    pub fn bounds(&self, out: &mut Vec<u8>, line: usize, class: u32) {
        self.push_with_bounds(out, line, class);
        push_record(out, "end", line, &[1]);
    }

    pub fn parents(&self, out: &mut Vec<u8>, line: usize, class: u32) {
        let mut parents = greatest(classes_below(&self.tree, &self.tree.cell(class), class));
        parents.sort_unstable_by_key(|parent| order(&parent.0));
        for (_, parent) in &parents {
            self.push_alone(out, line, *parent);
        }
        push_record(out, "end", line, &[parents.len()]);
    }

    /// A class that adds values in some dimensions is a child if each of these values alone leads to it.
    pub fn children(&self, out: &mut Vec<u8>, line: usize, class: u32) {
        let cell = self.tree.cell(class);
        let many = self.tree.mask(class).count_ones();
        let mut found = Vec::new();
        for dim in (0..self.dims()).filter(|dim| cell[*dim] == ANY) {
            self.tree.parts_of(class, &cell, dim, |_, part| {
                found.push(part);
                true
            });
        }
        found.sort_unstable();
        let children = found
            .chunk_by(|a, b| a == b)
            .filter(|ways| ways.len() as u32 == self.tree.mask(ways[0]).count_ones() - many)
            .map(|ways| ways[0])
            .collect();
        self.push_in_cell_order(out, line, children);
    }

    // The place of a cell in cell order.
    fn place_of(&self, node: u32) -> Vec<u32> {
        let cell = self.tree.cell(node);
        let ranked = |(code, ranks): (&u32, &crate::texts::Ranks)| if *code == ANY { 0 } else { ranks.of_code[*code as usize] + 1 };
        cell[..self.dims()].iter().zip(&self.ranks).map(ranked).collect()
    }

    // Needs `rank_all` first.
    fn push_in_cell_order(&self, out: &mut Vec<u8>, line: usize, mut classes: Vec<u32>) {
        classes.sort_by_cached_key(|class| self.place_of(*class));
        for class in &classes {
            self.push_alone(out, line, *class);
        }
        push_record(out, "end", line, &[classes.len()]);
    }

    // At a pin, the number of a node may belong to one that was added later, so the walk follows the edges.
    fn passing_then(&self, ask: &Ask) -> Vec<u32> {
        let mut passing = Vec::new();
        if !self.tree.is_empty() {
            self.visit_above(&[ANY; 16], ROOT, &mut |node| passing.extend(Some(node).filter(|node| ask.is_asked(&self.tree, *node))));
        }
        passing
    }

    pub fn iceberg(&self, out: &mut Vec<u8>, line: usize, ask: &Ask) {
        let tree = &self.tree;
        let walk = || (0..tree.nodes.len() as u32).filter(|node| ask.is_asked(tree, *node)).collect();
        let classes = if tree.view == NOW { self.indexes.ask(tree, ask).unwrap_or_else(walk) } else { self.passing_then(ask) };
        let value = |node: u32| value_of(ask.key, tree.node(node).count, tree.parts(node));
        let mut answer: Vec<_> = classes.into_iter().map(|node| (value(node), self.place_of(node), node)).collect();
        answer.sort_unstable_by(|a, b| {
            let by_value = compare(a.0, b.0);
            let by_value = if ask.at_least { by_value.reverse() } else { by_value };
            by_value.then_with(|| a.1.cmp(&b.1))
        });
        for (_, _, class) in &answer {
            self.push_with_bounds(out, line, *class);
        }
        push_record(out, "end", line, &[answer.len()]);
    }

    /// The most general classes that pass, from the class of the asked cell on.
    pub fn rollup(&self, out: &mut Vec<u8>, line: usize, ask: &Ask, class: u32) {
        let tree = &self.tree;
        let (cell, own) = (tree.cell(class), tree.mask(class));
        let mut passing = Vec::new();
        self.visit_above(&cell, ROOT, &mut |node| {
            if ask.is_asked(tree, node) {
                passing.push(node);
            }
        });
        passing.retain(|node| {
            let is_above = |other: &(u32, u32)| other.0 & own == own && ask.is_asked(tree, other.1);
            !classes_below(tree, &tree.cell(*node), *node).iter().any(is_above)
        });
        self.push_in_cell_order(out, line, passing);
    }

    // The classes that have all values of a cell.
    fn visit_above(&self, cell: &Cell, node: u32, take: &mut impl FnMut(u32)) {
        let tree = &self.tree;
        let at = tree.node(node);
        let next = tree.next_dim(node);
        let wanted = (next..tree.dims).find(|dim| cell[*dim] != ANY);
        if at.count > 0 && wanted.is_none() {
            take(node);
        }
        let allowed = |edge: &Edge| wanted.map_or(true, |dim| dim_of(edge.label) < dim || edge.label == label(dim, cell[dim]));
        for edge in at.edges.iter().filter(|edge| allowed(edge)) {
            if tree.node(edge.node).parent == node {
                self.visit_above(cell, edge.node, take);
            }
        }
    }
}
