//! The cells of a box that cover some row.
use crate::reply::push_record;
use crate::tree::*;
use crate::warehouse::Warehouse;

/// The greatest number of cells of an answer.
pub const MOST_CELLS: usize = 100_000;

/// The values that a box allows in a dimension, as their places in the order of texts.
pub enum Asked {
    Any,
    Interval(u32, u32),
    List(Vec<u32>),
}

struct Range<'a> {
    warehouse: &'a Warehouse,
    asked: &'a [Asked],
    out: &'a mut Vec<u8>,
    line: usize,
    cell: Cell,
    count: usize,
}

impl Warehouse {
    /// Writes a range's reply. False if it has too many cells. The asked dimensions must be ranked.
    pub fn range(&self, out: &mut Vec<u8>, line: usize, asked: &[Asked]) -> bool {
        let begin = out.len();
        let mut range = Range { warehouse: self, asked, out, line, cell: [ANY; 16], count: 0 };
        let is_whole = self.tree.is_empty() || range.visit(0, ROOT);
        let count = range.count;
        if is_whole {
            push_record(out, "end", line, &[count]);
        } else {
            out.truncate(begin);
        }
        is_whole
    }
}

impl Range<'_> {
    fn visit(&mut self, dim: usize, node: u32) -> bool {
        let tree = &self.warehouse.tree;
        if dim == tree.dims {
            self.count += 1;
            if self.count > MOST_CELLS {
                return false;
            }
            self.warehouse.push_cell(self.out, "cell", self.line, &self.cell[..dim]);
            self.warehouse.push_class(self.out, node);
            return true;
        }
        let forced = tree.forced(node).filter(|edge| dim_of(edge.label) == dim);
        match (&self.asked[dim], forced) {
            (Asked::Any, forced) => self.visit(dim + 1, forced.map_or(node, |edge| edge.node)),
            (_, Some(edge)) => !self.is_asked(dim, code_of(edge.label)) || self.go(dim, code_of(edge.label), edge.node),
            (_, None) => self.found(dim, node).into_iter().all(|(_, code, node)| self.go(dim, code, node)),
        }
    }

    fn go(&mut self, dim: usize, code: u32, node: u32) -> bool {
        self.cell[dim] = code;
        let is_whole = self.visit(dim + 1, node);
        self.cell[dim] = ANY;
        is_whole
    }

    fn is_asked(&self, dim: usize, code: u32) -> bool {
        let rank = self.warehouse.ranks[dim].of_code[code as usize];
        match &self.asked[dim] {
            Asked::Any => false,
            Asked::Interval(begin, end) => (*begin..*end).contains(&rank),
            Asked::List(ranks) => ranks.binary_search(&rank).is_ok(),
        }
    }

    // The labels of asked values, in their order.
    fn found(&self, dim: usize, node: u32) -> Vec<(u32, u32, u32)> {
        let labels = self.warehouse.tree.labels(node, dim);
        let ranks = &self.warehouse.ranks[dim];
        let look_up = |rank: u32| {
            let code = ranks.codes[rank as usize];
            let place = find(labels, label(dim, code)).ok()?;
            Some((rank, code, labels[place].node))
        };
        match &self.asked[dim] {
            Asked::Any => Vec::new(),
            Asked::List(asked) if asked.len() < labels.len() => asked.iter().filter_map(|rank| look_up(*rank)).collect(),
            Asked::Interval(begin, end) if ((end - begin) as usize) < labels.len() => (*begin..*end).filter_map(look_up).collect(),
            _ => {
                let known = |edge: &Edge| (ranks.of_code[code_of(edge.label) as usize], code_of(edge.label), edge.node);
                let mut found: Vec<_> =
                    labels.iter().filter(|edge| self.is_asked(dim, code_of(edge.label))).map(known).collect();
                found.sort_unstable();
                found
            }
        }
    }
}
