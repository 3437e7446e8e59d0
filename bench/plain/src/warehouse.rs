//! The state: texts, rows, the tree and its indexes, and the changes that files make to it.
use crate::build::build;
use crate::delete::{delete, Deleter};
use crate::index::Indexes;
use crate::insert::insert;
use crate::records::{self, Changes, Refusal};
use crate::rows::Rows;
use crate::schema::{Schema, MAX_DIMS};
use crate::texts::{Fast, Ranks, Texts};
use crate::tree::Tree;
use std::collections::{HashMap, HashSet};

pub struct Warehouse {
    pub schema: Schema,
    pub texts: Vec<Texts>,
    pub rows: Rows,
    pub tree: Tree,
    pub indexes: Indexes,
    /// The sorted texts of each dimension, if they were asked for.
    pub ranks: Vec<Ranks>,
    found: Vec<u32>,
    deleter: Deleter,
}

impl Warehouse {
    pub fn new(schema: Schema) -> Warehouse {
        let (dims, measures) = (schema.dims.len(), schema.measures.len());
        let mut tree = Tree::new(dims, measures);
        if !schema.indexes.is_empty() {
            tree.changed = Some(Vec::new());
        }
        Warehouse {
            indexes: Indexes::new(&schema.indexes),
            texts: vec![Texts::default(); dims],
            rows: Rows::new(dims, measures),
            tree,
            ranks: vec![Ranks::default(); dims],
            schema,
            found: Vec::new(),
            deleter: Deleter::default(),
        }
    }

    /// Loads a base file if no row is present. Gives the number of its records.
    pub fn load(&mut self, bytes: Vec<u8>) -> Result<usize, Refusal> {
        if self.rows.len() > 0 {
            return Err("not-empty".into());
        }
        let lens = self.lens();
        let result = self.try_load(bytes, &lens);
        if result.is_err() {
            self.forget(&lens);
            self.rows.clear();
            self.tree.clear();
        }
        result
    }

    fn try_load(&mut self, bytes: Vec<u8>, lens: &[usize]) -> Result<usize, Refusal> {
        let changes = records::read(&self.schema, &mut self.texts, &bytes, false)?;
        drop(bytes);
        let dims = self.schema.dims.len();
        let measures = self.schema.measures.len();
        self.rows.clear();
        self.rows.reserve(changes.insertions.len());
        for (k, (id, record)) in changes.insertions.iter().enumerate() {
            if self.rows.slot(*id).is_some() {
                return Err(format!("twice,{record}"));
            }
            self.rows.insert(*id, &changes.codes[k * dims..][..dims], &changes.amounts[k * measures..][..measures]);
        }
        self.check_limits(changes.insertions.len(), lens)?;
        let records = changes.records;
        drop(changes);
        self.build()?;
        Ok(records)
    }

    fn build(&mut self) -> Result<(), Refusal> {
        self.tree.clear();
        let mut rows = self.rows.in_order();
        if !build(&mut self.tree, &self.rows, &mut rows, self.schema.nodes) {
            return Err("nodes".into());
        }
        self.indexes.rebuild(&mut self.tree);
        Ok(())
    }

    fn lens(&self) -> Vec<usize> {
        self.texts.iter().map(Texts::len).collect()
    }

    fn forget(&mut self, lens: &[usize]) {
        for (texts, len) in self.texts.iter_mut().zip(lens) {
            texts.truncate(*len);
        }
    }

    fn check_limits(&self, rows: usize, lens: &[usize]) -> Result<(), Refusal> {
        if rows > self.schema.rows {
            return Err("rows".into());
        }
        for ((texts, len), name) in self.texts.iter().zip(lens).zip(&self.schema.dims) {
            if texts.len() > self.schema.values.max(*len) {
                return Err(format!("values,{name}"));
            }
        }
        Ok(())
    }

    /// Applies a batch, or makes a dry run of it. Gives the number of its records, and of the classes after it.
    pub fn apply(&mut self, bytes: &[u8], is_try: bool) -> Result<(usize, usize), Refusal> {
        let lens = self.lens();
        let result = self.try_apply(bytes, is_try, &lens);
        if is_try || result.is_err() {
            self.forget(&lens);
        }
        for (dim, len) in lens.into_iter().enumerate() {
            if self.texts[dim].len() != len {
                self.ranks[dim] = Ranks::default();
            }
        }
        result
    }

    fn try_apply(&mut self, bytes: &[u8], is_try: bool, lens: &[usize]) -> Result<(usize, usize), Refusal> {
        let changes = records::read(&self.schema, &mut self.texts, bytes, true)?;
        self.check_ids(&changes)?;
        self.check_limits(self.rows.len() + changes.insertions.len() - changes.deletions.len(), lens)?;
        let deleted: Vec<u32> = changes.deletions.iter().filter_map(|(id, _)| self.rows.slot(*id)).collect();
        for &row in &deleted {
            delete(&mut self.tree, &self.rows, row, &mut self.deleter);
            self.rows.remove(row);
        }
        let (dims, measures) = (self.schema.dims.len(), self.schema.measures.len());
        let mut inserted = Vec::with_capacity(changes.insertions.len());
        for (k, (id, _)) in changes.insertions.iter().enumerate() {
            let row = self.rows.insert(*id, &changes.codes[k * dims..][..dims], &changes.amounts[k * measures..][..measures]);
            inserted.push(row);
            insert(&mut self.tree, &self.rows, row, &mut self.found);
            if self.tree.len() > self.schema.nodes {
                break;
            }
        }
        let is_full = self.tree.len() > self.schema.nodes;
        let classes = self.tree.classes;
        if is_full || is_try {
            self.undo(&deleted, &inserted);
        } else {
            deleted.iter().for_each(|row| self.rows.release(*row));
        }
        self.indexes.take_changes(&mut self.tree);
        if is_full { Err("nodes".into()) } else { Ok((changes.records, classes)) }
    }

    // Trees of the same rows are equal, except for the numbers of their nodes.
    fn undo(&mut self, deleted: &[u32], inserted: &[u32]) {
        for &row in inserted.iter().rev() {
            delete(&mut self.tree, &self.rows, row, &mut self.deleter);
            self.rows.remove(row);
            self.rows.release(row);
        }
        for &row in deleted {
            self.rows.restore(row);
            insert(&mut self.tree, &self.rows, row, &mut self.found);
        }
    }

    fn check_ids(&self, changes: &Changes) -> Result<(), Refusal> {
        let mut deleted: HashMap<u64, usize, Fast> = HashMap::default();
        let mut inserted: HashSet<u64, Fast> = HashSet::default();
        let mut twice = usize::MAX;
        for (id, record) in &changes.deletions {
            if deleted.insert(*id, *record).is_some() {
                twice = twice.min(*record);
            }
        }
        for (id, record) in &changes.insertions {
            if !inserted.insert(*id) {
                twice = twice.min(*record);
            }
        }
        if twice < usize::MAX {
            return Err(format!("twice,{twice}"));
        }
        if let Some((_, record)) = changes.deletions.iter().find(|(id, _)| self.rows.slot(*id).is_none()) {
            return Err(format!("missing,{record}"));
        }
        let is_present = |id: &u64| self.rows.slot(*id).is_some() && !deleted.contains_key(id);
        if let Some((_, record)) = changes.insertions.iter().find(|(id, _)| is_present(id)) {
            return Err(format!("present,{record}"));
        }
        Ok(())
    }

    /// Gives each row a value in a new last dimension.
    pub fn widen(&mut self, name: &str, value: &[u8]) -> Result<(), Refusal> {
        let most = if self.schema.version == 1 { 12 } else { MAX_DIMS };
        if self.schema.dims.len() == most {
            return Err("dims".into());
        }
        if self.tree.len() + self.tree.classes > self.schema.nodes {
            return Err("nodes".into());
        }
        self.tree.widen();
        self.rows.widen();
        self.indexes.take_changes(&mut self.tree);
        let mut texts = Texts::default();
        texts.learn(value);
        self.texts.push(texts);
        self.ranks.push(Ranks::default());
        self.schema.dims.push(name.to_string());
        Ok(())
    }

    /// Takes rows from another source, such as a snapshot, into an empty warehouse.
    pub fn fill(&mut self, texts: Vec<Texts>, rows: Rows) -> Result<(), Refusal> {
        self.texts = texts;
        self.rows = rows;
        self.build()
    }

    /// Makes sure that the texts of a dimension are ranked.
    pub fn rank(&mut self, dim: usize) {
        if self.ranks[dim].codes.len() != self.texts[dim].len() {
            self.ranks[dim] = self.texts[dim].ranks();
        }
    }

    pub fn rank_all(&mut self) {
        (0..self.texts.len()).for_each(|dim| self.rank(dim));
    }
}
