//! Single parts of the work, for the benchmarks that measure them. `rows FILE` reads the records of a file and keeps them. `texts
//! FILE` learns the distinct texts of its second column. `tree FILE` builds the tree of its rows and prints the number of nodes.
//! `points FILE` asks 500,000 points of cells that generalize its rows, and prints the seconds they took.
use crate::schema::Schema;
use crate::tree::ANY;
use crate::warehouse::Warehouse;
use csv::{ReaderBuilder, StringRecord};
use indexmap::IndexSet;
use std::error::Error;

const SCHEMA: &str =
    "qcube 1\nid id\ndim a\ndim b\ndim c\ndim d\ndim e\ndim f\nmeasure sale 2\nnodes 4000000\n";

pub fn run(word: &str, file: &str) -> Result<usize, Box<dyn Error>> {
    let bytes = std::fs::read(file)?;
    match word {
        "tree" => Ok(loaded(bytes)?.tree.len()),
        "points" => points(&loaded(bytes)?),
        _ => read(word, &bytes),
    }
}

fn loaded(bytes: Vec<u8>) -> Result<Warehouse, Box<dyn Error>> {
    let mut warehouse = Warehouse::new(Schema::read(SCHEMA).map_err(|fault| fault.1)?);
    warehouse.load(bytes)?;
    Ok(warehouse)
}

fn points(warehouse: &Warehouse) -> Result<usize, Box<dyn Error>> {
    let rows = warehouse.rows.in_order();
    let mut state = 7_u64;
    let mut found = 0;
    let begin = std::time::Instant::now();
    for _ in 0..500_000 {
        state = state.wrapping_mul(6_364_136_223_846_793_005).wrapping_add(1_442_695_040_888_963_407);
        let mut asked = [ANY; 6];
        asked.copy_from_slice(warehouse.rows.codes(rows[(state >> 33) as usize % rows.len()]));
        for (dim, code) in asked.iter_mut().enumerate() {
            if state >> dim & 1 == 1 {
                *code = ANY;
            }
        }
        found += usize::from(warehouse.tree.find(&asked).is_some_and(|class| warehouse.tree.node(class).count > 0));
    }
    println!("{:.4}", begin.elapsed().as_secs_f64());
    Ok(found)
}

fn read(word: &str, bytes: &[u8]) -> Result<usize, Box<dyn Error>> {
    let mut reader = ReaderBuilder::new().flexible(true).from_reader(bytes);
    let mut record = StringRecord::new();
    if word == "rows" {
        let mut kept = Vec::new();
        while reader.read_record(&mut record)? {
            kept.push(record.clone());
        }
        return Ok(kept.len());
    }
    let mut texts: IndexSet<String> = IndexSet::new();
    while reader.read_record(&mut record)? {
        if !texts.contains(&record[1]) {
            texts.insert(record[1].to_string());
        }
    }
    Ok(texts.len())
}
