//! Generated runs: a base file and 40 batches, drawn from a number of rows and a seed.
use crate::numbers::{push_amount, push_number};
use crate::schema::Schema;
use crate::tree::ROOT;
use crate::warehouse::Warehouse;

const SCHEMA: &str = "qcube 1\nid id\ndim a\ndim b\ndim c\ndim d\ndim e\nmeasure amount 2\nindex sum amount\n";
const BATCHES: u64 = 40;

struct Draws(u64);

impl Draws {
    fn below(&mut self, most: u64) -> u64 {
        self.0 = self.0.wrapping_mul(6_364_136_223_846_793_005).wrapping_add(1_442_695_040_888_963_407);
        (self.0 >> 33) % most
    }

    fn push_row(&mut self, out: &mut Vec<u8>, id: u64) {
        push_number(out, id);
        for (name, most) in [(b'a', 40), (b'b', 20), (b'c', 10), (b'd', 5), (b'e', 4)] {
            out.extend_from_slice(&[b',', name]);
            push_number(out, self.below(most));
        }
        out.push(b',');
        push_amount(out, (id % 1001) as i64 - 500, 2);
        out.push(b'\n');
    }
}

/// Writes the record of a generated run.
pub fn run(rows: u64, seed: u64) -> Option<Vec<u8>> {
    let mut draws = Draws(seed);
    let mut warehouse = Warehouse::new(Schema::read(SCHEMA).ok()?);
    let mut file = b"id,a,b,c,d,e,amount\n".to_vec();
    for id in 1..=rows {
        draws.push_row(&mut file, id);
    }
    warehouse.load(file).ok()?;
    let width = rows.min(50);
    for batch in 0..BATCHES {
        let mut file = b"op,id,a,b,c,d,e,amount\n".to_vec();
        for id in batch * width + 1..=(batch + 1) * width {
            file.extend_from_slice(b"-,");
            push_number(&mut file, id);
            file.extend_from_slice(b",,,,,,\n");
        }
        for id in batch * width + 1..=(batch + 1) * width {
            file.extend_from_slice(b"+,");
            draws.push_row(&mut file, rows + id);
        }
        warehouse.apply(&file, false).ok()?;
    }
    let tree = &warehouse.tree;
    let mut out = b"gen".to_vec();
    for number in [rows, seed, tree.classes as u64, tree.len() as u64, tree.len() as u64 - 1, tree.links() as u64] {
        out.push(b',');
        push_number(&mut out, number);
    }
    out.push(b',');
    push_amount(&mut out, tree.parts(tree.class_of(ROOT))[0].sum, 2);
    out.push(b'\n');
    Some(out)
}
