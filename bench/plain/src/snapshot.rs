//! Snapshots: a state as bytes. All numbers have their highest byte first.
use crate::records::Refusal;
use crate::rows::Rows;
use crate::schema::Schema;
use crate::texts::Texts;
use crate::warehouse::Warehouse;

const MARK: &[u8] = b"QCUBESN1";

pub fn pack(warehouse: &Warehouse) -> Vec<u8> {
    let mut out = MARK.to_vec();
    let push = |out: &mut Vec<u8>, number: usize| out.extend_from_slice(&(number as u32).to_be_bytes());
    let schema = warehouse.schema.text();
    push(&mut out, schema.len());
    out.extend_from_slice(schema.as_bytes());
    for texts in &warehouse.texts {
        push(&mut out, texts.len());
        for text in texts.iter() {
            out.push(text.len() as u8);
            out.extend_from_slice(text);
        }
    }
    let rows = warehouse.rows.in_order();
    push(&mut out, rows.len());
    for row in rows {
        out.extend_from_slice(&warehouse.rows.id(row).to_be_bytes());
        for code in warehouse.rows.codes(row) {
            out.extend_from_slice(&code.to_be_bytes());
        }
        for amount in warehouse.rows.amounts(row) {
            out.extend_from_slice(&amount.to_be_bytes());
        }
    }
    out
}

struct Bytes<'a>(&'a [u8]);

impl<'a> Bytes<'a> {
    fn take(&mut self, many: usize) -> Option<&'a [u8]> {
        let taken = self.0.get(..many)?;
        self.0 = &self.0[many..];
        Some(taken)
    }

    fn number(&mut self) -> Option<u32> {
        Some(u32::from_be_bytes(self.take(4)?.try_into().ok()?))
    }

    fn long(&mut self) -> Option<u64> {
        Some(u64::from_be_bytes(self.take(8)?.try_into().ok()?))
    }
}

/// Reads a snapshot. There is one refusal for all faults.
pub fn open(bytes: &[u8]) -> Option<Warehouse> {
    let mut bytes = Bytes(bytes);
    if bytes.take(MARK.len())? != MARK {
        return None;
    }
    let len = bytes.number()? as usize;
    let text = std::str::from_utf8(bytes.take(len)?).ok()?;
    let schema = Schema::read(text).ok().filter(|schema| schema.text() == text)?;
    let texts = schema.dims.iter().map(|_| read_texts(&mut bytes, schema.values)).collect::<Option<Vec<_>>>()?;
    let rows = read_rows(&mut bytes, &schema, &texts)?;
    if !bytes.0.is_empty() {
        return None;
    }
    let mut warehouse = Warehouse::new(schema);
    let filled: Result<(), Refusal> = warehouse.fill(texts, rows);
    filled.ok().map(|()| warehouse)
}

fn read_texts(bytes: &mut Bytes, most: usize) -> Option<Texts> {
    let mut texts = Texts::default();
    let many = bytes.number()? as usize;
    for code in 0..many {
        let len = usize::from(bytes.take(1)?[0]);
        let text = bytes.take(len)?;
        std::str::from_utf8(text).ok()?;
        if texts.learn(text) as usize != code || code >= most {
            return None;
        }
    }
    Some(texts)
}

fn read_rows(bytes: &mut Bytes, schema: &Schema, texts: &[Texts]) -> Option<Rows> {
    let mut rows = Rows::new(schema.dims.len(), schema.measures.len());
    let many = bytes.number()? as usize;
    if many > schema.rows {
        return None;
    }
    let mut codes = vec![0; schema.dims.len()];
    let mut amounts = vec![0; schema.measures.len()];
    for _ in 0..many {
        let id = bytes.long()?;
        for (code, texts) in codes.iter_mut().zip(texts) {
            *code = bytes.number()?;
            if *code as usize >= texts.len() {
                return None;
            }
        }
        for amount in &mut amounts {
            *amount = bytes.long()? as i64;
            if amount.unsigned_abs() > crate::numbers::MOST_AMOUNT as u64 {
                return None;
            }
        }
        if rows.slot(id).is_some() {
            return None;
        }
        rows.insert(id, &codes, &amounts);
    }
    Some(rows)
}
