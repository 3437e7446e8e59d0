//! Base files and batches: their records as changes, or the first fault.
use crate::numbers;
use crate::schema::{without_mark, Schema};
use crate::texts::Texts;
use csv::{ByteRecord, ReaderBuilder};

/// A refusal, as it stands in the reply.
pub type Refusal = String;

/// The deletions and insertions of a file, with the numbers of their records.
#[derive(Default)]
pub struct Changes {
    pub deletions: Vec<(u64, usize)>,
    pub insertions: Vec<(u64, usize)>,
    pub codes: Vec<u32>,
    pub amounts: Vec<i64>,
    pub records: usize,
}

/// The places of the columns.
struct Columns {
    many: usize,
    op: Option<usize>,
    id: usize,
    dims: Vec<usize>,
    measures: Vec<usize>,
}

impl Columns {
    fn read(schema: &Schema, header: &ByteRecord, is_batch: bool) -> Option<Columns> {
        let place = |name: &str| {
            let mut places = (0..header.len()).filter(|k| &header[*k] == name.as_bytes());
            let first = places.next()?;
            places.next().is_none().then_some(first)
        };
        Some(Columns {
            many: header.len(),
            op: if is_batch { Some(place("op")?) } else { None },
            id: place(&schema.id)?,
            dims: schema.dims.iter().map(|name| place(name)).collect::<Option<_>>()?,
            measures: schema.measures.iter().map(|measure| place(&measure.0)).collect::<Option<_>>()?,
        })
    }
}

/// Reads a file. Texts are learnt during the reading; the caller drops them again if the file is refused.
pub fn read(schema: &Schema, texts: &mut [Texts], bytes: &[u8], is_batch: bool) -> Result<Changes, Refusal> {
    let bytes = without_mark(bytes);
    if bytes.starts_with(b"\xEF\xBB\xBF") {
        return Err("header".into());
    }
    let mut reader = ReaderBuilder::new().has_headers(false).flexible(true).buffer_capacity(1 << 16).from_reader(bytes);
    let mut record = ByteRecord::new();
    let mut next = |record: &mut ByteRecord| reader.read_byte_record(record).unwrap_or(false);
    if !next(&mut record) {
        return Err("header".into());
    }
    let columns = Columns::read(schema, &record, is_batch).ok_or("header")?;
    let mut changes = Changes::default();
    while next(&mut record) {
        changes.records += 1;
        let k = changes.records;
        take_record(schema, texts, &columns, &record, &mut changes).map_err(|code| format!("{code},{k}"))?;
    }
    Ok(changes)
}

fn take_record(
    schema: &Schema,
    texts: &mut [Texts],
    columns: &Columns,
    record: &ByteRecord,
    changes: &mut Changes,
) -> Result<(), &'static str> {
    if record.len() != columns.many {
        return Err("fields");
    }
    if columns.dims.iter().any(|&at| !record[at].is_ascii() && std::str::from_utf8(&record[at]).is_err()) {
        return Err("utf8");
    }
    let deletes = match columns.op.map(|at| &record[at]) {
        None | Some(b"+") => false,
        Some(b"-") => true,
        _ => return Err("op"),
    };
    let id = numbers::id(&record[columns.id]).ok_or("id")?;
    if deletes {
        changes.deletions.push((id, changes.records));
        return Ok(());
    }
    for (&at, measure) in columns.measures.iter().zip(&schema.measures) {
        changes.amounts.push(numbers::amount(&record[at], measure.1).ok_or("amount")?);
    }
    if columns.dims.iter().any(|&at| record[at].len() > 255) {
        return Err("value");
    }
    for (&at, texts) in columns.dims.iter().zip(texts) {
        changes.codes.push(texts.learn(&record[at]));
    }
    changes.insertions.push((id, changes.records));
    Ok(())
}
