//! Answers the lines of a script.
use crate::fields::{AskedCell, Fault};
use crate::numbers::push_number;
use crate::reply::{push_record, push_refusal};
use crate::pins::{MOST_PINS, NOW};
use crate::schema::{is_name, lines, without_mark};
use crate::warehouse::Warehouse;
use std::io::{Read, Write};

/// The greatest size of a file, in bytes.
pub const MOST_BYTES: usize = 268_435_456;

/// Why a run stops before its end.
pub enum Stop {
    CannotRead(Vec<u8>),
    CannotWrite,
}

/// Reads a file, up to one byte more than is allowed.
pub fn read_file(name: &[u8]) -> Result<Vec<u8>, Stop> {
    use std::os::unix::ffi::OsStrExt;
    let stop = || Stop::CannotRead(name.to_vec());
    let file = std::fs::File::open(std::ffi::OsStr::from_bytes(name)).map_err(|_| stop())?;
    let len = file.metadata().map_or(0, |data| data.len() as usize);
    let mut bytes = Vec::with_capacity(len.min(MOST_BYTES) + 1);
    file.take(MOST_BYTES as u64 + 1).read_to_end(&mut bytes).map_err(|_| stop())?;
    Ok(bytes)
}

/// Answers each line that isn't ignored. Without a sink no reply is kept.
pub fn run(warehouse: &mut Warehouse, script: &[u8], mut sink: Option<&mut dyn Write>) -> Result<(), Stop> {
    let mut out = Vec::new();
    let mut result = Ok(());
    for (k, line) in lines(without_mark(script)).enumerate() {
        if line.is_empty() || line[0] == b'#' {
            continue;
        }
        result = take_line(warehouse, &mut out, k + 1, line);
        if result.is_err() {
            break;
        }
        if out.len() >= 1 << 16 {
            flush(&mut sink, &mut out)?;
        }
    }
    flush(&mut sink, &mut out)?;
    result
}

fn flush(sink: &mut Option<&mut dyn Write>, out: &mut Vec<u8>) -> Result<(), Stop> {
    if let Some(sink) = sink {
        sink.write_all(out).and_then(|()| sink.flush()).map_err(|_| Stop::CannotWrite)?;
    }
    out.clear();
    Ok(())
}

fn take_line(warehouse: &mut Warehouse, out: &mut Vec<u8>, line: usize, text: &[u8]) -> Result<(), Stop> {
    if !text.is_ascii() && std::str::from_utf8(text).is_err() {
        push_refusal(out, line, "utf8");
        return Ok(());
    }
    let end = text.iter().position(|&byte| byte == b' ');
    let word = &text[..end.unwrap_or(text.len())];
    let rest = end.map_or(&b""[..], |end| &text[end + 1..]);
    match word {
        b"load" | b"apply" | b"try" => return take_file(warehouse, out, line, word, rest),
        b"widen" => widen(warehouse, out, line, rest),
        b"pin" if end.is_some() => pin(warehouse, out, line, rest),
        b"unpin" if end.is_some() => unpin(warehouse, out, line, rest),
        b"pin" | b"unpin" => push_refusal(out, line, "field,1"),
        b"at" => at(warehouse, out, line, rest),
        _ => {
            if let Err(fault) = ask_line(warehouse, out, line, text) {
                push_fault(out, line, fault);
            }
        }
    }
    Ok(())
}

fn push_fault(out: &mut Vec<u8>, line: usize, fault: Option<Fault>) {
    match fault {
        Some(Fault::Field(k)) => push_refusal(out, line, &format!("field,{k}")),
        Some(Fault::Number) => push_refusal(out, line, "number"),
        None => push_refusal(out, line, "command"),
    }
}

fn name_of(text: &[u8]) -> Option<&str> {
    std::str::from_utf8(text).ok().filter(|name| is_name(name))
}

fn pin(warehouse: &mut Warehouse, out: &mut Vec<u8>, line: usize, rest: &[u8]) {
    let Some(name) = name_of(rest) else { return push_refusal(out, line, "field,1") };
    if warehouse.tree.pinned(name).is_some() {
        return push_refusal(out, line, "name-taken");
    }
    if warehouse.tree.pins.len() == MOST_PINS {
        return push_refusal(out, line, "all-pinned");
    }
    let counts = warehouse.counts();
    warehouse.tree.pin(name, counts);
    out.extend_from_slice(format!("pinned,{line},{name},{}\n", counts.classes).as_bytes());
}

fn unpin(warehouse: &mut Warehouse, out: &mut Vec<u8>, line: usize, rest: &[u8]) {
    let Some(name) = name_of(rest) else { return push_refusal(out, line, "field,1") };
    match warehouse.tree.pinned(name) {
        None => push_refusal(out, line, "not-pinned"),
        Some(place) => {
            warehouse.tree.unpin(place);
            out.extend_from_slice(format!("unpinned,{line},{name}\n").as_bytes());
        }
    }
}

// A fault in the line after the name counts before a name that isn't pinned.
fn at(warehouse: &mut Warehouse, out: &mut Vec<u8>, line: usize, rest: &[u8]) {
    let end = rest.iter().position(|&byte| byte == b' ');
    let Some(name) = name_of(&rest[..end.unwrap_or(rest.len())]) else { return push_refusal(out, line, "field,1") };
    let begin = out.len();
    let pin = warehouse.tree.pinned(name);
    warehouse.tree.view = pin.unwrap_or(NOW);
    let result = ask_line(warehouse, out, line, end.map_or(b"", |end| &rest[end + 1..]));
    warehouse.tree.view = NOW;
    if let Err(fault) = result {
        push_fault(out, line, fault);
    } else if pin.is_none() {
        out.truncate(begin);
        push_refusal(out, line, "not-pinned");
    }
}

// Answers a line that changes nothing.
fn ask_line(warehouse: &mut Warehouse, out: &mut Vec<u8>, line: usize, text: &[u8]) -> Result<(), Option<Fault>> {
    let end = text.iter().position(|&byte| byte == b' ');
    if text == b"stats" {
        warehouse.push_stats(out, line);
        return Ok(());
    }
    ask(warehouse, out, line, &text[..end.unwrap_or(text.len())], end.map_or(b"", |end| &text[end + 1..]))
}

fn take_file(warehouse: &mut Warehouse, out: &mut Vec<u8>, line: usize, word: &[u8], name: &[u8]) -> Result<(), Stop> {
    if name.is_empty() {
        push_refusal(out, line, "field,1");
        return Ok(());
    }
    let bytes = read_file(name)?;
    if bytes.len() > MOST_BYTES {
        push_refusal(out, line, "size");
        return Ok(());
    }
    let result = if word == b"load" {
        warehouse.load(bytes).map(|records| (records, warehouse.tree.classes))
    } else {
        warehouse.apply(&bytes, word == b"try")
    };
    match result {
        Ok((records, classes)) => push_record(out, "applied", line, &[records, classes]),
        Err(code) => push_refusal(out, line, &code),
    }
    Ok(())
}

fn widen(warehouse: &mut Warehouse, out: &mut Vec<u8>, line: usize, rest: &[u8]) {
    let end = rest.iter().position(|&byte| byte == b' ');
    let name = std::str::from_utf8(&rest[..end.unwrap_or(rest.len())]).unwrap_or("");
    if !warehouse.schema.is_free(name) {
        return push_refusal(out, line, "field,1");
    }
    let Some(value) = end.map(|end| &rest[end + 1..]).filter(|value| value.len() <= 255) else {
        return push_refusal(out, line, "field,2");
    };
    if !warehouse.tree.pins.is_empty() {
        return push_refusal(out, line, "pinned");
    }
    match warehouse.widen(name, value) {
        Ok(()) => push_record(out, "widened", line, &[warehouse.schema.dims.len(), warehouse.tree.classes]),
        Err(code) => push_refusal(out, line, &code),
    }
}

fn ask(warehouse: &mut Warehouse, out: &mut Vec<u8>, line: usize, word: &[u8], rest: &[u8]) -> Result<(), Option<Fault>> {
    match word {
        b"point" => point(warehouse, out, line, warehouse.read_cell(rest, 0)?),
        b"bounds" => with_class(warehouse, out, line, warehouse.read_cell(rest, 0)?, Warehouse::bounds),
        b"parents" => with_class(warehouse, out, line, warehouse.read_cell(rest, 0)?, Warehouse::parents),
        b"children" => {
            warehouse.rank_all();
            with_class(warehouse, out, line, warehouse.read_cell(rest, 0)?, Warehouse::children);
        }
        b"rollup" => {
            warehouse.rank_all();
            let (ask, cell) = warehouse.read_rollup(rest)?;
            with_class(warehouse, out, line, cell, |warehouse, out, line, class| warehouse.rollup(out, line, &ask, class));
        }
        b"iceberg" => {
            warehouse.rank_all();
            warehouse.iceberg(out, line, &warehouse.read_iceberg(rest)?);
        }
        b"range" => {
            let asked = warehouse.read_box(rest)?;
            if !warehouse.range(out, line, &asked) {
                push_refusal(out, line, "too-many-cells");
            }
        }
        _ => return Err(None),
    }
    Ok(())
}

fn none(out: &mut Vec<u8>, line: usize) {
    out.extend_from_slice(b"none,");
    push_number(out, line);
    out.push(b'\n');
}

fn point(warehouse: &Warehouse, out: &mut Vec<u8>, line: usize, asked: AskedCell) {
    let dims = warehouse.texts.len();
    match asked.and_then(|cell| Some((cell, warehouse.tree.find(&cell[..dims])?))) {
        None => none(out, line),
        Some((cell, class)) => {
            warehouse.push_cell(out, "point", line, &cell[..dims]);
            warehouse.push_class(out, class);
        }
    }
}

fn with_class(
    warehouse: &Warehouse,
    out: &mut Vec<u8>,
    line: usize,
    asked: AskedCell,
    answer: impl Fn(&Warehouse, &mut Vec<u8>, usize, u32),
) {
    match asked.and_then(|cell| warehouse.tree.find(&cell[..warehouse.texts.len()])) {
        None => none(out, line),
        Some(class) => answer(warehouse, out, line, class),
    }
}
