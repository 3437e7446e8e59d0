//! A plain program with the words, files and replies of qcube, hand-written for speed and without proofs. The benchmarks run
//! qcube beside it. No proof says that its tree is canonical.
//!
//! It has all words and commands, except for the reply `memory` and status 5: it aborts if memory runs out. Its indexes have only
//! the present rows, so an iceberg at a pin walks the tree. It is no reference: if its reply differs from qcube's, qcube's is the
//! proved one.
mod build;
mod delete;
mod fields;
mod generated;
mod index;
mod insert;
mod numbers;
mod parts;
mod pins;
mod queries;
mod ranges;
mod records;
mod reply;
mod rows;
mod schema;
mod script;
mod snapshot;
mod texts;
mod tree;
mod warehouse;

use schema::{without_mark, Schema};
use script::{read_file, Stop, MOST_BYTES};
use std::io::Write;
use std::os::unix::ffi::OsStringExt;
use warehouse::Warehouse;

const USAGE: &str = "usage: qcube run SCHEMA SCRIPT | qcube gen ROWS SEED | qcube pack SCHEMA SCRIPT | qcube open SNAPSHOT SCRIPT";

/// A status and the line on standard error.
type End = (i32, Vec<u8>);

fn end(status: i32, message: &str) -> End {
    (status, message.as_bytes().to_vec())
}

fn stopped(stop: Stop) -> End {
    match stop {
        Stop::CannotRead(name) => (3, [b"cannot read ", &name[..]].concat()),
        Stop::CannotWrite => end(4, "cannot write"),
    }
}

fn read_first(name: &[u8]) -> Result<Vec<u8>, End> {
    let bytes = read_file(name).map_err(stopped)?;
    if bytes.len() > MOST_BYTES {
        return Err((6, [name, b" is too long"].concat()));
    }
    Ok(bytes)
}

fn read_schema(bytes: &[u8]) -> Result<Warehouse, End> {
    let text = std::str::from_utf8(without_mark(bytes)).map_err(|_| end(6, "schema not UTF-8"))?;
    let schema = Schema::read(text).map_err(|fault| end(6, &format!("schema line {}: {}", fault.0, fault.1)))?;
    Ok(Warehouse::new(schema))
}

fn write(bytes: &[u8]) -> Result<(), End> {
    let mut out = std::io::stdout().lock();
    out.write_all(bytes).and_then(|()| out.flush()).map_err(|_| stopped(Stop::CannotWrite))
}

fn run(word: &str, first: &[u8], script: &[u8]) -> Result<(), End> {
    let first = read_first(first)?;
    let mut warehouse = match word {
        "open" => snapshot::open(&first).ok_or_else(|| end(6, "snapshot refused"))?,
        _ => read_schema(&first)?,
    };
    drop(first);
    let script = read_first(script)?;
    if word == "pack" {
        script::run(&mut warehouse, &script, None).map_err(stopped)?;
        let bytes = snapshot::pack(&warehouse);
        if bytes.len() > MOST_BYTES {
            return Err(end(6, "snapshot is too long"));
        }
        return write(&bytes);
    }
    let result = script::run(&mut warehouse, &script, Some(&mut std::io::stdout().lock())).map_err(stopped);
    // The end of the process frees all memory at once.
    std::mem::forget(warehouse);
    result
}

fn generate(rows: &[u8], seed: &[u8]) -> Option<Result<(), End>> {
    let rows = numbers::id(rows).filter(|rows| (1..=1_000_000).contains(rows))?;
    let seed = numbers::id(seed)?;
    Some(match generated::run(rows, seed) {
        Some(record) => write(&record),
        None => Err(end(9, "a generated file was refused")),
    })
}

fn take_words(words: &[Vec<u8>]) -> Option<Result<(), End>> {
    let [word, first, second] = words else { return None };
    match std::str::from_utf8(word).unwrap_or("") {
        "gen" => generate(first, second),
        word @ ("run" | "pack" | "open") => Some(run(word, first, second)),
        _ => None,
    }
}

fn main() {
    let words: Vec<Vec<u8>> = std::env::args_os().skip(1).map(|word| word.into_vec()).collect();
    if let [word, file] = &words[..] {
        let (word, file) = (String::from_utf8_lossy(word), String::from_utf8_lossy(file));
        if ["rows", "texts", "tree", "points"].contains(&&word[..]) {
            let count = parts::run(&word, &file).unwrap_or_else(|error| panic!("{error}"));
            return println!("{count}");
        }
    }
    let (status, message) = match take_words(&words) {
        Some(Ok(())) => return,
        Some(Err((status, message))) => (status, [b"qcube: ", &message[..]].concat()),
        None => (2, USAGE.as_bytes().to_vec()),
    };
    let _ = std::io::stderr().write_all(&[&message[..], b"\n"].concat());
    std::process::exit(status);
}
