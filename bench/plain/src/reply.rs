//! The records of replies.
use crate::numbers::*;
use crate::pins::{Counts, NOW};
use crate::texts::Texts;
use crate::tree::*;
use crate::warehouse::Warehouse;

/// Appends a value as a field of a cell.
fn push_value(out: &mut Vec<u8>, texts: &Texts, code: u32) {
    let text = texts.text(code);
    let is_marked = matches!(text, b"*" | b"?") || matches!(text.first(), Some(b'|' | b'~' | b'='));
    if !text.iter().any(|byte| matches!(byte, b',' | b'"' | b'\r' | b'\n')) {
        if is_marked {
            out.push(b'=');
        }
        return out.extend_from_slice(text);
    }
    out.push(b'"');
    if is_marked {
        out.push(b'=');
    }
    for &byte in text {
        if byte == b'"' {
            out.push(byte);
        }
        out.push(byte);
    }
    out.push(b'"');
}

impl Warehouse {
    /// Appends the word of a record, its line, and a cell.
    pub fn push_cell(&self, out: &mut Vec<u8>, word: &str, line: usize, cell: &[u32]) {
        out.extend_from_slice(word.as_bytes());
        out.push(b',');
        push_number(out, line);
        for (code, texts) in cell.iter().zip(&self.texts) {
            out.push(b',');
            if *code == ANY {
                out.push(b'*');
            } else {
                push_value(out, texts, *code);
            }
        }
    }

    /// Appends the aggregate of a class, and ends the record.
    pub fn push_class(&self, out: &mut Vec<u8>, class: u32) {
        let count = self.tree.node(class).count;
        out.push(b',');
        push_number(out, count);
        for (part, measure) in self.tree.parts(class).iter().zip(&self.schema.measures) {
            for amount in [part.sum, part.least, part.greatest] {
                out.push(b',');
                push_amount(out, amount, measure.1);
            }
            out.push(b',');
            push_mean(out, part.sum, count, measure.1);
        }
        out.push(b'\n');
    }

    /// The counts of the state that readers see.
    pub fn counts(&self) -> Counts {
        let tree = &self.tree;
        if tree.view != NOW {
            return tree.pins[tree.view].counts;
        }
        Counts { rows: self.rows.len(), classes: tree.classes, nodes: tree.len(), links: tree.links() }
    }

    pub fn push_stats(&self, out: &mut Vec<u8>, line: usize) {
        out.extend_from_slice(b"stats,");
        push_number(out, line);
        let Counts { rows, classes, nodes, links } = self.counts();
        for number in [rows, classes, nodes, nodes.saturating_sub(1), links] {
            out.push(b',');
            push_number(out, number);
        }
        out.push(b'\n');
    }
}

/// Appends a record of a word, a line and numbers.
pub fn push_record(out: &mut Vec<u8>, word: &str, line: usize, numbers: &[usize]) {
    out.extend_from_slice(word.as_bytes());
    out.push(b',');
    push_number(out, line);
    for number in numbers {
        out.push(b',');
        push_number(out, *number);
    }
    out.push(b'\n');
}

pub fn push_refusal(out: &mut Vec<u8>, line: usize, code: &str) {
    out.extend_from_slice(b"refused,");
    push_number(out, line);
    out.push(b',');
    out.extend_from_slice(code.as_bytes());
    out.push(b'\n');
}
