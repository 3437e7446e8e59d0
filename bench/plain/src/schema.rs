//! Schemas: their lines, their first fault, and their canonical text.
use std::fmt::Write;

pub const MAX_DIMS: usize = 16;

#[derive(Clone, Copy, PartialEq, Eq, Debug)]
pub enum Agg {
    Count,
    Sum,
    Least,
    Greatest,
    Mean,
}

/// An aggregate of a measure. COUNT has measure 0.
pub type Key = (Agg, usize);

#[derive(Clone)]
pub struct Schema {
    pub version: u8,
    pub id: String,
    pub dims: Vec<String>,
    pub measures: Vec<(String, u8)>,
    pub indexes: Vec<Key>,
    pub nodes: usize,
    pub rows: usize,
    pub values: usize,
}

/// The first wrong line, and why it is wrong.
pub struct Fault(pub usize, pub &'static str);

pub fn is_name(text: &str) -> bool {
    let bytes = text.as_bytes();
    !bytes.is_empty()
        && bytes.len() <= 32
        && bytes[0].is_ascii_alphabetic()
        && bytes.iter().all(|byte| byte.is_ascii_alphanumeric() || *byte == b'_')
}

pub fn agg_of(word: &str) -> Option<Agg> {
    Some(match word {
        "count" => Agg::Count,
        "sum" => Agg::Sum,
        "least" => Agg::Least,
        "greatest" => Agg::Greatest,
        "mean" => Agg::Mean,
        _ => return None,
    })
}

/// The lines of a text, without a CR before an LF or at the end.
pub fn lines(text: &[u8]) -> impl Iterator<Item = &[u8]> {
    let text = text.strip_suffix(b"\n").map_or((text, !text.is_empty()), |text| (text, true));
    let count = if text.1 { usize::MAX } else { 0 };
    text.0.split(|&byte| byte == b'\n').take(count).map(|line| line.strip_suffix(b"\r").unwrap_or(line))
}

/// A text without the byte order mark at its start, if it has one.
pub fn without_mark(text: &[u8]) -> &[u8] {
    text.strip_prefix(b"\xEF\xBB\xBF").unwrap_or(text)
}

impl Schema {
    pub fn read(text: &str) -> Result<Schema, Fault> {
        let mut schema = Schema {
            version: 0,
            id: String::new(),
            dims: Vec::new(),
            measures: Vec::new(),
            indexes: Vec::new(),
            nodes: 0,
            rows: 0,
            values: 0,
        };
        let mut stage = 0;
        let mut count = 0;
        for line in lines(text.as_bytes()) {
            count += 1;
            let line = std::str::from_utf8(line).unwrap_or("");
            let words: Vec<&str> = line.split(' ').filter(|word| !word.is_empty()).collect();
            if words.is_empty() || line.starts_with('#') {
                continue;
            }
            stage = schema.take_line(stage, &words).map_err(|cause| Fault(count, cause))?;
        }
        if schema.dims.is_empty() {
            return Err(Fault(count + 1, "end"));
        }
        for (limit, most) in [(&mut schema.nodes, 1_000_000), (&mut schema.rows, 1_000_000), (&mut schema.values, 4_000_000)] {
            if *limit == 0 {
                *limit = most;
            }
        }
        Ok(schema)
    }

    // The place of a line in the order, after a line of place `stage`.
    fn place_of(&self, stage: u8, word: &str) -> Option<u8> {
        let (most_dims, most_measures) = if self.version == 1 { (12, 1) } else { (16, 4) };
        let place = match word {
            "id" if stage == 1 => 2,
            "dim" if (stage == 2 || stage == 3) && self.dims.len() < most_dims => 3,
            "measure" if (stage == 3 || stage == 4) && self.measures.len() < most_measures => 4,
            "index" if (3..=5).contains(&stage) => 5,
            "nodes" if (3..=5).contains(&stage) => 6,
            "rows" if (3..=6).contains(&stage) => 7,
            "values" if (3..=7).contains(&stage) => 8,
            _ => return None,
        };
        Some(place)
    }

    fn take_line(&mut self, stage: u8, words: &[&str]) -> Result<u8, &'static str> {
        if stage == 0 {
            self.version = match words {
                ["qcube", "1"] => 1,
                ["qcube", "2"] => 2,
                _ => return Err("version"),
            };
            return Ok(1);
        }
        let place = self.place_of(stage, words[0]).ok_or("order")?;
        let expected = match words[0] {
            "measure" => 3,
            "index" if words.get(1) != Some(&"count") => 3,
            _ => 2,
        };
        if words.len() != expected {
            return Err("words");
        }
        match words[0] {
            "id" | "dim" | "measure" => self.take_column(words)?,
            "index" => self.take_index(words)?,
            _ => self.take_limit(words)?,
        }
        Ok(place)
    }

    pub fn is_free(&self, name: &str) -> bool {
        is_name(name)
            && name != "op"
            && name != self.id
            && self.dims.iter().all(|dim| dim != name)
            && self.measures.iter().all(|measure| measure.0 != name)
    }

    fn take_column(&mut self, words: &[&str]) -> Result<(), &'static str> {
        if !self.is_free(words[1]) {
            return Err("name");
        }
        match words[0] {
            "id" => self.id = words[1].to_string(),
            "dim" => self.dims.push(words[1].to_string()),
            _ => {
                let scale = match words[2].as_bytes() {
                    [digit @ b'0'..=b'6'] => digit - b'0',
                    _ => return Err("number"),
                };
                self.measures.push((words[1].to_string(), scale));
            }
        }
        Ok(())
    }

    fn take_index(&mut self, words: &[&str]) -> Result<(), &'static str> {
        let agg = agg_of(words[1]).ok_or("name")?;
        let measure = match agg {
            Agg::Count => 0,
            _ => self.measure(words[2]).ok_or("name")?,
        };
        if self.indexes.contains(&(agg, measure)) {
            return Err("name");
        }
        self.indexes.push((agg, measure));
        Ok(())
    }

    fn take_limit(&mut self, words: &[&str]) -> Result<(), &'static str> {
        let most = if words[0] == "rows" { 1_000_000 } else { 4_000_000 };
        let digits = !words[1].is_empty() && words[1].len() <= 7 && words[1].bytes().all(|byte| byte.is_ascii_digit());
        let value: usize = if digits { words[1].parse().unwrap_or(0) } else { 0 };
        if value == 0 || value > most {
            return Err("number");
        }
        match words[0] {
            "nodes" => self.nodes = value,
            "rows" => self.rows = value,
            _ => self.values = value,
        }
        Ok(())
    }

    pub fn measure(&self, name: &str) -> Option<usize> {
        self.measures.iter().position(|measure| measure.0 == name)
    }

    /// The canonical text.
    pub fn text(&self) -> String {
        let mut text = format!("qcube {}\nid {}\n", self.version, self.id);
        for dim in &self.dims {
            let _ = writeln!(text, "dim {dim}");
        }
        for (name, scale) in &self.measures {
            let _ = writeln!(text, "measure {name} {scale}");
        }
        for (agg, measure) in &self.indexes {
            let word = match agg {
                Agg::Count => {
                    text.push_str("index count\n");
                    continue;
                }
                Agg::Sum => "sum",
                Agg::Least => "least",
                Agg::Greatest => "greatest",
                Agg::Mean => "mean",
            };
            let _ = writeln!(text, "index {word} {}", self.measures[*measure].0);
        }
        let _ = write!(text, "nodes {}\nrows {}\nvalues {}\n", self.nodes, self.rows, self.values);
        text
    }
}
