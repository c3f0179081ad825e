//! From the plugin's counts to the table.

use crate::operation::{region, Operation, Who};
use crate::payload::Payload;

/// What a run was of, said before its counts: the payload, and for each region what it counts.
pub fn mapping(payload: &Payload, operations: &[Operation]) -> String {
    let length = payload.bytes.len() + payload.own.len();
    let mut text = format!("payload\t{}\t{length}\n", payload.name);
    for &operation in operations {
        for who in Who::BOTH {
            let number = region(operation, who);
            let (operation, who) = (operation.words(), who.words());
            text.push_str(&format!("region\t{number}\t{operation}\t{who}\n"));
        }
    }
    text
}

/// What both readers executed for one operation on one payload.
#[derive(Debug, PartialEq, Eq)]
pub struct Row {
    payload: String,
    bytes: u64,
    operation: String,
    library: u64,
    second_reader: u64,
}

/// What a reader executed for an operation on a payload, where that was counted.
pub fn executed(rows: &[Row], payload: &str, operation: Operation, who: Who) -> Option<u64> {
    let wanted = |row: &&Row| row.payload == payload && row.operation == operation.words();
    rows.iter().find(wanted).map(|row| match who {
        Who::Library => row.library,
        Who::SecondReader => row.second_reader,
    })
}

/// The payloads on which an operation was counted.
pub fn payloads_of(rows: &[Row], operation: Operation) -> impl Iterator<Item = &str> {
    let wanted = move |row: &&Row| row.operation == operation.words();
    rows.iter().filter(wanted).map(|row| row.payload.as_str())
}

/// Those of them that have fewer bytes than so many.
pub fn shorter_payloads_of(
    rows: &[Row],
    operation: Operation,
    bytes: u64,
) -> impl Iterator<Item = &str> {
    let wanted = move |row: &&Row| row.operation == operation.words() && row.bytes < bytes;
    rows.iter().filter(wanted).map(|row| row.payload.as_str())
}

/// The rows of a file that has, for each run, its mapping and the plugin's counts.
pub fn rows(counts: &str) -> Result<Vec<Row>, String> {
    let lines: Vec<&str> = counts.lines().collect();
    let mut rows = vec![];
    for run in lines.chunk_by(|_, next| !next.starts_with("payload\t")) {
        rows.extend(Run::of(run)?.rows()?);
    }
    match rows.is_empty() {
        true => Err("There are no counts.".to_string()),
        false => Ok(rows),
    }
}

/// One run: a payload, and the lines that follow it.
struct Run<'a> {
    payload: &'a str,
    bytes: u64,
    lines: &'a [&'a str],
}

impl<'a> Run<'a> {
    fn of(lines: &'a [&'a str]) -> Result<Run<'a>, String> {
        let head: Vec<&str> = lines[0].split('\t').collect();
        match head[..] {
            ["payload", payload, bytes] => Ok(Run {
                payload,
                bytes: parsed(bytes)?,
                lines,
            }),
            _ => Err(format!("'{}' is no payload with its length.", lines[0])),
        }
    }

    /// A row for each operation, of which both regions are named one behind the other.
    fn rows(&self) -> Result<Vec<Row>, String> {
        let regions: Vec<&str> = self.after("region\t").collect();
        regions
            .chunks(Who::BOTH.len())
            .map(|pair| self.row(pair))
            .collect()
    }

    fn row(&self, pair: &[&str]) -> Result<Row, String> {
        let words: Vec<&str> = pair.iter().flat_map(|region| region.split('\t')).collect();
        match words[..] {
            [library, operation, "library", reader, also, "second reader"] if operation == also => {
                Ok(Row {
                    payload: self.payload.to_string(),
                    bytes: self.bytes,
                    operation: operation.to_string(),
                    library: self.count(library)?,
                    second_reader: self.count(reader)?,
                })
            }
            _ => Err(format!(
                "{}: the regions {pair:?} are no pair.",
                self.payload
            )),
        }
    }

    /// The plugin's count for a region, which must have been entered once.
    fn count(&self, number: &str) -> Result<u64, String> {
        let region = format!("icount region {number} ");
        let counted: Vec<&str> = self
            .after(&region)
            .flat_map(|line| line.split(' '))
            .collect();
        match counted[..] {
            ["hits", "1", "sum", sum, ..] => parsed(sum),
            _ => Err(format!(
                "{}: region {number} was to be counted once, and the plugin says '{}'.",
                self.payload,
                counted.join(" ")
            )),
        }
    }

    /// What follows these words in the lines that begin with them.
    fn after<'b>(&'b self, words: &'b str) -> impl Iterator<Item = &'a str> + 'b {
        self.lines
            .iter()
            .filter_map(move |line| line.strip_prefix(words))
    }
}

fn parsed(number: &str) -> Result<u64, String> {
    let parsed = number.parse();
    parsed.map_err(|_| format!("'{number}' is no number."))
}

const HEAD: [&str; 8] = [
    "payload",
    "bytes",
    "operation",
    "library per byte",
    "second reader per byte",
    "ratio",
    "library",
    "second reader",
];

/// Which columns are words, and so begin at the left.
const WORDS: [bool; 8] = [true, false, true, false, false, false, false, false];

type Cells = [String; 8];

fn cells(row: &Row) -> Cells {
    [
        row.payload.clone(),
        row.bytes.to_string(),
        row.operation.clone(),
        quotient(row.library, row.bytes),
        quotient(row.second_reader, row.bytes),
        quotient(row.library, row.second_reader),
        row.library.to_string(),
        row.second_reader.to_string(),
    ]
}

fn quotient(dividend: u64, divisor: u64) -> String {
    match divisor {
        0 => "-".to_string(),
        _ => format!("{:.2}", dividend as f64 / divisor as f64),
    }
}

fn lines(rows: &[Row]) -> Vec<Cells> {
    let head = HEAD.map(str::to_string);
    std::iter::once(head)
        .chain(rows.iter().map(cells))
        .collect()
}

pub fn tab_separated(rows: &[Row]) -> String {
    let lines = lines(rows);
    lines.iter().map(|cells| cells.join("\t") + "\n").collect()
}

pub fn aligned(rows: &[Row]) -> String {
    let lines = lines(rows);
    let mut widths = [0; 8];
    for cells in &lines {
        for (width, cell) in widths.iter_mut().zip(cells) {
            *width = cell.len().max(*width);
        }
    }
    lines.iter().map(|cells| line(cells, &widths)).collect()
}

fn line(cells: &Cells, widths: &[usize; 8]) -> String {
    let columns = cells.iter().zip(widths).zip(WORDS);
    let padded: Vec<String> = columns
        .map(|((cell, &width), words)| match words {
            true => format!("{cell:<width$}"),
            false => format!("{cell:>width$}"),
        })
        .collect();
    padded.join("  ") + "\n"
}

#[cfg(test)]
mod tests {
    use super::*;

    const MAPPING: &str = "payload\tgo\t200\n\
        region\t0\twalk\tlibrary\n\
        region\t1\twalk\tsecond reader\n";

    #[test]
    fn counts_become_a_row() {
        let counts = "icount total 2000\n\
            icount region 0 hits 1 sum 301 min 301 max 301\n\
            icount region 1 hits 1 sum 602 min 602 max 602\n";
        let rows = rows(&format!("{MAPPING}{counts}")).expect("a row");
        let last = tab_separated(&rows);
        let last = last.lines().last();
        assert_eq!(last, Some("go\t200\twalk\t1.50\t3.01\t0.50\t301\t602"));
    }

    /// Payloads may have the very names of the words in the file.
    #[test]
    fn a_run_ends_at_the_next_payload() {
        let counts = "icount region 0 hits 1 sum 5 min 5 max 5\n\
            icount region 1 hits 1 sum 2 min 2 max 2\n";
        let run = format!("{MAPPING}{counts}");
        let runs = run.clone() + &run.replace("go", "an-empty-payload");
        let payloads: Vec<String> = rows(&runs)
            .expect("two rows")
            .into_iter()
            .map(|row| row.payload)
            .collect();
        assert_eq!(payloads, ["go", "an-empty-payload"]);
    }

    #[test]
    fn a_missing_count_is_said() {
        let fault = rows(MAPPING).expect_err("no counts");
        let said = "go: region 0 was to be counted once, and the plugin says ''.";
        assert_eq!(fault, said);
    }

    #[test]
    fn a_region_entered_twice_is_said() {
        let counts = "icount region 0 hits 2 sum 301 min 100 max 201\n";
        let fault = rows(&format!("{MAPPING}{counts}")).expect_err("two calls");
        assert!(
            fault.ends_with("the plugin says 'hits 2 sum 301 min 100 max 201'."),
            "{fault}"
        );
    }
}
