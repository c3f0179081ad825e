//! A listing that is printed as it is found: lines, or the lists of a JSON object.

use crate::json::Json;
use crate::printer::Printer;

/// What is found goes here, row by row.
#[derive(Debug)]
pub struct Listing<'p> {
    out: &'p mut Printer,
    json: bool,
    /// Whether a row of the list stands before the next.
    has_row: bool,
}

impl<'p> Listing<'p> {
    /// Begins with the members that JSON has first, where it is asked for.
    pub fn begin(out: &'p mut Printer, json: Option<Vec<(&'static str, Json)>>) -> Listing<'p> {
        let is_json = json.is_some();
        if let Some(members) = json {
            let object = Json::Object(members).to_string();
            out.print(object.strip_suffix('}').unwrap_or(&object));
        }
        Listing {
            out,
            json: is_json,
            has_row: false,
        }
    }

    /// A line alone, which no JSON has.
    pub fn line(&mut self, line: &str) {
        if !self.json {
            self.out.print(format!("{line}\n"));
        }
    }

    /// A list of JSON, with the rows that are found meanwhile. Lines have no name of their own for it.
    pub fn list<T>(&mut self, key: &str, rows: impl FnOnce(&mut Self) -> T) -> T {
        if self.json {
            self.out.print(format!(",\"{key}\":["));
        }
        self.has_row = false;
        let listed = rows(self);
        if self.json {
            self.out.print("]");
        }
        listed
    }

    /// A row, as a line or in JSON. It answers whether there is any use in another.
    pub fn row(&mut self, line: impl FnOnce() -> String, json: impl FnOnce() -> Json) -> bool {
        if !self.json {
            return self.out.print(line());
        }
        let before = if self.has_row { "," } else { "" };
        self.has_row = true;
        self.out.print(format!("{before}{}", json()))
    }

    /// The end of the JSON object.
    pub fn end(self) {
        if self.json {
            self.out.print("}\n");
        }
    }
}
