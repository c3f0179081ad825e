//! A refusal of the library, as it is said to people and in JSON.

use std::ops::Range;

use wakemiono::Refusal;

use crate::dump;
use crate::edition::Edition;
use crate::input::Source;
use crate::json::Json;
use crate::terminal::Style;

/// A refusal together with what a person needs to find the fault: which input, and the bytes there.
#[derive(Debug)]
pub struct Refused {
    label: String,
    input: Vec<(&'static str, Json)>,
    refusal: Refusal,
    rows: Vec<String>,
    bytes_from: u64,
    bytes: Vec<u8>,
}

impl Refused {
    /// The refusal of an input of a length, of which some bytes may be asked for. Its offset counts
    /// from the start of the whole file.
    pub fn new<'a, E: Edition>(
        source: &Source<E>,
        refusal: Refusal,
        length: u64,
        bytes: impl FnOnce(Range<u64>) -> Option<&'a [u8]>,
    ) -> Refused {
        let place = refusal.offset();
        let shown = dump::around(length, place);
        let bytes_from = shown.as_ref().map_or(0, |shown| shown.start);
        let bytes = shown.and_then(bytes);
        Refused {
            label: source.label(),
            input: source.members(),
            refusal,
            rows: bytes.map_or(Vec::new(), |bytes| dump::rows(bytes_from, bytes, place)),
            bytes_from,
            bytes: bytes.unwrap_or_default().to_vec(),
        }
    }

    /// The same with more to say first in JSON than the input itself says.
    pub fn among(self, input: Vec<(&'static str, Json)>) -> Refused {
        Refused { input, ..self }
    }

    /// The line that the listing format has for a refused module.
    pub fn listing_line(&self) -> String {
        format!(
            "refused {} {}\n",
            self.refusal.number(),
            self.refusal.offset()
        )
    }

    /// What is wrong and where, with the bytes around it, and what to do.
    pub fn words(&self, style: Style) -> String {
        format!("{}: {}", self.label, self.verdict(style))
    }

    /// The same without the name of the input.
    pub fn verdict(&self, style: Style) -> String {
        let refusal = self.refusal;
        let refused = style.wrong(&format!("refused, number {}", refusal.number()));
        let to_do = style.heading("what to do");
        let row = |row: &String| match row.strip_suffix(dump::MARKER) {
            Some(before) => format!("  {before}{}\n", style.wrong(dump::MARKER)),
            None => format!("  {row}\n"),
        };
        let rows: String = self.rows.iter().map(row).collect();
        let advice = refusal.advice();
        format!("{refused}: {refusal}\n{rows}  {to_do}: {advice}\n")
    }

    /// A whole JSON document.
    pub fn document(&self) -> Json {
        let refusal = vec![("refusal", self.json())];
        Json::Object([self.input.clone(), refusal].concat())
    }

    /// The refusal in JSON.
    pub fn json(&self) -> Json {
        let offset = self.refusal.offset();
        Json::Object(vec![
            ("number", self.refusal.number().into()),
            ("reason", Json::text(self.refusal.reason().to_string())),
            ("offset", Json::Number(offset)),
            ("offset_hex", Json::text(format!("{offset:#X}"))),
            ("sentence", Json::text(self.refusal.to_string())),
            ("advice", Json::text(self.refusal.advice())),
            ("bytes_from", Json::Number(self.bytes_from)),
            ("bytes", Json::bytes(&self.bytes)),
        ])
    }
}
