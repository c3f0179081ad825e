//! The declarations that this crate calls by are those of the C header, compared text with text: no
//! compiler sees both.

const HEADER: &str = include_str!("../../../include/wakemiono.h");
const DECLARED: &str = concat!(
    include_str!("../src/ffi.rs"),
    include_str!("../src/ffi/pairs.rs"),
    include_str!("../src/ffi/stream.rs"),
    include_str!("../src/ffi/table.rs"),
    include_str!("../src/ffi/entries.rs")
);

/// What stands between two marks, the first time that the opening one occurs.
fn between<'a>(text: &'a str, opening: &str, closing: &str) -> &'a str {
    let (_, behind) = text.split_once(opening).expect(opening);
    behind.split_once(closing).expect(closing).0
}

fn without_comments(text: &str) -> String {
    let mut parts = text.split("/*");
    let first = parts.next().unwrap_or_default();
    let others = parts.map(|part| part.split_once("*/").expect("a comment ends").1);
    [first].into_iter().chain(others).collect()
}

/// A parameter of the header as Rust declares it.
fn parameter(c: &str) -> String {
    let at = c.rfind([' ', '*']).expect("a type and a name") + 1;
    let type_ = match c[..at].trim() {
        "const uint8_t *" => "*const u8",
        "const uint32_t *" => "*const u32",
        "uint8_t *" => "*mut u8",
        "uint32_t *" => "*mut u32",
        "uint64_t *" => "*mut u64",
        "size_t" => "usize",
        "uint8_t" => "u8",
        "uint32_t" => "u32",
        "uint64_t" => "u64",
        "wm_stream *" => "*mut State",
        "wm_table *" => "*mut Table",
        "const wm_table *" => "*const Table",
        other => panic!("the header has a type that is not known here: {other}"),
    };
    match &c[at..] {
        "type" => format!("type_: {type_}"),
        name => match name.split_once('[') {
            Some((name, count)) => format!("{name}: [{type_}; {count}"),
            None => format!("{name}: {type_}"),
        },
    }
}

/// The type of an answer of the header as Rust declares it.
fn answer(c: &str) -> &'static str {
    match c {
        "wm_answer" => "Answer",
        "wm_why" => "WhyAnswer",
        "wm_pair_answer" => "PairAnswer",
        "wm_stream" => "State",
        "wm_stream_answer" => "StreamAnswer",
        "wm_table" => "Table",
        "uint32_t" => "u32",
        other => panic!("the header has an answer that is not known here: {other}"),
    }
}

/// A statement of the header as Rust declares it, or none where it has no parameters and so is no
/// call.
fn call(c: &str) -> Option<String> {
    let (head, behind) = c.split_once('(')?;
    let (type_, name) = head.trim().split_once(' ').expect("an answer and a name");
    let parameters = behind.split_once(')').expect("they end").0;
    let parameters = parameters.split(',').filter(|c| *c != "void");
    let parameters: Vec<String> = parameters.map(|c| parameter(c.trim())).collect();
    let parameters = parameters.join(", ");
    Some(format!("fn {name}({parameters}) -> {}", answer(type_)))
}

fn in_header() -> Vec<String> {
    without_comments(HEADER)
        .split(';')
        .filter_map(call)
        .collect()
}

fn in_crate() -> Vec<String> {
    let blocks = DECLARED.split("extern \"C\" {").skip(1);
    let declared = blocks.map(|block| block.split_once("\n}").expect("it ends").0);
    let words = |call: &str| call.split_whitespace().collect::<Vec<&str>>().join(" ");
    let calls = declared
        .flat_map(|calls| calls.split(';'))
        .map(words)
        .filter(|call| !call.is_empty());
    calls
        .map(|call| call.replace("( ", "(").replace(", )", ")"))
        .collect()
}

#[test]
fn every_call_is_declared_as_the_header_has_it() {
    assert_eq!(in_crate(), in_header());
    assert_eq!(in_crate().len(), 105);
}

/// The fields of a struct of the header, as Rust declares them.
fn fields(c_struct: &str) -> Vec<String> {
    let (before, _) = HEADER.split_once(c_struct).expect(c_struct);
    let (_, fields) = before.rsplit_once("typedef struct {").expect("it begins");
    let fields = fields.split(';').map(str::trim);
    fields
        .filter(|field| !field.is_empty())
        .map(parameter)
        .collect()
}

#[test]
fn the_structs_are_declared_as_the_header_has_them() {
    for (c, rust) in [
        ("} wm_answer;", "struct Answer {"),
        ("} wm_why;", "struct WhyAnswer {"),
        ("} wm_pair_answer;", "struct PairAnswer {"),
        ("} wm_stream;", "struct State {"),
        ("} wm_stream_answer;", "struct StreamAnswer {"),
        ("} wm_table;", "struct Table {"),
    ] {
        let fields = fields(c);
        let mut declared = between(DECLARED, rust, "}").replace("pub(crate) ", "");
        for count in ["REST", "PLACES"] {
            let number = between(DECLARED, &format!("const {count}: usize = "), ";");
            declared = declared.replace(count, number);
        }
        let declared: Vec<&str> = declared.split_terminator(',').map(str::trim).collect();
        assert_eq!(declared[..fields.len()], fields);
        assert_eq!(declared[fields.len()..].concat(), "");
    }
}

/// The type of the field that has a number of the header, by its name.
fn field_type(name: &str) -> &'static str {
    match name {
        "NOBODY" | "SEPARATE" | "OWN" => "u64",
        _ => "u32",
    }
}

#[test]
fn the_kinds_are_numbered_as_the_header_has_it() {
    let enums = HEADER.split("enum {").skip(1);
    let kinds = enums.flat_map(|kinds| kinds.split_once('}').expect("they end").0.split(','));
    let kinds: Vec<String> = kinds
        .map(|kind| {
            let (name, number) = kind.split_once(" = ").expect("a kind has a number");
            let name = name.trim().trim_start_matches("WM_");
            let of = field_type(name);
            format!("pub(crate) const {name}: {of} = {};", number.trim())
        })
        .collect();
    let declared = DECLARED
        .lines()
        .filter(|line| line.starts_with("pub(crate) const "));
    assert_eq!(declared.collect::<Vec<&str>>(), kinds);
}
