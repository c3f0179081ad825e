//! Every command on modules that are refused.

mod common;

use std::fs;
use std::path::Path;

use common::{
    fed, file, hinted, hinted_code, joined, named, old_hinted, BARE, MODULE, NO_SUCH_SECTION,
};

const NO_SUCH_SECTION_WORDS: &str = "\
wakemiono: standard input: refused, number 5: a section id is above 13: it stands at byte 0x8 (8)
  00000000  00 61 73 6D 01 00 00 00 0E 00                    |.asm......|
                                    ^^
  what to do: a section of a later version of WebAssembly: ask the producer for one without it
";

#[test]
fn in_words_with_the_bytes_around_the_fault() {
    for arguments in [
        &["names", "-"][..],
        &["name", "-", "--module"],
        &["why", "-", "--function", "0"],
        &["hints", "-"],
        &["canon", "-"],
    ] {
        let refused = fed(arguments, NO_SUCH_SECTION);
        refused.ends(1, "");
        assert_eq!(refused.said, NO_SUCH_SECTION_WORDS);
    }
}

/// What is read is a file, and nobody has lent lists or an output: no refusal advises about these.
#[test]
fn with_advice_for_a_file_alone() {
    let not_text = fed(&["names", "-"], &named(b"\x00\x02\x01\xFF"));
    let advice = "what to do: a name was written in another encoding: a fault of the producer\n";
    assert!(not_text.said.ends_with(advice), "{}", not_text.said);
    let folder = Path::new(env!("CARGO_MANIFEST_DIR")).join("../fixtures");
    let mut refused = 0;
    for entry in fs::read_dir(folder).expect("host/fixtures can be read") {
        let path = entry.unwrap().path();
        if path.extension().is_none_or(|kind| kind != "wasm") {
            continue;
        }
        let judged = fed(&["judge", "-", "--wide"], &fs::read(&path).unwrap());
        let lines = judged.out().lines();
        for advice in lines.filter_map(|line| line.strip_prefix("  what to do: ")) {
            for of_calls in ["lists", "buffer", "call again", "lend"] {
                assert!(!advice.contains(of_calls), "{}: {advice}", path.display());
            }
            refused += 1;
        }
    }
    assert!(refused >= 50, "{refused}");
}

#[test]
fn in_the_listing_format_and_in_words() {
    let refused = fed(&["list", "-"], NO_SUCH_SECTION);
    refused.ends(1, "refused 5 8\n");
    assert_eq!(refused.said, NO_SUCH_SECTION_WORDS);
    fed(&["list", "-"], b"").ends(1, "refused 1 0\n");
}

#[test]
fn in_json() {
    let json = "{\"file\":\"-\",\"refusal\":{\"number\":5,\
        \"reason\":\"a section id is above 13\",\"offset\":8,\"offset_hex\":\"0x8\",\
        \"sentence\":\"a section id is above 13: it stands at byte 0x8 (8)\",\
        \"advice\":\"a section of a later version of WebAssembly: ask the producer for one without \
        it\",\
        \"bytes_from\":0,\"bytes\":[0,97,115,109,1,0,0,0,14,0]}}";
    for arguments in [
        &["list", "-", "--json"][..],
        &["names", "-", "--json"],
        &["name", "-", "--module", "--json"],
        &["why", "-", "--function", "0", "--json"],
        &["hints", "-", "--json"],
        &["canon", "-", "--json"],
    ] {
        fed(arguments, NO_SUCH_SECTION).is_json(1, json);
    }
}

#[test]
fn with_offsets_from_the_start_of_the_module() {
    let damaged = named(b"\x01\x07\x02\x03\x01b\x03\x01a");
    let refused = fed(&["names", "-"], &damaged);
    refused.ends(1, "");
    assert_eq!(
        refused.said,
        "wakemiono: standard input: refused, number 11: an index or code offset is not above the \
         one before: it starts at byte 0x15 (21)\n\
         \x20 00000000  00 61 73 6D 01 00 00 00 00 0E 04 6E 61 6D 65 01  |.asm.......name.|\n\
         \x20 00000010  07 02 03 01 62 03 01 61                          |....b..a|\n\
         \x20                          ^^\n\
         \x20 what to do: a map is not sorted or names an index twice: a fault of the producer\n"
    );
    let why = fed(&["why", "-", "--function", "3"], &damaged);
    why.ends(1, "");
    assert_eq!(why.said, refused.said);
    let refused = fed(&["hints", "-"], &hinted(b"\x01\x02\x01\x05\x01\x02"));
    refused.ends(1, "");
    assert!(refused.said.contains("refused, number 12: "));
    assert!(refused
        .said
        .contains("its size, or its kind, stands at byte 0x28 (40)"));
    let refused = fed(&["hints", "-"], &old_hinted(b"\x01\x05\x80\x00"));
    refused.ends(1, "");
    assert_eq!(
        refused.said,
        "wakemiono: standard input: refused, number 17: the byte behind a function of older hints \
         is not zero: it stands at byte 0x18 (24)\n\
         \x20 00000000  00 61 73 6D 01 00 00 00 00 10 0B 62 72 61 6E 63  |.asm.......branc|\n\
         \x20 00000010  68 48 69 6E 74 73 01 05 80 00                    |hHints....|\n\
         \x20                                   ^^\n\
         \x20 what to do: no hints of the older edition, or a damaged file: take it from its \
         producer again\n"
    );
}

#[test]
fn at_the_very_end() {
    let refused = fed(&["canon", "-"], &named(b"\x01\x00"));
    refused.ends(1, "");
    assert!(refused.said.ends_with(
        "starts at byte 0x11 (17)\n\
         \x20 00000000  00 61 73 6D 01 00 00 00 00 07 04 6E 61 6D 65 01  |.asm.......name.|\n\
         \x20 00000010  00                                               |.|\n\
         \x20              ^^\n\
         \x20 what to do: the file is cut short or a length is wrong: take it from its producer \
         again\n"
    ));
}

#[test]
fn a_refused_module_leaves_no_output_behind() {
    let out = common::path("refused.out");
    let _ = std::fs::remove_file(&out);
    fed(&["canon", "-", "-o", &out], NO_SUCH_SECTION).ends(1, "");
    assert!(!std::path::Path::new(&out).exists());
}

#[test]
fn either_of_two_compared_modules() {
    let good = file("refused-good.wasm", MODULE);
    for arguments in [["same", &good, "-"], ["same", "-", &good]] {
        let refused = fed(&arguments, NO_SUCH_SECTION);
        refused.ends(1, "");
        assert_eq!(refused.said, NO_SUCH_SECTION_WORDS);
    }
}

#[test]
fn judge_says_which_part() {
    fed(&["judge", "-"], NO_SUCH_SECTION).ends(
        1,
        "module refused, number 5: a section id is above 13: it stands at byte 0x8 (8)\n\
         \x20 00000000  00 61 73 6D 01 00 00 00 0E 00                    |.asm......|\n\
         \x20                                   ^^\n\
         \x20 what to do: a section of a later version of WebAssembly: ask the producer for one \
         without it\n\
         name not asked\nhints not asked\nold_hints not asked\non_branches not asked\n",
    );
    let judged = fed(&["judge", "-"], &named(b"\x01\x02\x00\x00"));
    assert_eq!(judged.status, 1);
    assert!(judged
        .out()
        .starts_with("module accepted\nname refused, number 10: "));
    assert!(judged
        .out()
        .ends_with("\nhints none\nold_hints none\non_branches none\n"));
}

#[test]
fn judge_says_all_parts_that_are_refused() {
    let damaged_hints = hinted(b"\x00\x00");
    let damaged_old_hints = old_hinted(b"\x01\x00\x00\x01\x02");
    let hints = joined(&damaged_hints, &damaged_old_hints);
    let both = joined(&hints, &named(b"\x01\x00"));
    let judged = fed(&["judge", "-"], &both);
    assert_eq!(judged.status, 1);
    assert!(judged.out().contains("\nname refused, number 2: "));
    assert!(judged.out().contains("\nhints refused, number 10: "));
    assert!(judged.out().contains("\nold_hints refused, number 12: "));
    assert!(judged.out().ends_with("\non_branches not asked\n"));
    let judged = fed(&["judge", "-", "--json"], &both);
    assert_eq!(judged.status, 1);
    common::json::check(judged.out().trim_end());
    assert!(judged
        .out()
        .contains("\"accepted\":false,\"module\":{\"verdict\":\"accepted\"}"));
    assert!(judged
        .out()
        .contains("\"hints\":{\"verdict\":\"refused\",\"refusal\":{\"number\":10,"));
    assert!(judged
        .out()
        .contains("\"old_hints\":{\"verdict\":\"refused\",\"refusal\":{\"number\":12,"));
}

/// The hint stands on `i32.const`, at an offset of the whole module, of which not all sections are held.
#[test]
fn judge_says_which_hint_is_on_no_branch() {
    let judged = fed(&["judge", "-"], &hinted_code(1));
    judged.ends(
        1,
        "module accepted\nname none\nhints accepted, canonical already\nold_hints none\n\
         on_branches refused, number 21: a hint does not stand on br_if or if: the hint's offset starts \
         at byte 0x31 (49)\n\
         \x20 00000020  64 65 2E 62 72 61 6E 63 68 5F 68 69 6E 74 01 00  |de.branch_hint..|\n\
         \x20 00000030  01 01 01 01 0A 09 01 07 00 41 01 04 40 0B 0B     |.........A..@..|\n\
         \x20              ^^\n\
         \x20 what to do: the code was changed after its hints were written, or a tool put them beside the \
         branch, as wabt does before a folded one: strip them, or write them anew\n",
    );
    let judged = fed(&["judge", "-", "--json"], &hinted_code(1));
    assert_eq!(judged.status, 1);
    let refusal = "\"on_branches\":{\"verdict\":\"refused\",\"refusal\":{\"number\":21,";
    assert!(judged.out().contains(refusal), "{}", judged.out());
}

/// A list of imports that ends before its count, with sections between it and the hints.
#[test]
fn judge_says_where_imports_are_cut() {
    let imports = [BARE, &[2, 0], &[3, 1, 0]].concat();
    let judged = fed(&["judge", "-"], &joined(&imports, &hinted(b"\x00")));
    assert_eq!(judged.status, 1);
    let (_, refused) = judged.out().split_once("on_branches ").unwrap();
    assert!(refused.starts_with("refused, number 2: "), "{refused}");
    assert!(refused.contains("starts at byte 0xA (10)\n"), "{refused}");
}
