//! Every command on modules that are accepted, in lines and in JSON.

mod common;

use std::fs;
use std::path::Path;

use common::{
    custom, fed, file, hinted, hinted_code, joined, json, long_named, named, old_hinted, path, run,
    told_apart, BARE, EVERY_KIND, MODULE,
};

#[test]
fn list_prints_the_listing_of_the_rules() {
    let module = file("list.wasm", MODULE);
    let listing = "sections 1\n0 8 26 10 name\nname 15 21\nhints none\n";
    run(&["list", &module]).prints(listing);
    fed(&["list", "-"], MODULE).prints(listing);
    fed(&["list", "-"], BARE).prints("sections 0\nname none\nhints none\n");
    fed(&["list", "-"], &hinted(b"\x00"))
        .prints("sections 1\n0 8 27 10 metadata.code.branch_hint\nname none\nhints 36 1\n");
}

#[test]
fn list_does_not_judge_payloads() {
    let damaged = named(b"\x01\x00");
    fed(&["list", "-"], &damaged).prints("sections 1\n0 8 7 10 name\nname 15 2\nhints none\n");
}

#[test]
fn list_escapes_the_names_of_custom_sections() {
    let listed = |name: &str, shown: &str| {
        let (contents, length) = (10, 1 + name.len());
        fed(&["list", "-"], &custom(name, b"")).prints(&format!(
            "sections 1\n0 8 {length} {contents} {shown}\nname none\nhints none\n"
        ));
    };
    listed("", "");
    listed("two words", "two words");
    listed("größe", "größe");
    listed("a\n\\...\u{202E}\u{3164}", r"a\n\\...\u{202e}\u{3164}");
    fed(&["list", "-", "--json"], &custom("a\n\"", b"")).is_json(
        0,
        "{\"file\":\"-\",\"sections\":[{\"id\":0,\"offset\":8,\"length\":4,\"contents\":10,\
         \"name\":\"a\\u000A\\\"\",\"name_length\":3}],\"name\":null,\"hints\":null}",
    );
}

/// Behind a size that is padded to five bytes the contents begin later.
#[test]
fn list_says_where_contents_begin() {
    let module = joined(&long_named(b""), &[BARE, &[1, 0x81, 0x00, 0]].concat());
    fed(&["list", "-"], &module)
        .prints("sections 2\n0 8 5 14 name\n1 19 1 22\nname 19 0\nhints none\n");
}

#[test]
fn list_cuts_the_longest_names() {
    let shown = "x".repeat(128);
    let name = format!("{shown}y");
    let contents = [&[0x81, 0x01][..], name.as_bytes()].concat();
    let module = [BARE, &[0, 0x83, 0x01], &contents].concat();
    fed(&["list", "-"], &module).prints(&format!(
        "sections 1\n0 8 131 11 {shown}\\...\nname none\nhints none\n"
    ));
    let json = fed(&["list", "-", "--json"], &module);
    let members = format!("\"name\":\"{shown}\",\"name_length\":129}}");
    assert!(json.out().contains(&members), "{}", json.out());
}

#[test]
fn list_in_json() {
    fed(&["list", "--json", "-"], MODULE).is_json(
        0,
        "{\"file\":\"-\",\"sections\":[{\"id\":0,\"offset\":8,\"length\":26,\"contents\":10,\
         \"name\":\"name\",\"name_length\":4}],\
         \"name\":{\"offset\":15,\"length\":21},\"hints\":null}",
    );
}

#[test]
fn names_of_the_rules_module() {
    let all = "module 18 m\nfunction 0 24 a\nfunction 3 27 b\nlocal 3 0 35 x\n";
    fed(&["names", "-"], MODULE).prints(all);
    fed(&["names", "-", "--kind", "function"], MODULE).prints("function 0 24 a\nfunction 3 27 b\n");
}

#[test]
fn names_of_every_kind() {
    let module = file("every-kind.wasm", &named(EVERY_KIND));
    let rows = [
        ("module", "module 18 m\n"),
        ("function", "function 0 24 a\n"),
        ("local", "local 3 0 32 x\n"),
        ("kept", "kept 3 35 \\xFF\n"),
        ("type", "type 2 41 t\n"),
        ("field", "field 2 1 49 f\n"),
        ("tag", "tag 0 55 e\n"),
    ];
    let all: String = rows.iter().map(|(_, row)| *row).collect();
    run(&["names", &module]).prints(&all);
    for (kind, row) in rows {
        run(&["names", &module, &format!("--kind={kind}")]).prints(row);
    }
}

/// Who sees a kept subsection is told what that is, and nobody else; programs are not.
#[test]
fn what_kept_means_is_said_where_it_is_printed() {
    let module = file("kept.wasm", &named(EVERY_KIND));
    let kept = run(&["names", &module, "--kind", "kept"]);
    assert!(kept
        .said
        .starts_with("wakemiono: `kept ID` is a subsection "));
    assert_eq!(run(&["names", &module, "--kind", "tag"]).said, "");
    assert_eq!(run(&["names", &module, "--json"]).said, "");
    let compared = fed(&["same", &module, "-"], &named(&EVERY_KIND[..18]));
    compared.ends(
        1,
        &format!("not the same\nkept 3\n{module}: \\xFF\nstandard input: none\n"),
    );
    assert_eq!(compared.said, kept.said);
}

#[test]
fn names_have_the_offsets_of_the_module_and_not_of_its_rewriting() {
    let padded = named(b"\x01\x85\x00\x01\x00\x81\x00a");
    fed(&["names", "-"], &padded).prints("function 0 22 a\n");
}

/// A name that nobody can see is told from an empty one, and from another.
#[test]
fn names_that_are_drawn_as_nothing_are_escaped() {
    for (name, escaped) in [("\u{3164}", r"\u{3164}"), ("\u{2800}", r"\u{2800}")] {
        let module = named(&[b"\x00\x04\x03", name.as_bytes()].concat());
        fed(&["names", "-"], &module).prints(&format!("module 18 {escaped}\n"));
        fed(&["name", "-", "--module"], &module).prints(&format!("{escaped}\n"));
    }
}

#[test]
fn names_that_are_not_there() {
    let none = fed(&["names", "-"], BARE);
    none.ends(0, "");
    assert_eq!(none.said, "wakemiono: the module has no name section.\n");
    let none = fed(&["names", "-"], &named(b""));
    none.ends(0, "");
    assert_eq!(none.said, "wakemiono: the name section has no names.\n");
    let none = fed(&["names", "-", "--kind", "tag"], MODULE);
    none.ends(0, "");
    assert_eq!(
        none.said,
        "wakemiono: the name section has no such names.\n"
    );
    let json = "{\"file\":\"-\",\"names\":[]}";
    fed(&["names", "-", "--json"], BARE).is_json(0, json);
}

#[test]
fn names_are_escaped() {
    let module = named(b"\x01\x10\x02\x00\x07a\tb\\\xE2\x80\xAE\x01\x04\"'\xC3\xA9");
    fed(&["names", "-"], &module).prints("function 0 20 a\\tb\\\\\\u{202e}\nfunction 1 29 \"'é\n");
    fed(&["names", "-", "--json"], &module).is_json(
        0,
        "{\"file\":\"-\",\"names\":[\
         {\"kind\":\"function\",\"indices\":[0],\"offset\":20,\"length\":7,\
         \"name\":\"a\\u0009b\\\\\\u202E\"},\
         {\"kind\":\"function\",\"indices\":[1],\"offset\":29,\"length\":4,\"name\":\"\\\"'é\"}]}",
    );
}

#[test]
fn names_in_json_give_kept_contents_as_bytes() {
    let module = named(b"\x03\x02A\xFF\x09\x00");
    fed(&["names", "-", "--json"], &module).is_json(
        0,
        "{\"file\":\"-\",\"names\":[\
         {\"kind\":\"kept\",\"indices\":[3],\"offset\":17,\"length\":2,\"bytes\":[65,255]},\
         {\"kind\":\"kept\",\"indices\":[9],\"offset\":21,\"length\":0,\"bytes\":[]}]}",
    );
}

#[test]
fn one_name_of_every_kind() {
    let module = file("one-name.wasm", &named(EVERY_KIND));
    let asked = |question: &[&str]| run(&[&["name", module.as_str()], question].concat());
    asked(&["--module"]).prints("m\n");
    asked(&["--function", "0"]).prints("a\n");
    asked(&["--function", "3", "--local", "0"]).prints("x\n");
    asked(&["--type", "0x2"]).prints("t\n");
    asked(&["--type", "2", "--field", "1"]).prints("f\n");
    asked(&["--tag", "0"]).prints("e\n");
    asked(&["--kept", "3"]).prints("\\xFF\n");
}

#[test]
fn one_name_that_is_not_there() {
    fed(&["name", "-", "--function", "1"], MODULE).prints("none\n");
    fed(&["name", "-", "--module"], BARE).prints("none\n");
    fed(&["name", "-", "--kept", "1"], MODULE).prints("none\n");
    fed(&["name", "-", "--tag", "7", "--json"], MODULE).is_json(
        0,
        "{\"file\":\"-\",\"question\":{\"kind\":\"tag\",\"indices\":[7]},\
         \"answer\":null}",
    );
}

#[test]
fn no_name_is_told_from_the_names_none_and_empty() {
    fed(&["name", "-", "--module"], &named(b"\x00\x05\x04none")).prints("\\u{6e}one\n");
    fed(&["name", "-", "--module"], &named(b"\x00\x01\x00")).prints("\n");
}

#[test]
fn one_name_in_json() {
    fed(
        &["name", "--json", "-", "--function=3", "--local=0"],
        MODULE,
    )
    .is_json(
        0,
        "{\"file\":\"-\",\"question\":{\"kind\":\"local\",\"indices\":[3,0]},\
         \"answer\":{\"offset\":35,\"length\":1,\"name\":\"x\"}}",
    );
}

#[test]
fn hints_in_their_order() {
    let module = hinted(b"\x02\x02\x02\x05\x01\x01\x09\x01\x00\x82\x01\x01\x00\x01\x01");
    fed(&["hints", "-"], &module)
        .prints("metadata.code.branch_hint\n2 5 likely\n2 9 unlikely\n130 0 likely\n");
    fed(
        &["hints", "-", "--json"],
        &hinted(b"\x01\x02\x01\x05\x01\x00"),
    )
    .is_json(
        0,
        "{\"file\":\"-\",\"hints\":[\
         {\"function\":2,\"offset\":5,\"hint\":\"unlikely\"}],\"old_hints\":[]}",
    );
}

/// Function 5 before function 2, its offsets falling, one place said twice, a padded kind.
const FREE: &[u8] = b"\x03\x05\x00\x02\x01\x09\x80\x00\x04\x02\x00\x01\x01\x80\x01\
    \x05\x00\x02\x00\x09\x01\x03";

#[test]
fn older_hints_by_function_and_offset() {
    fed(&["hints", "-"], &old_hinted(FREE))
        .prints("branchHints\n2 128 likely\n5 3 likely\n5 4 unlikely\n5 9 likely\n");
    fed(
        &["hints", "-", "--json"],
        &old_hinted(b"\x01\x02\x00\x01\x01\x05"),
    )
    .is_json(
        0,
        "{\"file\":\"-\",\"hints\":[],\"old_hints\":[\
         {\"function\":2,\"offset\":5,\"hint\":\"likely\"}]}",
    );
}

#[test]
fn hints_of_both_editions_under_their_names() {
    let newer = hinted(b"\x01\x02\x01\x05\x01\x01");
    let older = old_hinted(b"\x01\x02\x00\x02\x00\x05\x01\x05");
    let lines = "metadata.code.branch_hint\n2 5 likely\nbranchHints\n2 5 unlikely\n";
    fed(&["hints", "-"], &joined(&newer, &older)).prints(lines);
    fed(&["hints", "-"], &joined(&older, &newer)).prints(lines);
    fed(&["hints", "-", "--json"], &joined(&older, &newer)).is_json(
        0,
        "{\"file\":\"-\",\
         \"hints\":[{\"function\":2,\"offset\":5,\"hint\":\"likely\"}],\
         \"old_hints\":[{\"function\":2,\"offset\":5,\"hint\":\"unlikely\"}]}",
    );
}

#[test]
fn hints_that_are_not_there() {
    let none = fed(&["hints", "-"], MODULE);
    none.ends(0, "");
    assert_eq!(
        none.said,
        "wakemiono: the module has no section of branch hints.\n"
    );
    let empty = hinted(b"\x01\x02\x00");
    let none = fed(&["hints", "-"], &empty);
    none.ends(0, "metadata.code.branch_hint\n");
    let said = "wakemiono: the section metadata.code.branch_hint has no hints.\n";
    assert_eq!(none.said, said);
    let none = fed(
        &["hints", "-"],
        &joined(&empty, &old_hinted(b"\x01\x02\x00\x00")),
    );
    none.ends(0, "metadata.code.branch_hint\nbranchHints\n");
    let also = "wakemiono: the section branchHints has no hints.\n";
    assert_eq!(none.said, format!("{said}{also}"));
    let json = "{\"file\":\"-\",\"hints\":[],\"old_hints\":[]}";
    fed(&["hints", "-", "--json"], MODULE).is_json(0, json);
}

const PADDED: &[u8] = b"\x01\x85\x00\x01\x00\x81\x00a";
const SHORTEST: &[u8] = b"\x01\x04\x01\x00\x01a";

#[test]
fn canon_says_what_it_saves() {
    fed(&["canon", "-"], &named(PADDED)).prints("before 8\nafter 6\nsaves 2 (25.0 %)\n");
    fed(&["canon", "-"], &named(b"\x01\x01\x00")).prints("before 3\nafter 0\nsaves 3 (100.0 %)\n");
    fed(&["canon", "-", "--json"], &named(PADDED)).is_json(
        0,
        "{\"file\":\"-\",\"section\":true,\"canonical\":false,\
         \"before\":8,\"after\":6,\"saves\":2,\"written_to\":null}",
    );
}

#[test]
fn canon_says_that_nothing_can_be_saved() {
    let already = "it is canonical already: the rewriting saves nothing\n";
    let saves_none =
        |length: usize| format!("before {length}\nafter {length}\nsaves 0 (0.0 %)\n{already}");
    fed(&["canon", "-"], MODULE).prints(&saves_none(21));
    fed(&["canon", "-"], &named(SHORTEST)).prints(&saves_none(6));
    fed(&["canon", "-"], &named(b"")).prints(&saves_none(0));
    fed(&["canon", "-", "--json"], &named(SHORTEST)).is_json(
        0,
        "{\"file\":\"-\",\"section\":true,\"canonical\":true,\
         \"before\":6,\"after\":6,\"saves\":0,\"written_to\":null}",
    );
}

#[test]
fn canon_writes_a_file() {
    let out = path("canon.out");
    fed(&["canon", "-", "-o", &out], &named(PADDED)).prints("");
    assert_eq!(fs::read(&out).unwrap(), SHORTEST);
    let said = fed(&["canon", "-", "-o", &out, "--json"], MODULE);
    assert_eq!(said.status, 0);
    common::json::check(said.out().trim_end());
    assert!(said.out().contains("\"canonical\":true,"));
    assert!(said.out().contains("\"written_to\":\""));
    assert_eq!(fs::read(&out).unwrap(), MODULE[15..]);
}

#[test]
fn canon_writes_to_standard_output() {
    let written = fed(&["canon", "-", "-o", "-"], &named(PADDED));
    assert_eq!((written.status, written.bytes.as_slice()), (0, SHORTEST));
}

#[test]
fn canon_without_a_name_section() {
    let said = fed(&["canon", "-"], BARE);
    said.ends(0, "before 0\nafter 0\nsaves 0 (0.0 %)\n");
    let note = "wakemiono: the module has no name section; its canonical payload is empty.\n";
    assert_eq!(said.said, note);
    let out = file("canon-bare.out", b"not empty");
    for target in [out.as_str(), "-"] {
        let said = fed(&["canon", "-", "-o", target], BARE);
        said.ends(0, "");
        assert_eq!(said.said, note);
    }
    assert_eq!(fs::read(&out).unwrap(), b"");
    fed(&["canon", "-", "--json"], BARE).is_json(
        0,
        "{\"file\":\"-\",\"section\":false,\"canonical\":null,\
         \"before\":0,\"after\":0,\"saves\":0,\"written_to\":null}",
    );
}

#[test]
fn same_names_in_different_bytes() {
    let padded = file("same-padded.wasm", &named(PADDED));
    fed(&["same", &padded, "-"], &named(SHORTEST)).prints("same\n");
    let json = fed(&["same", "-", &padded, "--json"], &named(SHORTEST));
    assert_eq!(json.status, 0);
    common::json::check(json.out().trim_end());
    assert!(json.out().ends_with(",\"same\":true}\n"));
}

#[test]
fn same_without_a_name_section_is_same_as_no_names() {
    let bare = file("same-bare.wasm", BARE);
    fed(&["same", &bare, "-"], &named(b"\x01\x01\x00")).prints("same\n");
}

#[test]
fn not_the_same_gives_the_first_question_and_both_answers() {
    let p = &MODULE[15..];
    let other_name = b"\x00\x02\x01m\x01\x07\x02\x00\x01a\x03\x01c";
    let lines = "not the same\nfunction 3\na: b\nb: c\n";
    assert_eq!(told_apart("apart-name", &[], p, other_name), lines);
    let lines = "not the same\nfunction 0\na: none\nb: a\n";
    assert_eq!(
        told_apart("apart-first", &[], b"\x01\x04\x01\x03\x01b", SHORTEST),
        lines
    );
    let lines = "not the same\nlocal 3 0\na: x\nb: none\n";
    assert_eq!(told_apart("apart-end", &[], p, &p[..13]), lines);
    let lines = "not the same\nkept 3\na: none\nb: \\xFF\n";
    assert_eq!(
        told_apart("apart-kept", &[], b"\x04\x04\x01\x02\x01t", b"\x03\x01\xFF"),
        lines
    );
    let lines = "not the same\nmodule\na: none\nb: \n";
    assert_eq!(told_apart("apart-empty", &[], b"", b"\x00\x01\x00"), lines);
}

#[test]
fn every_difference_in_the_order_of_payloads() {
    // Another module name, a function more on each side, one that both have, and a local.
    let a = b"\x00\x02\x01m\x01\x0A\x03\x00\x01a\x03\x01b\x05\x01c\x02\x06\x01\x03\x01\x00\x01x";
    let b = b"\x00\x02\x01n\x01\x0A\x03\x00\x01a\x04\x01d\x05\x01e";
    let (a, b) = (file("all-a", &named(a)), file("all-b", &named(b)));
    let all = run(&["same", &a, &b, "--all"]);
    let told = [
        ("module", "m", "n"),
        ("function 3", "b", "none"),
        ("function 4", "none", "d"),
        ("function 5", "c", "e"),
        ("local 3 0", "x", "none"),
    ];
    let block = |(question, of_a, of_b): &(&str, &str, &str)| {
        format!("{question}\n{a}: {of_a}\n{b}: {of_b}\n")
    };
    let blocks: Vec<String> = told.iter().map(block).collect();
    all.ends(1, &format!("not the same\n{}", blocks.concat()));
    assert_eq!(all.said, "");
    run(&["same", &a, &b]).ends(1, &format!("not the same\n{}", blocks[0]));
    run(&["same", &a, &a, "--all"]).prints("same\n");
    let json = run(&["same", &a, &a, "--all", "--json"]);
    assert!(json.out().ends_with(",\"same\":true,\"differences\":[]}\n"));
    let json = run(&["same", &a, &b, "--all", "--json"]);
    json::check(json.out().trim_end());
    assert_eq!(json.status, 1);
    assert_eq!(json.out().matches("\"question\":").count(), told.len());
}

/// Each difference is asked on the way: what one module has and the other has not is all that it has.
#[test]
fn every_name_of_a_module_tells_it_from_a_stripped_one() {
    let folder = Path::new(env!("CARGO_MANIFEST_DIR")).join("../fixtures");
    for fixture in ["clang-lld.wasm", "wabt-wide.wasm", "rustc.wasm"] {
        let module = folder.join(fixture).into_os_string().into_string().unwrap();
        let names = run(&["names", &module, "--wide"]);
        let compared = fed(&["same", &module, "-", "--all", "--wide"], BARE);
        let questions = names.out().lines().count();
        assert!(questions > 1, "{fixture}");
        assert_eq!(compared.out().lines().count(), 1 + 3 * questions);
    }
}

#[test]
fn not_the_same_in_json() {
    let file = file("apart-json", &named(b"\x00\x02\x01m"));
    let compared = fed(&["same", &file, "-", "--json"], BARE);
    assert_eq!(compared.status, 1);
    common::json::check(compared.out().trim_end());
    assert!(compared.out().ends_with(
        "\"same\":false,\"question\":{\"kind\":\"module\",\"indices\":[]},\
         \"answers\":[{\"offset\":18,\"length\":1,\"name\":\"m\"},null]}\n"
    ));
}

#[test]
fn judge_accepts() {
    fed(&["judge", "-"], MODULE)
        .prints("module accepted\nname accepted, canonical already\nhints none\nold_hints none\non_branches none\n");
    fed(&["judge", "-"], &hinted(b"\x00"))
        .prints("module accepted\nname none\nhints accepted, canonical already\nold_hints none\non_branches accepted\n");
    fed(&["judge", "-"], BARE)
        .prints("module accepted\nname none\nhints none\nold_hints none\non_branches none\n");
    fed(&["judge", "-"], &old_hinted(FREE))
        .prints("module accepted\nname none\nhints none\nold_hints accepted, not canonical\non_branches none\n");
    fed(&["judge", "-"], &old_hinted(b"\x00"))
        .prints("module accepted\nname none\nhints none\nold_hints accepted, canonical already\non_branches none\n");
    fed(&["judge", "-", "--json"], MODULE).is_json(
        0,
        "{\"file\":\"-\",\"accepted\":true,\"module\":{\"verdict\":\"accepted\"},\
         \"name\":{\"verdict\":\"accepted\",\"canonical\":true},\
         \"hints\":{\"verdict\":\"none\"},\"old_hints\":{\"verdict\":\"none\"},\
         \"on_branches\":{\"verdict\":\"none\"}}",
    );
}

#[test]
fn judge_accepts_what_is_not_canonical() {
    fed(&["judge", "-"], &named(PADDED))
        .prints("module accepted\nname accepted, not canonical\nhints none\nold_hints none\non_branches none\n");
    let function_without_hints = hinted(b"\x01\x02\x00");
    fed(&["judge", "-"], &function_without_hints)
        .prints("module accepted\nname none\nhints accepted, not canonical\nold_hints none\non_branches accepted\n");
    fed(&["judge", "-", "--json"], &function_without_hints).is_json(
        0,
        "{\"file\":\"-\",\"accepted\":true,\"module\":{\"verdict\":\"accepted\"},\
         \"name\":{\"verdict\":\"none\"},\
         \"hints\":{\"verdict\":\"accepted\",\"canonical\":false},\
         \"old_hints\":{\"verdict\":\"none\"},\
         \"on_branches\":{\"verdict\":\"accepted\"}}",
    );
}

#[test]
fn judge_accepts_hints_on_branches() {
    let all = "module accepted\nname none\nhints accepted, canonical already\nold_hints none\n\
        on_branches accepted\n";
    let module = file("on-branches.wasm", &hinted_code(3));
    run(&["judge", &module]).prints(all);
    fed(&["judge", "-"], &hinted_code(3)).prints(all);
    fed(&["judge", "-", "--json"], &hinted_code(3)).is_json(
        0,
        "{\"file\":\"-\",\"accepted\":true,\"module\":{\"verdict\":\"accepted\"},\
         \"name\":{\"verdict\":\"none\"},\
         \"hints\":{\"verdict\":\"accepted\",\"canonical\":true},\
         \"old_hints\":{\"verdict\":\"none\"},\
         \"on_branches\":{\"verdict\":\"accepted\"}}",
    );
}

/// What `FREE` comes to.
const SORTED: &[u8] = b"\x02\x02\x00\x01\x01\x80\x01\x05\x00\x03\x01\x03\x00\x04\x01\x09";

#[test]
fn canon_of_older_hints() {
    let module = old_hinted(FREE);
    fed(&["canon", "-", "--old-hints"], &module).prints("before 22\nafter 16\nsaves 6 (27.2 %)\n");
    let written = fed(&["canon", "-", "--old-hints", "-o", "-"], &module);
    assert_eq!((written.status, &written.bytes[..]), (0, SORTED));
    let out = path("canon-old-hints.out");
    fed(&["canon", "-", "--old-hints", "-o", &out], &module).prints("");
    assert_eq!(fs::read(&out).unwrap(), SORTED);
    fed(&["canon", "-", "--old-hints"], &old_hinted(SORTED)).prints(
        "before 16\nafter 16\nsaves 0 (0.0 %)\n\
         it is canonical already: the rewriting saves nothing\n",
    );
    fed(&["canon", "-", "--old-hints", "--json"], &module).is_json(
        0,
        "{\"file\":\"-\",\"payload\":\"old_hints\",\"section\":true,\"canonical\":false,\
         \"before\":22,\"after\":16,\"saves\":6,\"written_to\":null}",
    );
}

/// A module without the section answers as one with no hints in it, so that both have one canonical payload.
#[test]
fn canon_of_older_hints_that_are_not_there() {
    for module in [MODULE.to_vec(), old_hinted(b"\x01\x05\x00\x00")] {
        let written = fed(&["canon", "-", "--old-hints", "-o", "-"], &module);
        assert_eq!((written.status, &written.bytes[..]), (0, &[0x00][..]));
    }
    let none = fed(&["canon", "-", "--old-hints"], MODULE);
    none.ends(0, "before 0\nafter 1\nsaves 0 (0.0 %)\n");
    assert_eq!(
        none.said,
        "wakemiono: the module has no section branchHints; its canonical payload is the one byte \
         00, that of no hints.\n"
    );
}
