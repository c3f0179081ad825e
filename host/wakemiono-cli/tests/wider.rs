//! The wider edition of names, which `--wide` asks.

mod common;

use std::fs;

use common::{
    fed, file, named, path, run, told_apart, ASK_NAMES, BARE, COMMANDS, EVERY_WIDE_KIND, MODULE,
    WIDE,
};

/// An empty map of globals, which the wider edition drops and the first keeps.
const NO_GLOBALS: &[u8] = b"\x07\x01\x00";

/// No map of globals, which the first edition keeps and the wider refuses.
const NO_MAP: &[u8] = b"\x07\x01\xFF";

#[test]
fn names_of_every_kind() {
    let module = file("wider-every-kind.wasm", &named(EVERY_WIDE_KIND));
    let rows = [
        ("module", "module 18 m\n"),
        ("function", "function 0 24 a\n"),
        ("local", "local 3 0 32 x\n"),
        ("label", "label 3 2 40 l\n"),
        ("type", "type 2 46 t\n"),
        ("table", "table 1 52 b\n"),
        ("memory", "memory 0 58 y\n"),
        ("global", "global 3 64 g\n"),
        ("element", "element 4 70 s\n"),
        ("data", "data 5 76 d\n"),
        ("field", "field 2 1 84 f\n"),
        ("tag", "tag 0 90 e\n"),
        ("kept", "kept 12 93 \\xFF\n"),
    ];
    let all: String = rows.iter().map(|(_, row)| *row).collect();
    run(&["names", &module, "--wide"]).prints(&all);
    for (kind, row) in rows {
        run(&["names", "--wide", &module, "--kind", kind]).prints(row);
    }
}

#[test]
fn the_first_edition_lists_them_as_kept() {
    fed(&["names", "-", "--kind", "kept"], WIDE)
        .prints("kept 3 38 \\u{1}\\u{3}\\u{1}\\u{2}\\u{1}l\nkept 7 46 \\u{1}\\u{3}\\u{1}g\n");
    fed(&["names", "-", "--kind", "kept", "--wide"], WIDE).ends(0, "");
}

#[test]
fn one_name_of_every_kind() {
    let module = file("wider-one-name.wasm", &named(EVERY_WIDE_KIND));
    let asked = |question: &[&str]| run(&[&["name", module.as_str(), "--wide"], question].concat());
    asked(&["--module"]).prints("m\n");
    asked(&["--function", "0"]).prints("a\n");
    asked(&["--function", "3", "--local", "0"]).prints("x\n");
    asked(&["--function", "3", "--label", "2"]).prints("l\n");
    asked(&["--type", "2"]).prints("t\n");
    asked(&["--table", "1"]).prints("b\n");
    asked(&["--memory", "0"]).prints("y\n");
    asked(&["--global", "0x3"]).prints("g\n");
    asked(&["--element", "4"]).prints("s\n");
    asked(&["--data=5"]).prints("d\n");
    asked(&["--type", "2", "--field", "1"]).prints("f\n");
    asked(&["--tag", "0"]).prints("e\n");
    asked(&["--kept", "12"]).prints("\\xFF\n");
}

#[test]
fn one_name_that_is_not_there() {
    fed(&["name", "-", "--wide", "--global", "4"], WIDE).prints("none\n");
    fed(&["name", "-", "--wide", "--global", "3"], BARE).prints("none\n");
    let other_label = ["name", "-", "--wide", "--function", "2", "--label", "3"];
    fed(&other_label, WIDE).prints("none\n");
    fed(&["name", "-", "--wide", "--kept", "7"], WIDE).prints("none\n");
    fed(&["name", "-", "--kept", "7"], WIDE).prints("\\u{1}\\u{3}\\u{1}g\n");
    let empty_name = named(b"\x07\x03\x01\x03\x00");
    fed(&["name", "-", "--wide", "--global", "3"], &empty_name).prints("\n");
}

#[test]
fn reasons_are_the_same_in_both() {
    for options in [&["--function", "1"][..], &["--function=3", "--local=1"]] {
        let first = fed(&[&["why", "-"], options].concat(), WIDE);
        fed(&[&["why", "-", "--wide"], options].concat(), WIDE).prints(first.out());
    }
}

#[test]
fn canon_drops_by_its_own_ids() {
    let saves_all = "before 3\nafter 0\nsaves 3 (100.0 %)\n";
    fed(&["canon", "-", "--wide"], &named(NO_GLOBALS)).prints(saves_all);
    let saves_none = "before 3\nafter 3\nsaves 0 (0.0 %)\n\
        it is canonical already: the rewriting saves nothing\n";
    fed(&["canon", "-"], &named(NO_GLOBALS)).prints(saves_none);
    let out = path("wider-canon.out");
    let padded = named(b"\x07\x85\x00\x01\x03\x81\x00g");
    fed(&["canon", "-", "--wide", "-o", &out], &padded).prints("");
    assert_eq!(fs::read(&out).unwrap(), b"\x07\x04\x01\x03\x01g");
}

#[test]
fn same_compares_within_the_edition() {
    let without = file("wider-without.wasm", &named(NO_GLOBALS));
    fed(&["same", &without, "-", "--wide"], BARE).prints("same\n");
    assert_eq!(fed(&["same", &without, "-"], BARE).status, 1);
    let padded = file("wider-padded.wasm", &named(b"\x07\x05\x01\x03\x81\x00g"));
    let shortest = named(b"\x07\x04\x01\x03\x01g");
    fed(&["same", &padded, "-", "--wide"], &shortest).prints("same\n");
    assert_eq!(fed(&["same", &padded, "-"], &shortest).status, 1);
}

#[test]
fn not_the_same_gives_the_first_question_of_the_edition() {
    let global = b"\x07\x04\x01\x03\x01g";
    let label_and_global = b"\x03\x06\x01\x03\x01\x02\x01l\x07\x04\x01\x03\x01h";
    assert_eq!(
        told_apart("wider-apart", &["--wide"], global, label_and_global),
        "not the same\nlabel 3 2\na: none\nb: l\n"
    );
    assert_eq!(
        told_apart("wider-apart-kept", &[], global, label_and_global),
        "not the same\nkept 3\na: none\nb: \\u{1}\\u{3}\\u{1}\\u{2}\\u{1}l\n"
    );
    let two_globals = b"\x07\x07\x02\x02\x01f\x03\x01g";
    assert_eq!(
        told_apart("wider-apart-global", &["--wide"], global, two_globals),
        "not the same\nglobal 2\na: none\nb: f\n"
    );
}

#[test]
fn judge_by_the_edition() {
    let canonical =
        "module accepted\nname accepted, canonical already\nhints none\nold_hints none\non_branches none\n";
    fed(&["judge", "-", "--wide"], WIDE).prints(canonical);
    fed(&["judge", "-"], &named(NO_GLOBALS)).prints(canonical);
    fed(&["judge", "-", "--wide"], &named(NO_GLOBALS))
        .prints("module accepted\nname accepted, not canonical\nhints none\nold_hints none\non_branches none\n");
    fed(&["judge", "-"], &named(NO_MAP)).prints(canonical);
    let refused = fed(&["judge", "-", "--wide"], &named(NO_MAP));
    assert_eq!(refused.status, 1);
    let start = "module accepted\nname refused, number 2: ";
    assert!(refused.out().starts_with(start), "{}", refused.out());
    assert!(refused.out().contains("starts at byte 0x11 (17)\n"));
}

#[test]
fn what_only_the_wider_edition_refuses() {
    let module = file("wider-refused.wasm", &named(NO_MAP));
    for (command, more) in [
        ("names", &[][..]),
        ("name", &["--module"]),
        ("why", &["--function", "0"]),
        ("canon", &[]),
        ("same", &[module.as_str()]),
        ("join", &[module.as_str()]),
    ] {
        let arguments = [&[command, &module], more].concat();
        assert_eq!(run(&arguments).status, 0, "{command}");
        let refused = run(&[&arguments[..], &["--wide"]].concat());
        refused.ends(1, "");
        assert!(refused.said.contains("refused, number 2: "), "{command}");
    }
}

#[test]
fn both_refuse_at_different_places() {
    let module = named(b"\x07\x01\xFF\x07\x00");
    let first = fed(&["names", "-"], &module);
    first.ends(1, "");
    assert!(first.said.contains("refused, number 9: "), "{}", first.said);
    assert!(first.said.contains("it stands at byte 0x12 (18)\n"));
    let wider = fed(&["names", "-", "--wide"], &module);
    wider.ends(1, "");
    assert!(wider.said.contains("refused, number 2: "), "{}", wider.said);
    assert!(wider.said.contains("starts at byte 0x11 (17)\n"));
}

#[test]
fn json_names_the_wider_edition_only() {
    let wider = "{\"file\":\"-\",\"edition\":\"wider\",";
    for (arguments, members) in [
        (&["names", "-", "--json"][..], "\"names\":[{"),
        (&["name", "-", "--module", "--json"], "\"question\":{"),
        (&["why", "-", "--function=1", "--json"], "\"question\":{"),
        (&["canon", "-", "--json"], "\"section\":true,"),
        (&["judge", "-", "--json"], "\"accepted\":true,"),
    ] {
        let first = fed(arguments, WIDE);
        let start = format!("{{\"file\":\"-\",{members}");
        assert!(first.out().starts_with(&start), "{}", first.out());
        let asked = fed(&[arguments, &["--wide"]].concat(), WIDE);
        common::json::check(asked.out().trim_end());
        let start = format!("{wider}{members}");
        assert!(asked.out().starts_with(&start), "{}", asked.out());
    }
    let refused = fed(&["names", "-", "--json", "--wide"], &named(NO_MAP));
    common::json::check(refused.out().trim_end());
    let start = format!("{wider}\"refusal\":{{\"number\":2,");
    assert!(refused.out().starts_with(&start), "{}", refused.out());
}

#[test]
fn json_of_names_that_only_the_wider_edition_has() {
    fed(&["names", "-", "--json", "--wide", "--kind=label"], WIDE).is_json(
        0,
        "{\"file\":\"-\",\"edition\":\"wider\",\"names\":[\
         {\"kind\":\"label\",\"indices\":[3,2],\"offset\":43,\"length\":1,\"name\":\"l\"}]}",
    );
    fed(&["name", "-", "--json", "--wide", "--data", "7"], WIDE).is_json(
        0,
        "{\"file\":\"-\",\"edition\":\"wider\",\"question\":{\"kind\":\"data\",\"indices\":[7]},\
         \"answer\":null}",
    );
}

#[test]
fn questions_that_need_the_option() {
    let needs = |asked: &str| {
        let words: Vec<&str> = asked.split(' ').collect();
        let option = words[words.len() - 2];
        run(&[&["name", "f"], &words[..]].concat()).is_misuse(&format!(
            "{option} asks for names that only the wider edition has: add --wide; \
             see `wakemiono name --help`."
        ));
    };
    needs("--function 7 --label 2");
    needs("--label 2");
    needs("--table 0");
    needs("--memory 0");
    needs("--global 3");
    needs("--module --element 0");
    needs("--data nonsense");
    for kind in ["label", "table", "memory", "global", "element", "data"] {
        run(&["names", "f", "--kind", kind]).is_misuse(&format!(
            "--kind {kind} asks for names that only the wider edition has: add --wide; \
             see `wakemiono names --help`."
        ));
    }
}

#[test]
fn questions_that_are_none() {
    let asked = |options: &[&str], sentence: &str| {
        let sentence = format!("{sentence}; see `wakemiono name --help`.");
        run(&[&["name", "f", "--wide"], options].concat()).is_misuse(&sentence);
    };
    asked(
        &[],
        "nothing is asked: give --module, --function, --type, --tag, --table, --memory, --global, \
         --element, --data or --kept",
    );
    asked(
        &["--label", "0"],
        "--label needs its function: give --function too",
    );
    let label_alone = "a label belongs to a function: give --label together with --function alone";
    asked(&["--type", "0", "--label", "0"], label_alone);
    let local_alone = "a local belongs to a function: give --local together with --function alone";
    asked(
        &["--function", "0", "--local", "0", "--label", "0"],
        local_alone,
    );
    asked(
        &["--function", "0", "--label", "0", "--field", "0"],
        "a field belongs to a type: give --field together with --type alone",
    );
    asked(
        &["--global", "0", "--table", "0"],
        "one name is asked at a time, and --table and --global are both given: leave one out",
    );
    asked(
        &["--data", "4294967296"],
        "--data is given '4294967296': give an index from 0 to 4294967295, in decimal or behind 0x",
    );
}

#[test]
fn no_such_kind() {
    run(&["names", "f", "--wide", "--kind", "globals"]).is_misuse(
        "there is no kind 'globals': give one of module, function, type, tag, table, memory, \
         global, element, data, local, label, field, kept; see `wakemiono names --help`.",
    );
}

#[test]
fn help_has_the_option_where_names_are_asked() {
    for command in COMMANDS {
        let help = run(&[command, "--help"]);
        let takes = ASK_NAMES.contains(&command);
        assert_eq!(help.out().contains("--wide"), takes, "{command}");
    }
    assert!(run(&["--help"]).out().contains("--wide"));
}

#[test]
fn commands_that_do_not_ask_names_take_no_such_option() {
    for command in ["list", "hints"] {
        run(&[command, "f", "--wide"]).is_misuse(&format!(
            "there is no option '--wide': give one of --json; see `wakemiono {command} --help`."
        ));
    }
    run(&["judge", "f", "--wide", "--wide"])
        .is_misuse("--wide is given twice: give it once; see `wakemiono judge --help`.");
}

#[test]
fn what_both_editions_know_is_listed_alike() {
    let first = fed(&["names", "-"], MODULE);
    fed(&["names", "-", "--wide"], MODULE).prints(first.out());
}
