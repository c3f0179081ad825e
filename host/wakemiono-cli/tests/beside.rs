//! Names that came apart from a module: `names` and `name` with `--beside`, and `join`.

mod common;

use std::fs;

use common::{fed, file, named, path, run, BARE, EVERY_WIDE_KIND, MODULE, NAMES, NO_SUCH_SECTION};

/// A name payload with a byte too many.
const LEFT_OVER: &[u8] = b"\x01\x02\x00\x00";

#[test]
fn names_of_both_with_whose_each_is() {
    let names = file("beside-both.names", NAMES);
    fed(&["names", "-", "--beside", &names], MODULE).prints(
        "module own 18 m\nfunction 0 own 24 a\nfunction 3 separate 5 f\nlocal 3 0 own 35 x\n",
    );
    fed(
        &["names", "-", "--kind=function", "--beside", &names],
        MODULE,
    )
    .prints("function 0 own 24 a\nfunction 3 separate 5 f\n");
}

#[test]
fn names_of_a_stripped_module() {
    let names = file("beside-stripped.names", &MODULE[15..]);
    fed(&["names", "-", "--beside", &names], BARE).prints(
        "module separate 3 m\nfunction 0 separate 9 a\nfunction 3 separate 12 b\n\
         local 3 0 separate 20 x\n",
    );
}

/// The names may be in a module, too, and the offset then counts from its start.
#[test]
fn names_of_another_module() {
    let full = file("beside-full.wasm", MODULE);
    let all = "module separate 18 m\nfunction 0 separate 24 a\nfunction 3 separate 27 b\n\
               local 3 0 separate 35 x\n";
    fed(&["names", "-", "--beside", &full], BARE).prints(all);
    fed(&["names", &full, "--beside", "-"], MODULE).prints(all);
    // A module that was stripped as well has none.
    let own = all.replace("separate", "own");
    fed(&["names", &full, "--beside", "-"], BARE).prints(&own);
}

#[test]
fn one_name_and_whose_it_is() {
    let names = file("beside-one.names", NAMES);
    let asked = |module: &[u8], question: &str| {
        let words: Vec<&str> = question.split(' ').collect();
        fed(
            &[&["name", "-", "--beside", &names], &words[..]].concat(),
            module,
        )
    };
    asked(MODULE, "--function 3").prints("separate f\n");
    asked(MODULE, "--function 0").prints("own a\n");
    asked(MODULE, "--function 1").prints("none\n");
    asked(MODULE, "--module").prints("own m\n");
    asked(MODULE, "--function 3 --local 0").prints("own x\n");
    asked(BARE, "--function 3").prints("separate f\n");
    asked(BARE, "--module").prints("none\n");
}

#[test]
fn what_is_empty_or_called_none() {
    let hiding = file(
        "beside-hiding.names",
        b"\x00\x05\x04none\x01\x03\x01\x03\x00\x03\x00",
    );
    let asked = |question: &[&str], module: &[u8]| {
        fed(
            &[&["name", "-", "--beside", &hiding], question].concat(),
            module,
        )
    };
    asked(&["--module"], MODULE).prints("separate \\u{6e}one\n");
    asked(&["--function", "3"], MODULE).prints("separate \n");
    asked(&["--kept", "3"], &named(b"\x03\x01\xFF")).prints("separate \n");
}

#[test]
fn names_that_only_the_wider_edition_has() {
    let names = file("beside-wide.names", EVERY_WIDE_KIND);
    let global = ["name", "-", "--wide", "--global", "3", "--beside", &names];
    fed(&global, BARE).prints("separate g\n");
    let listed = fed(&["names", "-", "--wide", "--beside", &names], BARE);
    listed.prints(listed.out());
    assert_eq!(listed.out().lines().count(), 13);
    assert!(listed.out().lines().all(|line| line.contains(" separate ")));
    let own = named(b"\x07\x04\x01\x05\x01h");
    let globals = ["names", "-", "--wide", "--kind=global", "--beside", &names];
    fed(&globals, &own).prints("global 3 separate 49 g\nglobal 5 own 20 h\n");
    // The first edition keeps the map, and so that of the names alone.
    let kept = ["name", "-", "--kept", "7", "--beside", &names];
    fed(&kept, &own).prints("separate \\u{1}\\u{3}\\u{1}g\n");
}

#[test]
fn no_names_at_all() {
    let names = file("beside-none.names", b"");
    let none = fed(&["names", "-", "--beside", &names], BARE);
    none.ends(0, "");
    assert_eq!(
        none.said,
        "wakemiono: neither of the two files has names.\n"
    );
    let none = fed(&["names", "-", "--beside", &names, "--kind=tag"], MODULE);
    none.ends(0, "");
    let sentence = "wakemiono: neither of the two files has such names.\n";
    assert_eq!(none.said, sentence);
    let json = format!("{}\"names\":[]}}", start(&names));
    fed(&["names", "-", "--beside", &names, "--json"], BARE).is_json(0, &json);
}

/// What JSON begins with, where the module is on standard input.
fn start(names: &str) -> String {
    format!("{{\"file\":\"-\",\"beside\":\"{names}\",")
}

#[test]
fn names_in_json() {
    let names = file("beside-names-json.names", NAMES);
    let asked = [
        "names",
        "-",
        "--json",
        "--kind=function",
        "--beside",
        &names,
    ];
    let start = start(&names);
    fed(&asked, MODULE).is_json(
        0,
        &format!(
            "{start}\"names\":[\
             {{\"kind\":\"function\",\"indices\":[0],\"whose\":\"own\",\"offset\":24,\"length\":1,\
             \"name\":\"a\"}},\
             {{\"kind\":\"function\",\"indices\":[3],\"whose\":\"separate\",\"offset\":5,\
             \"length\":1,\"name\":\"f\"}}]}}"
        ),
    );
}

#[test]
fn one_name_in_json() {
    let names = file("beside-name-json.names", NAMES);
    let start = start(&names);
    let asked = ["name", "-", "--json", "--function=3", "--beside", &names];
    let question = "\"question\":{\"kind\":\"function\",\"indices\":[3]}";
    let answer = "{\"whose\":\"separate\",\"offset\":5,\"length\":1,\"name\":\"f\"}";
    fed(&asked, MODULE).is_json(0, &format!("{start}{question},\"answer\":{answer}}}"));
    let asked = [
        "name", "-", "--json", "--wide", "--tag=3", "--beside", &names,
    ];
    let question = "\"question\":{\"kind\":\"tag\",\"indices\":[3]}";
    let none = format!("{start}\"edition\":\"wider\",{question},\"answer\":null}}");
    fed(&asked, MODULE).is_json(0, &none);
}

#[test]
fn join_says_how_long_it_would_be() {
    let names = file("join-lengths.names", NAMES);
    fed(&["join", "-", &names], MODULE).prints("separate 6\nown 21\njoined 21\n");
    fed(&["join", "-", &names], BARE).prints("separate 6\nown 0\njoined 6\n");
    let module = file("join-lengths.wasm", MODULE);
    fed(&["join", &module, "-"], b"").prints("separate 0\nown 21\njoined 21\n");
    fed(&["join", "-", &names, "--json", "--wide"], MODULE).is_json(
        0,
        &format!(
            "{}\"edition\":\"wider\",\"separate\":6,\"own\":21,\"joined\":21,\
             \"written_to\":null}}",
            start(&names)
        ),
    );
}

#[test]
fn join_writes_one_canonical_payload() {
    let (names, out) = (file("join-writes.names", NAMES), path("join-writes.out"));
    let joined = b"\x00\x02\x01m\x01\x07\x02\x00\x01a\x03\x01f\x02\x06\x01\x03\x01\x00\x01x";
    fed(&["join", "-", &names, "-o", &out], MODULE).prints("");
    assert_eq!(fs::read(&out).unwrap(), joined);
    let to_standard_output = fed(&["join", "-", &names, "-o", "-"], MODULE);
    assert_eq!(to_standard_output.bytes, joined);
    let written = fed(&["join", "-", &names, "-o", &out, "--json"], MODULE);
    assert!(written
        .out()
        .ends_with(&format!("\"written_to\":\"{out}\"}}\n")));
    // What is joined says the same, whichever way it is asked.
    let by_joined = fed(&["name", "-", "--function=3", "--beside", &out], BARE);
    by_joined.prints("separate f\n");
}

/// Two maps of globals, of which the first edition keeps one and the wider one makes one of both.
#[test]
fn join_goes_by_the_edition() {
    let names = file("join-wide.names", b"\x07\x04\x01\x03\x01g");
    let own = named(b"\x07\x04\x01\x05\x01h");
    let first = fed(&["join", "-", &names, "-o", "-"], &own);
    assert_eq!(first.bytes, b"\x07\x04\x01\x03\x01g");
    let wider = fed(&["join", "-", &names, "-o", "-", "--wide"], &own);
    assert_eq!(wider.bytes, b"\x07\x07\x02\x03\x01g\x05\x01h");
}

#[test]
fn neither_file_is_written_over() {
    let module = file("join-over.wasm", MODULE);
    let names = file("join-over.names", NAMES);
    run(&["join", &module, &names, "-o", &module]).is_misuse(&format!(
        "'{module}' is the module that is read, and would be lost: give another file behind -o."
    ));
    run(&["join", &module, &names, "-o", &names, "--json"]).is_misuse(&format!(
        "'{names}' is the file of names that is read, and would be lost: give another file behind \
         -o."
    ));
    assert_eq!(fs::read(&module).unwrap(), MODULE);
    assert_eq!(fs::read(&names).unwrap(), NAMES);
}

/// Every way to ask, where both files are needed.
const ASKED: [&[&str]; 3] = [
    &["names", "MODULE", "--beside", "NAMES"],
    &["name", "MODULE", "--module", "--beside", "NAMES"],
    &["join", "MODULE", "NAMES"],
];

/// Asks in every way, with the names on standard input.
fn asked_with(module: &str, names: &[u8], more: &[&str]) -> Vec<common::Run> {
    let asked = ASKED.map(|words| {
        let words = words.iter().map(|word| match *word {
            "MODULE" => module,
            "NAMES" => "-",
            other => other,
        });
        let words: Vec<&str> = words.chain(more.iter().copied()).collect();
        fed(&words, names)
    });
    asked.into()
}

#[test]
fn refused_names_are_said_with_their_file_and_place() {
    let module = file("beside-refused.wasm", MODULE);
    for refused in asked_with(&module, LEFT_OVER, &[]) {
        refused.ends(1, "");
        let start = "wakemiono: standard input: refused, number 10: ";
        assert!(refused.said.starts_with(start), "{}", refused.said);
        assert!(refused.said.contains("stands at byte 0x3 (3)\n"));
    }
    // In a module the place counts from its start.
    for refused in asked_with(&module, &named(LEFT_OVER), &[]) {
        assert!(
            refused.said.contains("stands at byte 0x12 (18)\n"),
            "{}",
            refused.said
        );
    }
    for refused in asked_with(&module, NO_SUCH_SECTION, &[]) {
        assert!(
            refused.said.contains(": refused, number 5: "),
            "{}",
            refused.said
        );
    }
}

#[test]
fn a_refused_module_is_said_though_the_names_have_the_name() {
    let module = file("beside-damaged.wasm", &named(LEFT_OVER));
    for refused in asked_with(&module, b"\x00\x02\x01m", &[]) {
        refused.ends(1, "");
        let start = format!("wakemiono: {module}: refused, number 10: ");
        assert!(refused.said.starts_with(&start), "{}", refused.said);
    }
    // Of two that are refused the names are the first.
    for refused in asked_with(&module, b"\x01\x00", &[]) {
        let start = "wakemiono: standard input: refused, number 2: ";
        assert!(refused.said.starts_with(start), "{}", refused.said);
    }
}

#[test]
fn refusals_in_json_say_whose_they_are() {
    let (good, damaged) = (
        file("beside-good.wasm", MODULE),
        file("beside-bad.wasm", &named(LEFT_OVER)),
    );
    for (module, names, whose, number) in [
        (&good, LEFT_OVER, "separate", 10),
        (&damaged, NAMES, "own", 10),
        (&damaged, b"\x01\x00", "separate", 2),
    ] {
        let start = format!(
            "{{\"file\":\"{module}\",\"beside\":\"-\",\"whose\":\"{whose}\",\
             \"refusal\":{{\"number\":{number},"
        );
        for refused in asked_with(module, names, &["--json"]) {
            assert_eq!(refused.status, 1);
            common::json::check(refused.out().trim_end());
            assert!(refused.out().starts_with(&start), "{}", refused.out());
        }
    }
}

#[test]
fn misuse() {
    let once = "standard input can be read only once: give a file for one of the two";
    run(&["names", "-", "--beside", "-"])
        .is_misuse(&format!("{once}; see `wakemiono names --help`."));
    run(&["name", "-", "--module", "--beside=-"])
        .is_misuse(&format!("{once}; see `wakemiono name --help`."));
    run(&["join", "-", "-"]).is_misuse(&format!("{once}; see `wakemiono join --help`."));
    for (files, given) in [
        (&[][..], "none is"),
        (&["a"], "one is"),
        (&["a", "b", "c"], "3 are"),
    ] {
        run(&[&["join"], files].concat()).is_misuse(&format!(
            "a module and its names are joined, and {given} given: name two; \
             see `wakemiono join --help`."
        ));
    }
    run(&["names", "f", "--beside"]).is_misuse(
        "--beside needs a value: write it behind --beside; see `wakemiono names --help`.",
    );
    run(&["join", "a", "b", "-o", "-", "--json"]).is_misuse(
        "what is written and JSON cannot both go to standard output: leave out --json, or give a file \
         behind -o; see `wakemiono join --help`.",
    );
    let missing = path("there-is-no-such-file");
    let module = file("beside-missing.wasm", MODULE);
    run(&["names", &module, "--beside", &missing]).is_misuse(&format!(
        "there is no file '{missing}': check the path, or give - for standard input."
    ));
}

/// A module of clang's, stripped of its names, beside these.
#[test]
fn a_stripped_module_of_a_producer() {
    const CLANG: &[u8] = include_bytes!("../../fixtures/clang-lld.wasm");
    let full = file("beside-clang.wasm", CLANG);
    let payload = wakemiono::Module::new(CLANG).names().unwrap().unwrap();
    let names = file("beside-clang.names", payload.as_bytes());
    let before = run(&["names", &full]);
    let after = fed(&["names", "-", "--beside", &names], BARE);
    after.prints(after.out());
    let said = |line: &str| -> Vec<String> {
        let words = line.split(' ').filter(|word| *word != "separate");
        words.map(str::to_owned).collect()
    };
    assert_eq!(after.out().lines().count(), before.out().lines().count());
    for (after, before) in after.out().lines().zip(before.out().lines()) {
        let (after, before) = (said(after), said(before));
        assert_eq!((&after[..2], after.last()), (&before[..2], before.last()));
    }
}
