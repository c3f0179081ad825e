//! `why` on modules that are accepted, in lines and in JSON.

mod common;

use common::{fed, file, named, run, BARE, EVERY_KIND, MODULE};

/// What is said of a function, or of a local in it, behind what it is said of.
fn why(module: &[u8], asked: &str) -> String {
    let words: Vec<&str> = ["why", "-"].into_iter().chain(asked.split(' ')).collect();
    let said = fed(&words, module);
    said.prints(said.out());
    let (_, words) = said
        .out()
        .trim_end()
        .split_once(" has ")
        .expect("a sentence");
    words.to_owned()
}

#[test]
fn why_a_function_has_no_name() {
    let of =
        |payload: &[u8], function: u32| why(&named(payload), &format!("--function {function}"));
    let no_entry = "no name: the map of function names has no entry for it; ";
    assert_eq!(
        of(EVERY_KIND, 1),
        format!("{no_entry}the nearest below is 0, and there is none above")
    );
    assert_eq!(
        of(b"\x01\x04\x01\x03\x01f", 2),
        format!("{no_entry}there is none below, and the nearest above is 3")
    );
    assert_eq!(
        why(MODULE, "--function 0x1"),
        format!("{no_entry}the nearest below is 0, and the nearest above is 3")
    );
    assert_eq!(
        of(b"\x01\x01\x00", u32::MAX),
        "no name: the map of function names is empty"
    );
    assert_eq!(
        of(b"", 0),
        "no name: there are no function names, since the name section has no subsection 1"
    );
    assert_eq!(
        why(BARE, "--function 0"),
        "no name: the module has no name section"
    );
    assert_eq!(
        why(MODULE, "--function 3"),
        "a name: it is entry 1, counted from 0, in the map of function names (subsection 1)"
    );
}

#[test]
fn why_a_local_has_no_name() {
    let of = |payload: &[u8], asked: &str| why(&named(payload), asked);
    assert_eq!(
        why(MODULE, "--function 3 --local 1"),
        "no name: its function's map of local names has no entry for it; the nearest below is 0, \
         and there is none above"
    );
    assert_eq!(
        why(MODULE, "--function 0 --local 3"),
        "no name: its function has no local names, since subsection 2 has no group for it"
    );
    assert_eq!(
        of(b"\x02\x03\x01\x03\x00", "--function 3 --local 0"),
        "no name: its function's map of local names is empty"
    );
    assert_eq!(
        of(b"\x01\x04\x01\x03\x01f", "--function 3 --local 0"),
        "no name: there are no local names, since the name section has no subsection 2"
    );
    assert_eq!(
        why(BARE, "--local 0 --function 3"),
        "no name: the module has no name section"
    );
    assert_eq!(
        why(MODULE, "--function 3 --local 0"),
        "a name: it is entry 0, counted from 0, in its function's map of local names (subsection 2)"
    );
}

#[test]
fn why_says_of_what() {
    let module = file("why.wasm", MODULE);
    run(&["why", &module, "--function", "3"]).prints(
        "function 3 has a name: it is entry 1, counted from 0, in the map of function names \
         (subsection 1)\n",
    );
    run(&["why", &module, "--function", "0", "--local", "7"]).prints(
        "local 7 of function 0 has no name: its function has no local names, since subsection 2 \
         has no group for it\n",
    );
}

/// What JSON has behind the file and the question.
fn why_in_json(module: &[u8], function: &str) -> String {
    let said = fed(&["why", "-", "--json", "--function", function], module);
    said.is_json(0, said.out().trim_end());
    let start = format!(
        "{{\"file\":\"-\",\"question\":{{\"kind\":\"function\",\"indices\":[{function}]}},"
    );
    let rest = said.out().strip_prefix(&start).expect("its members");
    rest.trim_end().to_owned()
}

#[test]
fn why_in_json_has_the_numbers() {
    assert_eq!(
        why_in_json(MODULE, "3"),
        "\"named\":true,\"subsection\":1,\"position\":1,\"sentence\":\"function 3 has a name: it \
         is entry 1, counted from 0, in the map of function names (subsection 1)\"}"
    );
    assert_eq!(
        why_in_json(MODULE, "4294967295"),
        "\"named\":false,\"reason\":\"no entry\",\"below\":3,\"above\":null,\
         \"sentence\":\"function 4294967295 has no name: the map of function names has no entry for \
         it; the nearest below is 3, and there is none above\"}"
    );
    let reasons = [
        (BARE.to_vec(), "no section"),
        (named(b""), "no subsection"),
        (named(b"\x01\x01\x00"), "no entry"),
    ];
    for (module, reason) in reasons {
        let start = format!("\"named\":false,\"reason\":\"{reason}\",");
        assert!(why_in_json(&module, "0").starts_with(&start), "{reason}");
    }
    let of_local = ["why", "-", "--function=0", "--local=7", "--json"];
    fed(&of_local, MODULE).is_json(
        0,
        "{\"file\":\"-\",\"question\":{\"kind\":\"local\",\"indices\":[0,7]},\
         \"named\":false,\"reason\":\"no group\",\"sentence\":\"local 7 of function 0 has no name: \
         its function has no local names, since subsection 2 has no group for it\"}",
    );
}
