//! `metadata`: all code metadata of a module, of any format.

mod common;

use common::{custom, fed, hinted, joined, BARE, MODULE};

/// Two items of function 2 and one of function 7, of which the second has no data.
const TRACE: &[u8] = b"\x02\x02\x02\x05\x02ab\x09\x00\x07\x01\xFF\xFF\xFF\xFF\x0F\x01\xC3";

const LINES: &str = "metadata.code.trace\n2 5 35 2 61 62\n2 9 39 0\n7 4294967295 47 1 C3\n";

fn traced() -> Vec<u8> {
    custom("metadata.code.trace", TRACE)
}

#[test]
fn of_one_format() {
    fed(&["metadata", "-"], &traced()).prints(LINES);
    fed(&["metadata", "-", "--format", "trace"], &traced()).prints(LINES);
    fed(&["metadata", "--format=trace", "-"], &traced()).prints(LINES);
}

#[test]
fn in_json() {
    fed(&["metadata", "-", "--json"], &traced()).is_json(
        0,
        "{\"file\":\"-\",\"sections\":[{\"section\":\"metadata.code.trace\",\"items\":[\
         {\"function\":2,\"offset\":5,\"data\":{\"offset\":35,\"length\":2,\"bytes\":[97,98]}},\
         {\"function\":2,\"offset\":9,\"data\":{\"offset\":39,\"length\":0,\"bytes\":[]}},\
         {\"function\":7,\"offset\":4294967295,\"data\":{\"offset\":47,\"length\":1,\"bytes\":[195]}}\
         ]}]}",
    );
    let nothing = "{\"file\":\"-\",\"sections\":[]}";
    fed(&["metadata", "-", "--json"], MODULE).is_json(0, nothing);
    let other = &["metadata", "-", "--json", "--format", "x"];
    fed(other, &traced()).is_json(0, nothing);
}

/// Hints are metadata, too, and are listed with their bytes. Of two sections with one name the first is the one.
#[test]
fn of_each_format_under_its_name() {
    let hints = hinted(b"\x01\x02\x01\x05\x01\x01");
    let again = custom("metadata.code.trace", b"\x00");
    let module = joined(&joined(&hints, &traced()), &again);
    let listed = fed(&["metadata", "-"], &module);
    assert_eq!(
        listed.out(),
        "metadata.code.branch_hint\n2 5 41 1 01\n\
         metadata.code.trace\n2 5 69 2 61 62\n2 9 73 0\n7 4294967295 81 1 C3\n"
    );
    assert_eq!((listed.status, listed.said.as_str()), (0, ""));
    let alone = &["metadata", "-", "--format", "branch_hint"];
    fed(alone, &module).prints("metadata.code.branch_hint\n2 5 41 1 01\n");
}

#[test]
fn that_is_not_there() {
    let said = |arguments: &[&str], module: &[u8], out: &str, sentence: &str| {
        let listed = fed(arguments, module);
        listed.ends(0, out);
        assert_eq!(listed.said, format!("wakemiono: {sentence}.\n"));
    };
    let all = &["metadata", "-"];
    said(all, BARE, "", "the module has no section of code metadata");
    let of_x = &["metadata", "-", "--format", "\u{7}x"];
    said(
        of_x,
        &traced(),
        "",
        "the module has no section metadata.code.\\u{7}x",
    );
    let empty = custom("metadata.code.x", b"\x01\x02\x00");
    let heading = "metadata.code.x\n";
    said(
        all,
        &empty,
        heading,
        "the section metadata.code.x has no data",
    );
}

/// Data may be anything, but of a hint it is 0 or 1. The offset counts from the start of the module.
#[test]
fn that_is_refused() {
    let no_hint = b"\x01\x02\x01\x05\x01\x02";
    let listed = fed(&["metadata", "-"], &custom("metadata.code.x", no_hint));
    listed.prints("metadata.code.x\n2 5 31 1 02\n");
    let refused = fed(&["metadata", "-"], &hinted(no_hint));
    refused.ends(1, "");
    let words = "wakemiono: standard input: refused, number 12: ";
    assert!(refused.said.starts_with(words), "{}", refused.said);
    assert!(refused.said.contains("byte 0x28 (40)"), "{}", refused.said);
    let left_over = custom("metadata.code.x", b"\x00\x00");
    let refused = fed(&["metadata", "-", "--json"], &left_over);
    assert_eq!(refused.status, 1);
    assert!(
        refused.out().contains("\"number\":10,"),
        "{}",
        refused.out()
    );
    // A module is judged as a whole, and of the payloads those that are listed.
    let other = &["metadata", "-", "--format", "y"];
    assert_eq!(fed(other, &left_over).status, 0);
    assert_eq!(fed(other, b"no module").status, 1);
}
