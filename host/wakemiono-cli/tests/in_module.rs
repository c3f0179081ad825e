//! `canon --in-module`: the same module with its canonical names in place.

mod common;

use std::fs;

use common::{fed, file, fixtures, joined, long_named, named, path, run, BARE, MODULE};

/// What a listing says of the section with names: the offset of its id, and the places of its contents
/// and of its payload, each as offset and length.
fn name_section(module: &[u8]) -> Option<(usize, [usize; 2], [usize; 2])> {
    let listed = fed(&["list", "-"], module);
    let numbers = |line: &str| -> Vec<usize> {
        let words = line.split(' ').filter_map(|word| word.parse().ok());
        words.collect()
    };
    let mut lines = listed.out().lines();
    let section = lines.find(|line| line.starts_with("0 ") && line.ends_with(" name"))?;
    let payload = lines.find(|line| line.starts_with("name "))?;
    let (section, payload) = (numbers(section), numbers(payload));
    let contents = [section[3], section[2]];
    Some((section[1], contents, [payload[0], payload[1]]))
}

/// What is made of a module differs in nothing but the size of the section and the payload.
#[track_caller]
fn all_else_stays(module: &[u8], made: &[u8], canonical: &[u8]) {
    let Some((at, [contents, length], [payload, _])) = name_section(module) else {
        return assert_eq!(made, module);
    };
    let (made_at, [made_contents, made_length], [made_payload, _]) =
        name_section(made).expect("the section is there");
    assert_eq!(made[..=made_at], module[..=at]);
    let name = &module[contents..payload];
    assert_eq!(made[made_contents..made_payload], *name);
    assert_eq!(made_length, name.len() + canonical.len());
    let size_bytes = made_contents - made_at - 1;
    assert!(size_bytes == 1 || made_length >> (7 * (size_bytes - 1)) > 0);
    assert_eq!(
        made[made_payload..made_payload + canonical.len()],
        *canonical
    );
    let rest = made_contents + made_length;
    assert_eq!(made[rest..], module[contents + length..]);
}

/// Fixtures of every producer are accepted as before, answer as before, and have canonical names.
#[test]
fn fixtures_with_canonical_names_in_place() {
    let (mut made_of, mut shorter) = (0, 0);
    for (number, fixture) in fixtures().iter().enumerate() {
        let module = fs::read(fixture).unwrap();
        for edition in [&[][..], &["--wide"]] {
            let asked = |words: &[&str], input: &[u8]| fed(&[words, edition].concat(), input);
            let canonical = asked(&["canon", "-", "-o", "-"], &module);
            let made = asked(&["canon", "-", "--in-module", "-o", "-"], &module);
            assert_eq!(made.status, canonical.status, "{}", fixture.display());
            if made.status != 0 {
                continue;
            }
            all_else_stays(&module, &made.bytes, &canonical.bytes);
            let original = file(&format!("in-module-{number}"), &module);
            asked(&["same", &original, "-"], &made.bytes).prints("same\n");
            let judged = asked(&["judge", "-"], &made.bytes).out().to_owned();
            assert!(!judged.contains("\nname accepted, not canonical\n"));
            let before = asked(&["judge", "-"], &module).out().to_owned();
            assert_eq!(judged.lines().next(), before.lines().next());
            let again = asked(&["canon", "-", "--in-module", "-o", "-"], &made.bytes);
            assert_eq!(again.bytes, made.bytes, "{}", fixture.display());
            made_of += 1;
            shorter += usize::from(made.bytes.len() < module.len());
        }
    }
    assert!(made_of >= 50 && shorter >= 5, "{made_of}, {shorter}");
}

/// A function called `a`, with two numbers padded, and the same in its fewest bytes.
const PADDED: &[u8] = b"\x01\x85\x00\x01\x00\x81\x00a";
const SHORTEST: &[u8] = b"\x01\x04\x01\x00\x01a";

#[test]
fn it_says_what_the_module_would_save() {
    fed(&["canon", "-", "--in-module"], &named(PADDED))
        .prints("before 23\nafter 21\nsaves 2 (8.6 %)\n");
    let already = "it is canonical already: the rewriting saves nothing\n";
    fed(&["canon", "-", "--in-module"], MODULE)
        .prints(&format!("before 36\nafter 36\nsaves 0 (0.0 %)\n{already}"));
    // The payload is canonical, and the size of its section is not.
    fed(&["canon", "-", "--in-module"], &long_named(SHORTEST))
        .prints("before 25\nafter 21\nsaves 4 (16.0 %)\n");
    fed(&["canon", "-", "--in-module", "--json"], &named(PADDED)).is_json(
        0,
        "{\"file\":\"-\",\"in_module\":true,\"section\":true,\"canonical\":false,\
         \"before\":23,\"after\":21,\"saves\":2,\"written_to\":null}",
    );
}

#[test]
fn it_writes_a_file() {
    let out = path("in-module.out");
    let others = [BARE, b"\x01\x01\x00"].concat();
    let module = joined(
        &joined(&others, &long_named(PADDED)),
        b"\0asm\x01\0\0\0\0\x02\x01x",
    );
    let expected = joined(
        &joined(&others, &named(SHORTEST)),
        b"\0asm\x01\0\0\0\0\x02\x01x",
    );
    fed(&["canon", "-", "--in-module", "-o", &out], &module).prints("");
    assert_eq!(fs::read(&out).unwrap(), expected);
    let itself = file("in-module.wasm", &module);
    run(&["canon", &itself, "--in-module", "-o", &itself]).is_misuse(&format!(
        "'{itself}' is the module that is read, and would be lost: give another file behind -o."
    ));
}

#[test]
fn a_module_without_names_stays_as_it_is() {
    let made = fed(&["canon", "-", "--in-module", "-o", "-"], BARE);
    assert_eq!((made.status, made.bytes.as_slice()), (0, BARE));
    let note = "wakemiono: the module has no name section, and stays as it is.\n";
    assert_eq!(made.said, note);
}

#[test]
fn older_hints_are_not_put_in_place() {
    run(&["canon", "f", "--old-hints", "--in-module"]).is_misuse(
        "--in-module puts names in place, and --old-hints rewrites hints: leave out one of the two; \
         see `wakemiono canon --help`.",
    );
}
