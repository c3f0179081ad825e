//! What the program says of itself.

use crate::arguments::Topic;
use crate::terminal::Style;

/// Short enough for one screen of 24 lines and 80 columns, as a test holds it: the rest is said of each
/// command.
const OVERALL: &str = "\
wakemiono asks the metadata of a WebAssembly module: sections, names and hints.

Usage: wakemiono COMMAND FILE [OPTIONS]        FILE may be - for standard input

  list FILE         the sections, and where names and branch hints lie
  names FILE        all names
  name FILE         one name
  why FILE          why a function or a local has no name
  hints FILE        all branch hints, of both editions
  metadata FILE     all code metadata, of any format
  canon FILE        the canonical form of the names, or of older hints
  join FILE NAMES   names that came apart from a module and its own, in one
  same A B          whether two modules have the same names
  judge FILE        whether all is accepted, canonical, and hints on branches
  help COMMAND      more of one command, with examples: COMMAND --help

  --json            one JSON value on one line, for programs: with each command
  --wide            twelve kinds of names, not six: with each that reads names
  --beside NAMES    names that came apart from a module: with names and name
  --version         the version, in place of a command

The exit status is 0 where there is an answer, even none; 1 for a refusal, or
where two modules are not the same; 2 for what cannot be done, and it says why.
Example: wakemiono list app.wasm
";

const LIST: &str = "\
Lists the sections of a module in the order of the file.

Usage: wakemiono list FILE [--json]

The first line is `sections N`. A line `ID OFFSET LENGTH CONTENTS` follows for each section, with the
offset of its id byte, the length of its contents and the offset where these begin; of a custom
section, whose id is 0, the line ends with its NAME. Then `name OFFSET LENGTH` and
`hints OFFSET LENGTH` say where the payloads lie, or `name none` and `hints none`. The payloads are
not judged here. For a module that is refused the line is `refused NUMBER OFFSET`; the words are on
standard error.

What is not printable in a name, or is drawn as nothing, is escaped. The module is read as it arrives
and is not held, so that one of any size can come through a pipe: of a name that has more than 128
bytes the beginning is shown, and \\... behind it.

Example: wakemiono list app.wasm
  sections 1
  0 8 26 10 name
  name 15 21
  hints none
";

const NAMES: &str = "\
Lists all names of a module.

Usage: wakemiono names FILE [--kind KIND] [--beside NAMES] [--wide] [--json]

Each line is `KIND INDICES OFFSET NAME`, in the order of the name section: no index for module; one
for function, type, tag and kept; two for local (its function first) and field (its type first).
The offset counts from the start of the module. What is not printable in a name, or is drawn as
nothing, is escaped. `kept ID` is no name: it is a subsection of the name section whose id the edition
does not know, shown as it is.

Where the first edition has kept 3 and 5 to 9, the wider one has names: label with two indices (its
function first), and table, memory, global, element and data with one.

  --kind KIND      only the names of a kind: module, function, type, tag, local, field or kept; with
                   --wide also table, memory, global, element, data or label
  --beside NAMES   ask names that came apart from the module, too: NAMES is a file that holds a name
                   payload, or a module, whose name section is taken
  --wide           ask the wider edition of names

With --beside each line is `KIND INDICES WHOSE OFFSET NAME`. Where NAMES has a name, be it empty, it
is `separate`, and the offset counts from the start of NAMES; else it is the module's `own`. Both are
judged whole, NAMES first. FILE may be stripped, and then has no names of its own.

Example: wakemiono names app.wasm --kind local
  local 3 0 35 x

Example: wakemiono names app.wasm --kind function --beside app.names
  function 0 own 24 a
  function 3 separate 5 f

Example: wakemiono names app.wasm --kind global --wide
  global 3 49 g
";

const NAME: &str = "\
Prints one name of a module, or none.

Usage: wakemiono name FILE QUESTION [--beside NAMES] [--wide] [--json]

  --module                  the module's name
  --function N              the name of function N
  --function N --local M    the name of local M in function N
  --type N                  the name of type N
  --type N --field M        the name of field M in type N
  --tag N                   the name of tag N
  --kept ID                 the contents of subsection ID of the name section, which the edition
                            does not know and keeps as they are

With --wide, which asks the wider edition of names, also:

  --function N --label M    the name of label M in function N
  --table N                 the name of table N
  --memory N                the name of memory N
  --global N                the name of global N
  --element N               the name of element segment N
  --data N                  the name of data segment N

Numbers are decimal, or hexadecimal behind 0x. What is not printable in a name, or is drawn as
nothing, is escaped; a name that is itself none is shown as \\u{6e}one, so that `none` always means
that there is no name. With --json no name is null.

With --beside NAMES names that came apart from the module are asked first, as `wakemiono names --help`
has it, and the line is `separate NAME`, `own NAME` or `none`.

Example: wakemiono name app.wasm --function 3 --local 0
  x

Example: wakemiono name app.wasm --global 3 --wide
  g

Example: wakemiono name app.wasm --function 3 --beside app.names
  separate f
";

const WHY: &str = "\
Says why a function or a local has no name, or where the name stands that it has.

Usage: wakemiono why FILE --function N [--local M] [--wide] [--json]

  --function N              why function N has no name
  --function N --local M    why local M in function N has no name
  --wide                    refuse what the wider edition of names refuses; what it accepts has the
                            same names of functions and locals in both editions

Exactly one of these reasons is true, and it is the one that is said:

  the module has no name section
  the name section has no subsection for such names, which is 1 for functions and 2 for locals
  the subsection of local names has no group for the function
  the map has no entry for it; the nearest indices below and above that have one are said too

Of a name that is there it says the position of its entry in the map, counted from 0, and the id of
the subsection; `wakemiono name` prints the name. Numbers are decimal, or hexadecimal behind 0x.

Example: wakemiono why app.wasm --function 3
  function 3 has a name: it is entry 1, counted from 0, in the map of function names (subsection 1)

Example: wakemiono why app.wasm --function 0 --local 7
  local 7 of function 0 has no name: its function's map of local names is empty
";

const HINTS: &str = "\
Lists all branch hints of a module, those of each edition under the name of its section.

Usage: wakemiono hints FILE [--json]

The name of a section that the module has is a line of its own: `metadata.code.branch_hint`, and
`branchHints`, the older edition. Behind it each line is `FUNCTION OFFSET HINT`, where the offset is
the branch's place in the function's code and the hint is likely or unlikely. The editions do not
count alike: in metadata.code.branch_hint an offset counts from the function's declaration of locals,
in branchHints from its first instruction. Of hints that branchHints has for one place, the first in
the file is the one that is shown.

Example: wakemiono hints app.wasm
  metadata.code.branch_hint
  2 5 likely
  branchHints
  2 3 unlikely
";

const METADATA: &str = "\
Lists all code metadata of a module, that of each format under the name of its section.

Usage: wakemiono metadata FILE [--format NAME] [--json]

The name of a section is a line of its own: `metadata.code.` and the format. Behind it each line is
`FUNCTION OFFSET PLACE LENGTH BYTES`: the offset is a place in the function's code, counted from its
declaration of locals; PLACE is where the data lies, counted from the start of the module, and LENGTH
how many bytes it has, which stand behind it in hexadecimal. Of several sections with one name the
first is listed. The format branch_hint is judged as branch hints are; `wakemiono hints` says what they
mean.

  --format NAME   only the section metadata.code.NAME

Example: wakemiono metadata app.wasm
  metadata.code.trace
  2 5 35 2 61 62
  2 9 39 0
";

const CANON: &str = "\
Rewrites the name payload of a module in its canonical form: the same names in the fewest bytes.

Usage: wakemiono canon FILE [-o OUT] [--in-module] [--wide | --old-hints] [--json]

Without -o it prints how many bytes the payload has before and after, and what that saves; where the
payload is canonical already, it says so. A module without a name section has an empty canonical
payload.

  -o OUT        write the canonical payload to the file OUT, over what is there; - is standard output
  --in-module   write, or count, the whole module with the canonical payload in its place: the size of
                the name section is in its fewest bytes, and every other byte is as it was. Without a
                name section the module stays as it is. It does not go with --old-hints
  --wide        rewrite in the wider edition of names; canonical forms of two editions are not
                comparable
  --old-hints   rewrite the hints of the older edition, the section branchHints: by function and
                offset, of those for one place the first. Without the section it is the one byte 00

OUT is not FILE itself. It is replaced as a whole, and stays as it was where that fails.

Example: wakemiono canon app.wasm
  before 23
  after 21
  saves 2 (8.6 %)

Example: wakemiono canon app.wasm --in-module -o smaller.wasm
";

const JOIN: &str = "\
Joins names that came apart from a module and the module's own in one canonical payload, which answers
every question as `wakemiono names FILE --beside NAMES` does.

Usage: wakemiono join FILE NAMES [-o OUT] [--wide] [--json]

NAMES is a file that holds a name payload, or a module, whose name section is taken. FILE may be
stripped. Where both have a name for something, that of NAMES is taken, even if it is empty.

Without -o it prints how many bytes both payloads have, and how many the joined one would have.

  -o OUT   write the joined payload to the file OUT, over what is there; - is standard output
  --wide   join in the wider edition of names

OUT is neither FILE nor NAMES. It is replaced as a whole, and stays as it was where that fails.

Example: wakemiono join app.wasm app.names
  separate 6
  own 21
  joined 21
";

const SAME: &str = "\
Says whether the name payloads of two modules would share one entry: whether every question about
names gets the same answer from both, which is whether their canonical payloads are equal.

Usage: wakemiono same A B [--all] [--wide] [--json]

Where they are not the same, it prints the first question that tells them apart and both answers,
and the exit status is 1. A module without a name section gives none to every question. One of the
files may be - for standard input. `kept ID` asks for a subsection of the name section whose id the
edition does not know.

  --all    print every question that tells them apart and its answers, in the order of payloads; each
           is one question to both modules, so that the time grows as it does with `wakemiono names`
  --wide   compare within the wider edition of names, with its questions

Example: wakemiono same old.wasm new.wasm
  not the same
  function 3
  old.wasm: b
  new.wasm: none
";

const JUDGE: &str = "\
Judges a module, its name payload and its branch hints of both editions, says whether these three are
canonical, and whether every hint stands on a branch.

Usage: wakemiono judge FILE [--wide] [--json]

Each of the lines `module`, `name`, `hints`, `old_hints` and `on_branches` says accepted, none where
there is no such section, or refused: with the reason, the offset from the start of the module, and
the bytes around it. `old_hints` is the section branchHints. `on_branches` is whether every hint of
metadata.code.branch_hint stands on a br_if or an if; code is read by version 1.0 of WebAssembly.

An accepted payload is `canonical already` where it equals its canonical form, and `not canonical`
otherwise. The payloads of a module that is itself refused are not asked, nor is where refused hints
stand. The exit status is 1 where anything is refused; what is not canonical is not refused.

The module is read as it arrives, and only the payloads, the list of imports and the code of a module
with hints are held, so that one of any size can come through a pipe.

  --wide   judge names in the wider edition; what it accepts the first edition accepts too

Example: wakemiono judge app.wasm
  module accepted
  name accepted, canonical already
  hints none
  old_hints none
  on_branches none
";

/// The help for a command, or for the program.
pub fn text(topic: Option<Topic>, style: Style) -> String {
    let line = |line: &str| {
        let heading = HEADINGS.iter().find(|heading| line.starts_with(**heading));
        let heading = heading.copied().unwrap_or_default();
        style.heading(heading) + &line[heading.len()..]
    };
    plain(topic).split_inclusive('\n').map(line).collect()
}

/// What leads to the lines that are looked for first.
const HEADINGS: [&str; 2] = ["Usage:", "Example:"];

const fn plain(topic: Option<Topic>) -> &'static str {
    match topic {
        None => OVERALL,
        Some(Topic::List) => LIST,
        Some(Topic::Names) => NAMES,
        Some(Topic::Name) => NAME,
        Some(Topic::Why) => WHY,
        Some(Topic::Hints) => HINTS,
        Some(Topic::Metadata) => METADATA,
        Some(Topic::Canon) => CANON,
        Some(Topic::Join) => JOIN,
        Some(Topic::Same) => SAME,
        Some(Topic::Judge) => JUDGE,
    }
}
