//! What may be taken at most: so many times what other operations take, or so many instructions.

use crate::code;
use crate::gaps;
use crate::modules;
use crate::operation::{Operation, Who};
use crate::pairs;
use crate::payload::Kind;
use crate::shared::{self, Looked};
use crate::table::{executed, payloads_of, shorter_payloads_of, Row};

/// What an operation is held to.
#[derive(Clone, Copy)]
enum Most {
    /// So many times what other operations take in all.
    Times(f64, &'static [Operation]),
    /// So many times what the second reader takes for the same.
    TimesSecondReader(f64),
    Instructions(u64),
    /// So many instructions more than another operation takes.
    More(u64, Operation),
}

struct Bar<'a> {
    payload: &'a str,
    operation: Operation,
    most: Most,
}

/// Rewriting older hints: in order it is a few passes, and out of order they are sorted without any memory but the output.
/// Markers: thirteen in a hundred more than judging, whatever the names are like, and a quick question among 14,000 of them.
const BARS: [Bar<'static>; 14] = [
    rewriting("old-hints", 5.0),
    rewriting("old-hints-shuffled", 500.0),
    rewriting("old-hints-apart-shuffled", 500.0),
    rewriting("old-hints-falling", 1_500.0),
    rewriting("old-hints-apart-falling", 1_500.0),
    rewriting("old-hints-nearly-rising", 1_500.0),
    marking("go"),
    marking("one-letter"),
    marking("c++"),
    marking("rust-v0"),
    marking("locals"),
    marking("wide"),
    marking("two-byte"),
    Bar {
        payload: "go",
        operation: Operation::QuickLast,
        most: Most::Instructions(5_000),
    },
];

const fn rewriting(payload: &'static str, times: f64) -> Bar<'static> {
    Bar {
        payload,
        operation: Operation::RewriteOldHints,
        most: Most::Times(times, &[Operation::JudgeOldHints]),
    }
}

const fn marking(payload: &'static str) -> Bar<'static> {
    Bar {
        payload,
        operation: Operation::Markers,
        most: Most::Times(1.13, &[Operation::Judge]),
    }
}

/// Two payloads: a question a tenth more than those to both of them, and the join three times as much as rewriting both.
fn of_pair((payload, kind): (&'static str, Kind)) -> [Bar<'static>; 2] {
    let (asked, each_asked, joined, each_rewritten): (_, &[_], _, &[_]) = match kind {
        Kind::WidePair => (
            Operation::WidePairLookUp,
            &[Operation::WideSeparateLookUp, Operation::WideOwnLookUp],
            Operation::WideJoin,
            &[Operation::WideSeparateRewrite, Operation::WideOwnRewrite],
        ),
        _ => (
            Operation::PairLookUp,
            &[Operation::SeparateLookUp, Operation::OwnLookUp],
            Operation::Join,
            &[Operation::SeparateRewrite, Operation::OwnRewrite],
        ),
    };
    let bar = |operation, most| Bar {
        payload,
        operation,
        most,
    };
    [
        bar(asked, Most::Times(1.1, each_asked)),
        bar(joined, Most::Times(3.0, each_rewritten)),
    ]
}

/// A module that arrives: half more than the walk where it is one part, and 2.2 times as much where it comes in parts of
/// 4,096 bytes. Where contents are large, the walk steps over many such parts at once; then a part has a bar of its own.
fn of_module(payload: &'static str) -> [Bar<'static>; 2] {
    let in_parts = match payload {
        modules::LARGE_CONTENTS => Most::Instructions(LARGE_IN_PARTS),
        _ => Most::Times(2.2, &[Operation::Walk]),
    };
    let bar = |operation, most| Bar {
        payload,
        operation,
        most,
    };
    [
        bar(Operation::StreamWhole, Most::Times(1.5, &[Operation::Walk])),
        bar(Operation::StreamInParts, in_parts),
    ]
}

/// Large contents in 342 parts of 4,096 bytes: 260 instructions each, so that their bytes cost nothing.
const LARGE_IN_PARTS: u64 = 342 * 260;

/// Hints on code: twice the second reader, which keeps a list of the bodies.
fn of_code(payload: &'static str) -> Bar<'static> {
    Bar {
        payload,
        operation: Operation::OnBranches,
        most: Most::TimesSecondReader(2.0),
    }
}

/// What a call on a table may take of its own: it goes through the marks of all blocks, and the table is copied.
const CALL: u64 = 4_000;

/// One look at a block: an instruction for each of its words.
const LOOK: u64 = 128;

/// One comparison: so many instructions for each byte of a payload that is compared.
const COMPARISON: u64 = 4;

/// What may be taken by a close, which needs no block, whatever is stored.
const CLOSE: u64 = 1_000;

/// A payload that is stored already: an open takes no more than judging and rewriting it, one look at each used block and
/// one comparison.
fn of_open((payload, looked): (&'static str, Looked)) -> Bar<'static> {
    let more = CALL + LOOK * looked.blocks as u64 + COMPARISON * looked.bytes as u64;
    Bar {
        payload,
        operation: Operation::TableOpen,
        most: Most::More(more, Operation::Rewrite),
    }
}

fn of_close(payload: &'static str) -> Bar<'static> {
    Bar {
        payload,
        operation: Operation::TableClose,
        most: Most::Instructions(CLOSE),
    }
}

/// A block that moves: an instruction for each of its words.
const MOVE: u64 = 128;

/// Gaps that are closed: one look at each used block, and each moves once.
fn of_compaction((payload, blocks): (&'static str, usize)) -> Bar<'static> {
    let most = CALL + (LOOK + MOVE) * blocks as u64;
    Bar {
        payload,
        operation: Operation::TableCompact,
        most: Most::Instructions(most),
    }
}

/// All bars, those of pairs, of modules, of code and of shared tables last.
fn bars() -> impl Iterator<Item = Bar<'static>> {
    let of_modules = modules::all().flat_map(of_module);
    let of_pairs = pairs::all().flat_map(of_pair);
    let of_code = code::all().map(of_code);
    let of_opens = shared::compared_once().map(of_open);
    let of_closes = shared::all().map(of_close);
    let made = BARS.into_iter().chain(of_pairs);
    let made = made.chain(of_modules).chain(of_code);
    let of_compactions = gaps::moved().map(of_compaction);
    made.chain(of_opens).chain(of_closes).chain(of_compactions)
}

/// The walk: what the second reader takes, on every payload that is walked over.
fn of_walk(payload: &str) -> Bar<'_> {
    Bar {
        payload,
        operation: Operation::Walk,
        most: Most::TimesSecondReader(1.0),
    }
}

/// A payload of fewer bytes is short.
const SHORT: u64 = 200;

/// How a short payload of names or of hints is judged and asked.
const OF_SHORT: [Operation; 16] = [
    Operation::Judge,
    Operation::Tell,
    Operation::LookUp,
    Operation::Markers,
    Operation::Why,
    Operation::ListFunctions,
    Operation::ListLocals,
    Operation::WideJudge,
    Operation::WideTell,
    Operation::WideLookUp,
    Operation::WideListGlobals,
    Operation::JudgeHints,
    Operation::TellHints,
    Operation::LookHintUp,
    Operation::ListHints,
    Operation::ListMetadata,
];

/// Two of a few bytes, whose name is looked up a second time once they are judged: one has a single entry, and in the other
/// every number takes its most bytes. The second reader looks for it while it judges.
const LOOKED_UP_AGAIN: [&str; 2] = [
    "fixture:by-hand-hints-before-code",
    "fixture:by-hand-padded-numbers",
];

/// A short payload: a tenth more than the second reader, and two tenths where a name is looked up in one of those two.
fn of_short(payload: &str, operation: Operation) -> Bar<'_> {
    let is_dearer = operation == Operation::LookUp && LOOKED_UP_AGAIN.contains(&payload);
    let times = if is_dearer { 1.2 } else { 1.1 };
    Bar {
        payload,
        operation,
        most: Most::TimesSecondReader(times),
    }
}

/// The bars of all short payloads that were counted.
fn of_all_short(rows: &[Row]) -> impl Iterator<Item = Bar<'_>> {
    OF_SHORT.into_iter().flat_map(move |operation| {
        let short = shorter_payloads_of(rows, operation, SHORT);
        short.map(move |payload| of_short(payload, operation))
    })
}

/// A line for each bar, or a sentence on those that are broken.
pub fn lines(rows: &[Row]) -> Result<String, String> {
    let mut kept = String::new();
    let mut broken = String::new();
    let mut all: Vec<Bar<'_>> = bars().collect::<Vec<_>>();
    all.extend(payloads_of(rows, Operation::Walk).map(of_walk));
    all.extend(of_all_short(rows));
    for bar in all {
        let (is_kept, line) = held(rows, &bar)?;
        match is_kept {
            true => kept.push_str(&format!("{line} is the bar\n")),
            false => broken.push_str(&format!("{line} is the bar, so speed it up.\n")),
        }
    }
    match broken.is_empty() {
        true => Ok(kept),
        false => Err(broken),
    }
}

/// Whether a bar is kept, and a line on how near it is.
fn held(rows: &[Row], bar: &Bar<'_>) -> Result<(bool, String), String> {
    let taken = count(rows, bar.payload, bar.operation)?;
    let (payload, words) = (bar.payload, bar.operation.words());
    Ok(match bar.most {
        Most::Instructions(most) => {
            let line = format!("{payload}: '{words}' takes {taken} instructions, at most {most}");
            (taken <= most, line)
        }
        Most::More(most, base) => {
            let more = taken.saturating_sub(count(rows, payload, base)?);
            let base = base.words();
            let line = format!(
                "{payload}: '{words}' takes {more} instructions more than '{base}', at most {most}"
            );
            (more <= most, line)
        }
        Most::TimesSecondReader(most) => {
            let of_reader = count_of(rows, payload, bar.operation, Who::SecondReader)?;
            let times = taken as f64 / of_reader as f64;
            let line = format!(
                "{payload}: '{words}' takes {times:.3} times what the second reader takes, at most {most}"
            );
            (times <= most, line)
        }
        Most::Times(most, bases) => {
            let mut in_all = 0;
            for base in bases {
                in_all += count(rows, payload, *base)?;
            }
            let times = taken as f64 / in_all as f64;
            let bases: Vec<&str> = bases.iter().map(|base| base.words()).collect();
            let bases = bases.join("' and '");
            let line =
                format!("{payload}: '{words}' takes {times:.3} times '{bases}', at most {most}");
            (times <= most, line)
        }
    })
}

/// What the library takes.
fn count(rows: &[Row], payload: &str, operation: Operation) -> Result<u64, String> {
    count_of(rows, payload, operation, Who::Library)
}

fn count_of(rows: &[Row], payload: &str, operation: Operation, who: Who) -> Result<u64, String> {
    let missing = || format!("{payload} has no count of '{}'.", operation.words());
    executed(rows, payload, operation, who).ok_or_else(missing)
}

#[cfg(test)]
mod tests {
    use super::*;
    use crate::operation::region;
    use crate::table;

    const JUDGED: u64 = 1_000;

    /// The counts of runs that reach every bar, but for one operation, which takes so much more.
    fn rows(payload: &str, operation: Operation, more: u64) -> Vec<Row> {
        let mut counts = String::new();
        for bar in bars() {
            let most = match bar.most {
                Most::Instructions(most) => most,
                Most::More(most, base) => {
                    counts.push_str(&run(bar.payload, base, JUDGED));
                    JUDGED + most
                }
                Most::TimesSecondReader(times) => (times * JUDGED as f64) as u64,
                Most::Times(times, bases) => {
                    for base in bases {
                        counts.push_str(&run(bar.payload, *base, JUDGED));
                    }
                    (times * (bases.len() as u64 * JUDGED) as f64) as u64
                }
            };
            let is_dearer = bar.payload == payload && bar.operation == operation;
            let taken = most + if is_dearer { more } else { 0 };
            counts.push_str(&run(bar.payload, bar.operation, taken));
        }
        table::rows(&counts).expect("rows")
    }

    /// A run that measures one operation on a payload that is not short. The second reader takes what judging takes,
    /// whatever it is.
    fn run(payload: &str, operation: Operation, by_library: u64) -> String {
        run_over(SHORT, payload, operation, by_library)
    }

    fn run_over(bytes: u64, payload: &str, operation: Operation, by_library: u64) -> String {
        let mut counts = format!("payload\t{payload}\t{bytes}\n");
        for who in Who::BOTH {
            let number = region(operation, who);
            let sum = match who {
                Who::Library => by_library,
                Who::SecondReader => JUDGED,
            };
            let (words, who) = (operation.words(), who.words());
            counts.push_str(&format!("region\t{number}\t{words}\t{who}\n"));
            counts.push_str(&format!("icount region {number} hits 1 sum {sum}\n"));
        }
        counts
    }

    #[test]
    fn bars_that_are_kept() {
        let rows = rows("go", Operation::Markers, 0);
        let said = lines(&rows).expect("none is broken");
        let walks = payloads_of(&rows, Operation::Walk).count();
        assert_eq!(said.lines().count(), bars().count() + walks);
        assert!(said.starts_with("old-hints: 'rewrite old hints' takes 5.000 times 'judge old hints', at most 5 is the bar"));
    }

    #[test]
    fn a_bar_that_is_broken_is_named() {
        let said = lines(&rows("c++", Operation::Markers, 1)).expect_err("one is broken");
        let line =
            "c++: 'markers' takes 1.131 times 'judge', at most 1.13 is the bar, so speed it up.\n";
        assert_eq!(said, line);
    }

    #[test]
    fn so_is_one_over_two_operations() {
        let said = lines(&rows("go-dealt", Operation::Join, 3)).expect_err("one is broken");
        let line = "go-dealt: 'join' takes 3.002 times 'rewrite separate' and 'rewrite own', at most 3 is the bar, so speed it up.\n";
        assert_eq!(said, line);
    }

    #[test]
    fn so_is_one_of_a_module_in_parts() {
        let said = lines(&rows("module-rustc", Operation::StreamInParts, 2));
        let line = "module-rustc: 'stream, parts of 4096' takes 2.202 times 'walk', at most 2.2 is the bar, so speed it up.\n";
        assert_eq!(said.expect_err("one is broken"), line);
    }

    #[test]
    fn so_is_one_over_the_second_reader() {
        let said = lines(&rows("code-go", Operation::OnBranches, 2)).expect_err("one is broken");
        let line = "code-go: 'hints on branches' takes 2.002 times what the second reader takes, at most 2 is the bar, so speed it up.\n";
        assert_eq!(said, line);
    }

    #[test]
    fn so_is_one_of_a_walk() {
        let walked = run("go", Operation::Walk, JUDGED + 1);
        let all = rows("go", Operation::Walk, 0).into_iter();
        let rows: Vec<Row> = all.chain(table::rows(&walked).expect("a row")).collect();
        let said = lines(&rows).expect_err("one is broken");
        let line = "go: 'walk' takes 1.001 times what the second reader takes, at most 1 is the bar, so speed it up.\n";
        assert_eq!(said, line);
    }

    /// The rows that reach every bar, and one of a short payload.
    fn with_short(payload: &str, operation: Operation, by_library: u64) -> Vec<Row> {
        let short = run_over(SHORT - 1, payload, operation, by_library);
        let all = rows("go", Operation::Walk, 0).into_iter();
        all.chain(table::rows(&short).expect("a row")).collect()
    }

    #[test]
    fn so_is_one_of_a_short_payload() {
        let asked = with_short("fixture:go-names", Operation::LookUp, 1_101);
        let line = "fixture:go-names: 'judge, look last function up' takes 1.101 times what the second reader takes, at most 1.1 is the bar, so speed it up.\n";
        assert_eq!(lines(&asked).expect_err("one is broken"), line);
        let judged = with_short("fixture:by-hand-padded-numbers", Operation::Judge, 1_101);
        assert!(lines(&judged).is_err());
    }

    #[test]
    fn two_short_payloads_have_a_bar_of_their_own() {
        for payload in LOOKED_UP_AGAIN {
            let near = with_short(payload, Operation::LookUp, 1_200);
            assert!(lines(&near).is_ok());
            let beyond = with_short(payload, Operation::LookUp, 1_201);
            assert!(lines(&beyond).is_err());
        }
    }

    #[test]
    fn so_is_one_of_instructions() {
        let said = lines(&rows("go", Operation::QuickLast, 1)).expect_err("one is broken");
        let line = "go: 'quick, last name' takes 5001 instructions, at most 5000 is the bar, so speed it up.\n";
        assert_eq!(said, line);
    }

    /// The store of 128 blocks is full, and the payload has 462 bytes.
    #[test]
    fn so_is_one_of_an_open() {
        let said = lines(&rows("shared-1-full", Operation::TableOpen, 1));
        let line = "shared-1-full: 'table, open what is stored' takes 22233 instructions more than 'rewrite', at most 22232 is the bar, so speed it up.\n";
        assert_eq!(said.expect_err("one is broken"), line);
    }

    /// Of 128 blocks 64 are used, and all of these move.
    #[test]
    fn so_is_one_of_gaps_that_are_closed() {
        let said = lines(&rows("gaps-128", Operation::TableCompact, 1));
        let line = "gaps-128: 'table, compact' takes 20385 instructions, at most 20384 is the bar, so speed it up.\n";
        assert_eq!(said.expect_err("one is broken"), line);
    }

    #[test]
    fn a_missing_count_is_said() {
        let said = lines(&[]).expect_err("no counts");
        assert_eq!(said, "old-hints has no count of 'rewrite old hints'.");
    }
}
