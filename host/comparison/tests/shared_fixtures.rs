//! The name payloads of the fixtures in a shared table: as they are, as another tool might have spelled them, cut off and
//! damaged.

use comparison::fixtures::modules;
use comparison::held::{Contents, Held, Names, FIRST};
use comparison::library::{custom, Told, FOUND, NONE, REFUSED};
use comparison::sharing::makes::LibraryTable;
use comparison::sharing::{Both, Call, Seen, Step, BLOCK, CUSTOMERS, HOLDS, MOST_BLOCKS};
use comparison::spelling::LONGEST_NUMBER;
use comparison::tally::NAMES;
use std::collections::BTreeMap;
use std::fs;

/// Those with a name section, and how many of these payloads are accepted.
const WITH_NAMES: usize = 60;
const ACCEPTED: usize = 43;

/// How many different payloads are left of the accepted ones once they are canonical.
const DIFFERENT: usize = 38;

/// How many calls are put at least with what is cut off or damaged.
const LEAST_DAMAGED: usize = 10_000;

/// The id of the subsection with the names of functions.
const FUNCTIONS: u8 = 1;

const STORE: usize = MOST_BLOCKS * BLOCK;

type BothMakes = Both<LibraryTable, second_reader::Table>;

/// A table of each make, over stores that hold no zeros.
fn both() -> BothMakes {
    Both::new(&vec![0xEE; STORE])
}

fn put(both: &mut BothMakes, customer: u32, call: Call<'_>) -> Seen {
    let step = Step {
        customer,
        call,
        store_length: STORE,
    };
    both.put(&step).expect("no difference")
}

/// What an open is answered, with a work buffer as long as the payload.
fn open(both: &mut BothMakes, customer: u32, payload: &[u8]) -> Told {
    let room = payload.len();
    put(both, customer, Call::Open { payload, room }).told
}

fn close(both: &mut BothMakes, customer: u32, hold: u32) {
    let told = put(both, customer, Call::Close { hold }).told;
    assert_eq!(told.kind, FOUND);
}

/// The name that is found through a hold, or none.
fn name(both: &mut BothMakes, customer: u32, hold: u32, function: u32) -> Option<Vec<u8>> {
    const ROOM: usize = 1_000;
    let call = Call::FunctionName {
        hold,
        function,
        room: ROOM,
    };
    let Seen { told, output } = put(both, customer, call);
    match told.kind {
        NONE => None,
        _ => {
            assert_eq!((told.kind, told.offset), (FOUND, 0));
            Some(output[..told.length as usize].to_vec())
        }
    }
}

/// The name payloads, accepted or not.
fn name_payloads() -> Vec<Vec<u8>> {
    let modules = modules().into_iter();
    let bytes = modules.map(|path| fs::read(path).expect("a fixture can be read"));
    let payload = |module: Vec<u8>| {
        let found = custom(&module, NAMES);
        let bytes = module[found.offset as usize..].iter().copied();
        (found.kind == FOUND).then(|| bytes.take(found.length as usize).collect())
    };
    bytes.filter_map(payload).collect()
}

fn judged(payload: &[u8]) -> Told {
    second_reader::names_judge(payload).into()
}

fn is_accepted(payload: &[u8]) -> bool {
    judged(payload).kind == FOUND
}

/// The accepted ones.
fn accepted() -> Vec<Vec<u8>> {
    let mut payloads = name_payloads();
    assert_eq!(payloads.len(), WITH_NAMES);
    payloads.retain(|payload| is_accepted(payload));
    assert_eq!(payloads.len(), ACCEPTED);
    payloads
}

/// The same with every number in as many bytes as a number may take.
fn padded(held: &Names) -> Vec<u8> {
    held.spelled(&mut |fewest| LONGEST_NUMBER - fewest)
}

/// The functions that have names, and those beside them.
fn functions(held: &Names) -> Vec<u32> {
    let beside = |function: &u32| {
        [
            function.wrapping_sub(1),
            *function,
            function.wrapping_add(1),
        ]
    };
    match held.subsections.get(&FUNCTIONS) {
        Some(Contents::Map(entries)) => entries.keys().flat_map(beside).collect(),
        _ => vec![0],
    }
}

/// The name that the payload itself gives.
fn own_name(payload: &[u8], function: u32) -> Option<Vec<u8>> {
    let told = Told::from(second_reader::function_name(payload, function));
    let name = || payload[told.offset as usize..][..told.length as usize].to_vec();
    (told.kind == FOUND).then(name)
}

#[test]
fn two_spellings_by_two_customers_are_stored_once() {
    let mut questions = 0;
    for payload in accepted() {
        let held = Names::of(&payload, &FIRST);
        let canonical = held.clone().canonical();
        let mut both = both();
        assert_eq!(open(&mut both, 3, &payload).length, 0);
        assert_eq!(both.stored(), [(canonical.clone(), 1)]);
        assert_eq!(open(&mut both, 11, &padded(&held)).length, 0);
        assert_eq!(both.stored(), [(canonical, 2)]);
        for function in functions(&held) {
            let expected = own_name(&payload, function);
            for customer in [3, 11] {
                assert_eq!(name(&mut both, customer, 0, function), expected);
                questions += 1;
            }
        }
        close(&mut both, 3, 0);
        close(&mut both, 11, 0);
        assert_eq!(both.stored(), []);
    }
    println!("asked {questions} questions");
}

/// Every customer opens some, and every payload is opened by several, in both spellings.
#[test]
fn all_of_them_side_by_side() {
    let payloads = accepted();
    let mut both = both();
    let mut opened = BTreeMap::new();
    let mut of_holds = vec![];
    let mut payloads = payloads.iter().cycle();
    for hold in 0..HOLDS {
        for customer in 0..CUSTOMERS {
            let payload = payloads.next().expect("there are some");
            let held = Names::of(payload, &FIRST);
            let spelled = match hold % 2 {
                0 => payload.clone(),
                _ => padded(&held),
            };
            assert_eq!(open(&mut both, customer, &spelled).length, hold.into());
            *opened.entry(held.canonical()).or_insert(0) += 1;
            of_holds.push((customer, hold, payload));
        }
    }
    let stored: BTreeMap<Vec<u8>, usize> = both.stored().into_iter().collect();
    assert_eq!(stored, opened);
    assert_eq!(both.stored().len(), DIFFERENT);
    for (customer, hold, payload) in of_holds {
        let functions = functions(&Names::of(payload, &FIRST));
        for function in functions.into_iter().take(9) {
            let expected = own_name(payload, function);
            assert_eq!(name(&mut both, customer, hold, function), expected);
        }
    }
}

/// Each by a hold of its own, and every second one is closed. What is left moves to the front, and is asked there; then
/// those that were closed are opened again, behind it.
#[test]
fn the_gaps_between_them_are_closed() {
    let payloads = accepted();
    let mut both = both();
    let places = (0..CUSTOMERS).flat_map(|customer| (0..HOLDS).map(move |hold| (customer, hold)));
    let opened: Vec<_> = places.zip(&payloads).collect();
    for ((customer, hold), payload) in &opened {
        assert_eq!(open(&mut both, *customer, payload).length, (*hold).into());
    }
    let (closed, left): (Vec<_>, Vec<_>) =
        opened.into_iter().partition(|((_, hold), _)| hold % 2 == 0);
    for ((customer, hold), _) in &closed {
        close(&mut both, *customer, *hold);
    }
    let stored = both.stored();
    assert_eq!(put(&mut both, 0, Call::Compact).told.kind, FOUND);
    assert_eq!(both.stored(), stored);
    for ((customer, hold), payload) in left {
        for function in functions(&Names::of(payload, &FIRST)) {
            let expected = own_name(payload, function);
            assert_eq!(name(&mut both, customer, hold, function), expected);
        }
    }
    for ((customer, hold), payload) in closed {
        assert_eq!(open(&mut both, customer, payload).length, hold.into());
    }
    assert_eq!(both.stored().len(), DIFFERENT);
}

/// What happens to a payload: it is cut off, or a byte is another. Of a long one, at some places.
fn damaged(payload: &[u8]) -> Vec<Vec<u8>> {
    const PLACES: usize = 200;
    let places = (0..payload.len()).step_by(payload.len() / PLACES + 1);
    let mut all = vec![];
    for at in places {
        all.push(payload[..at].to_vec());
        for change in [0x01, 0x80, 0xFF] {
            let mut changed = payload.to_vec();
            changed[at] ^= change;
            all.push(changed);
        }
    }
    all
}

/// Each is opened beside the payload that it was, or refused as it is judged, and then nothing is stored of it.
#[test]
fn what_was_cut_off_or_damaged() {
    let mut met = BTreeMap::new();
    for payload in name_payloads() {
        let mut both = both();
        let whole = open(&mut both, 0, &payload);
        let stored = both.stored();
        assert_eq!(stored.len(), usize::from(whole.kind == FOUND));
        for damaged in damaged(&payload) {
            let told = open(&mut both, 1, &damaged);
            match told.kind {
                FOUND => close(&mut both, 1, 0),
                _ => assert_eq!(told, judged(&damaged)),
            }
            assert_eq!(both.stored(), stored);
            *met.entry((told.kind, told.code)).or_insert(0) += 1;
        }
    }
    println!("opened: {met:?}");
    assert!(met.values().sum::<usize>() >= LEAST_DAMAGED, "{met:?}");
    for code in [2, 3, 4, 9, 10, 11] {
        assert!(met.contains_key(&(REFUSED, code)), "{code} was not met");
    }
}
