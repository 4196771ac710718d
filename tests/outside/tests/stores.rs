//! Proof that the judge of traces notices what it should: a trace as the rules would leave it passes, and each change to it is found.

use outside::rules::header::{HEADER, HEADER_LENGTH};
use outside::rules::opening::open;
use outside::rules::signing::SIGNATURE_LENGTH;
use outside::stores::judge::judge;
use outside::stores::prepare::{from_bytes, prepare, to_bytes, Prepared};
use outside::stores::{image_address, BEGINS, ENDS};
use outside::subject::Rules;
use outside::trial::call::Call;
use outside::trial::properties::writable_bytes;

/// What a trace has of one call: the places in its image that are stored to, in their order.
type Stores = Vec<(char, u64, u64)>;

/// The stores of a library that stores each byte that changes, and a commit's header and signature whole.
fn stores_of(prepared: &Prepared) -> Stores {
    let mut after = prepared.image.clone();
    let outcome = prepared.call.perform(&Rules, &mut after, &mut prepared.session.clone());
    let header = HEADER..HEADER + HEADER_LENGTH;
    let stored_whole = |place: &usize| match prepared.call {
        Call::Commit | Call::Revert => header.contains(place),
        Call::CommitSigned { .. } | Call::RevertSigned { .. } => header.contains(place) || *place < SIGNATURE_LENGTH,
        _ => false,
    };
    (0..after.len())
        .filter(|place| after[*place] != prepared.image[*place] || (outcome.accepted() && stored_whole(place)))
        .map(|place| ('S', place as u64, 1))
        .collect()
}

fn trace_of(calls: &[Stores]) -> String {
    let mut trace = String::from("==1== Lackey\nI  04001000,3\n");
    for (number, stores) in calls.iter().enumerate() {
        trace += &format!(" S {BEGINS:x},8\n L {:x},8\n", image_address(number));
        for (kind, place, length) in stores {
            trace += &format!(" {kind} {:x},{length}\n", image_address(number) + place);
        }
        trace += &format!(" S {ENDS:x},8\n S {:x},32\n", image_address(number + 1));
    }
    trace
}

fn complaint(calls: &[Prepared], trace: &str) -> String {
    judge(calls, &mut trace.as_bytes()).map_or_else(|complaint| complaint, |_| "none".into())
}

/// Some calls with their stores, and the number of one that was accepted.
fn some_calls(wanted: impl Fn(&Call) -> bool) -> (Vec<Prepared>, Vec<Stores>, usize) {
    let calls = prepare(7, 80);
    let stores: Vec<Stores> = calls.iter().map(stores_of).collect();
    let number = (0..calls.len()).find(|number| wanted(&calls[*number].call) && !stores[*number].is_empty());
    (calls, stores, number.expect("there is such a call"))
}

fn complaint_with(wanted: impl Fn(&Call) -> bool, change: impl Fn(&Prepared, &mut Stores)) -> String {
    let (calls, mut stores, number) = some_calls(wanted);
    change(&calls[number], &mut stores[number]);
    complaint(&calls, &trace_of(&stores))
}

fn is_write(call: &Call) -> bool {
    matches!(call, Call::Write { .. })
}

#[test]
fn calls_are_read_as_they_were_written() {
    let calls = prepare(7, 80);
    assert_eq!(format!("{calls:?}"), format!("{:?}", from_bytes(&to_bytes(&calls))));
}

#[test]
fn a_good_trace_passes() {
    let (calls, stores, _) = some_calls(is_write);
    let tally = judge(&calls, &mut trace_of(&stores).as_bytes()).unwrap();
    assert_eq!(tally.values().map(|seen| seen.calls).sum::<u64>(), calls.len() as u64);
}

#[test]
fn every_protected_byte_is_protected() {
    for wanted in [is_write, |call: &Call| matches!(call, Call::Begin)] {
        let (calls, stores, number) = some_calls(wanted);
        let image = &calls[number].image;
        let writable = writable_bytes(image, &open(image).unwrap(), &calls[number].call);
        for place in (0..image.len()).filter(|place| !writable[*place]).step_by(1 + image.len() / 200) {
            for kind in ['S', 'M'] {
                let mut stores = stores.clone();
                stores[number].push((kind, place as u64, 1));
                let found = complaint(&calls, &trace_of(&stores));
                assert!(found.ends_with(&format!("a store to byte {place:#x}, which is protected from it")), "{found}");
            }
        }
    }
}

#[test]
fn a_long_store_counts_for_each_of_its_bytes() {
    let found = complaint_with(is_write, |prepared, stores| {
        let free = writable_bytes(&prepared.image, &open(&prepared.image).unwrap(), &prepared.call);
        let edge =
            (0..free.len() - 1).find(|place| free[*place] && !free[*place + 1]).expect("free bytes end somewhere");
        stores.push(('S', edge as u64, 2));
    });
    assert!(found.contains("which is protected from it"), "{found}");
}

#[test]
fn a_write_in_place_keeps_to_its_range() {
    let calls = prepare(7, 200);
    let stores: Vec<Stores> = calls.iter().map(stores_of).collect();
    let written = |number: &usize| {
        let opened = open(&calls[*number].image);
        opened.map_or(0..0, |opened| calls[*number].call.written_in_place(&opened))
    };
    let in_place = |number: &usize| !written(number).is_empty();
    let with_store = |number: usize, place: usize| {
        let mut stores = stores.clone();
        stores[number].push(('S', place as u64, 1));
        complaint(&calls, &trace_of(&stores))
    };
    let accepted = (0..calls.len()).find(|number| in_place(number) && !stores[*number].is_empty()).unwrap();
    let range = written(&accepted);
    assert_eq!(with_store(accepted, range.start), "none");
    let opened = open(&calls[accepted].image).unwrap();
    let writable = writable_bytes(&calls[accepted].image, &opened, &calls[accepted].call);
    for place in [range.start - 1, range.end].into_iter().filter(|place| writable.get(*place) == Some(&false)) {
        assert!(with_store(accepted, place).ends_with("which is protected from it"), "{place:#x}");
    }
    let refused = (0..calls.len()).find(|number| in_place(number) && stores[*number].is_empty()).unwrap();
    assert!(with_store(refused, written(&refused).start).ends_with("which is protected from it"));
}

/// The calls that store a header, with the names that the judge has for them.
type Kind = (&'static str, fn(&Call) -> bool);
const PLAIN: [Kind; 2] =
    [("commit", |call| matches!(call, Call::Commit)), ("revert", |call| matches!(call, Call::Revert))];
const SIGNED: [Kind; 2] = [
    ("signed commit", |call| matches!(call, Call::CommitSigned { .. })),
    ("signed revert", |call| matches!(call, Call::RevertSigned { .. })),
];

#[test]
fn a_commit_or_revert_stores_its_header_once_and_nothing_else() {
    for (kind, wanted) in PLAIN {
        let twice = complaint_with(wanted, |_, stores| stores.push(('S', HEADER as u64, 8)));
        assert!(twice.contains(&format!("byte 0x100 of what a {kind} stores was stored 2 times")), "{twice}");
        let beside = complaint_with(wanted, |_, stores| stores.push(('S', 0x200, 1)));
        assert!(beside.contains("a store to byte 0x200, which is protected from it"), "{beside}");
        let part = complaint_with(wanted, |_, stores| stores.truncate(stores.len() - 1));
        assert!(part.contains(&format!("byte 0x1ff of what a {kind} stores was stored 0 times")), "{part}");
        let in_front = complaint_with(wanted, |_, stores| stores.push(('S', 0xF, 1)));
        assert!(in_front.contains("a store to byte 0xf, which is protected from it"), "{in_front}");
    }
}

#[test]
fn a_signed_commit_or_revert_stores_its_signature_too() {
    for (kind, wanted) in SIGNED {
        for place in [0, 0xF, 0x100, 0x1FF] {
            let twice = complaint_with(wanted, |_, stores| stores.push(('S', place, 1)));
            assert!(twice.contains(&format!("byte {place:#x} of what a {kind} stores was stored 2 times")), "{twice}");
            let never = complaint_with(wanted, |_, stores| stores.retain(|store| store.1 != place));
            assert!(never.contains(&format!("byte {place:#x} of what a {kind} stores was stored 0 times")), "{never}");
        }
        for place in [0x10, 0xFF, 0x200] {
            let beside = complaint_with(wanted, |_, stores| stores.push(('S', place, 1)));
            assert!(beside.contains(&format!("a store to byte {place:#x}, which is protected from it")), "{beside}");
        }
    }
}

#[test]
fn a_trace_that_has_not_seen_all_is_refused() {
    let missed = complaint_with(is_write, |_, stores| stores.truncate(stores.len() - 1));
    assert!(missed.contains("was seen"), "{missed}");
    let beside = complaint_with(is_write, |prepared, stores| stores.push(('S', prepared.image.len() as u64, 1)));
    assert!(beside.contains("a store beside the image"), "{beside}");

    let (calls, stores, _) = some_calls(is_write);
    let short = complaint(&calls, &trace_of(&stores[1..]));
    assert!(short != "none", "a trace of other calls");
    let trace = trace_of(&stores);
    let cut = complaint(&calls, &trace[..trace.rfind(&format!("{ENDS:x}")).unwrap()]);
    assert!(cut.contains("this is no line of a trace"), "{cut}");
    let begins = format!(" S {BEGINS:x},8\n");
    let inside = complaint(&calls, &trace.replacen(&begins, &begins.repeat(2), 1));
    assert!(inside.contains("a call begins inside another"), "{inside}");
    let last = complaint(&calls[..1], &trace);
    assert!(last.contains("more calls than were prepared"), "{last}");
    let early = complaint(&calls, &trace_of(&stores[..1]));
    assert!(early.contains("the trace ends after 1 of"), "{early}");
    assert!(complaint(&[], "").contains("no store of a begin was seen"));
}
