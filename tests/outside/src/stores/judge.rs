//! Judges a trace of the prepared calls, as valgrind's lackey writes it: one line for each access, `I` an instruction fetched, ` L` a load, ` S` a
//! store, ` M` both, then the address in hexadecimal digits, a comma and the length.

use super::prepare::Prepared;
use super::{image_address, BEGINS, ENDS, REGION_END};
use crate::rules::header::{HEADER, HEADER_LENGTH};
use crate::rules::opening::open;
use crate::rules::protected::free_bytes;
use crate::rules::signing::SIGNATURE_LENGTH;
use crate::subject::Rules;
use crate::trial::call::Call;
use crate::trial::properties::{require, writable_bytes};
use std::collections::BTreeMap;
use std::io::BufRead;

/// How many calls of a kind were judged, how many of them were accepted, and how many bytes of an image they stored to.
#[derive(Clone, Copy, Debug, Default)]
pub struct Seen {
    pub calls: u64,
    pub accepted: u64,
    pub stored: u64,
}

pub type Tally = BTreeMap<&'static str, Seen>;

/// Reads a trace to its end and judges each call; the complaint says what is wrong with the first that is.
pub fn judge(calls: &[Prepared], trace: &mut dyn BufRead) -> Result<Tally, String> {
    let mut tally = Tally::new();
    let mut line = Vec::new();
    let mut number = 0;
    let mut stores: Option<Vec<u32>> = None;
    while trace.read_until(b'\n', &mut line).map_err(|error| error.to_string())? > 0 {
        match parse(&line)? {
            Some((BEGINS, _)) => {
                require(stores.is_none(), || "a call begins inside another".into())?;
                let prepared = calls.get(number).ok_or("the trace has more calls than were prepared")?;
                stores = Some(vec![0; prepared.image.len()]);
            }
            Some((ENDS, _)) => {
                let stores = stores.take().ok_or("a call ends that has not begun")?;
                judge_call(&calls[number], &stores, &mut tally)
                    .map_err(|complaint| format!("call {number}, {}: {complaint}", calls[number].call))?;
                number += 1;
            }
            Some((address, length)) => {
                if let Some(stores) = &mut stores {
                    note(stores, image_address(number), address, length)
                        .map_err(|complaint| format!("call {number}, {}: {complaint}", calls[number].call))?;
                }
            }
            None => {}
        }
        line.clear();
    }
    if number < calls.len() {
        return Err(format!("the trace ends after {number} of {} calls", calls.len()));
    }
    for kind in ["begin", "write", "commit", "signed commit", "revert", "signed revert"] {
        let seen = tally.get(kind).copied().unwrap_or_default();
        if seen.stored == 0 {
            return Err(format!("no store of a {kind} was seen"));
        }
    }
    Ok(tally)
}

/// The address and the length of a store, or nothing for another line of a trace.
fn parse(line: &[u8]) -> Result<Option<(u64, u64)>, String> {
    let unknown = || format!("this is no line of a trace: {}", String::from_utf8_lossy(line).trim_end());
    match line {
        [b'I', b' ', b' ', ..] | [b' ', b'L', b' ', ..] | [b'=', b'=', ..] | [b'-', b'-', ..] | [b'\n'] => {
            return Ok(None)
        }
        [b' ', b'S' | b'M', b' ', ..] => {}
        _ => return Err(unknown()),
    }
    let text = std::str::from_utf8(&line[3..]).map_err(|_| unknown())?;
    let (address, length) = text.trim_end().split_once(',').ok_or_else(unknown)?;
    let address = u64::from_str_radix(address, 16).map_err(|_| unknown())?;
    Ok(Some((address, length.parse().map_err(|_| unknown())?)))
}

/// Counts a store for each byte of the image that it has.
fn note(stores: &mut [u32], image: u64, address: u64, length: u64) -> Result<(), String> {
    for byte in address..address + length {
        match byte.checked_sub(image).filter(|place| *place < stores.len() as u64) {
            Some(place) => stores[place as usize] += 1,
            None if (BEGINS..REGION_END).contains(&byte) => {
                return Err(format!("a store beside the image, at {byte:#x}"))
            }
            None => {}
        }
    }
    Ok(())
}

fn kind_of(call: &Call) -> &'static str {
    match call {
        Call::Begin => "begin",
        Call::Write { .. } => "write",
        Call::Commit => "commit",
        Call::CommitSigned { .. } => "signed commit",
        Call::Revert => "revert",
        Call::RevertSigned { .. } => "signed revert",
        _ => "another call",
    }
}

/// Does an accepted call of this kind store to this place, just once? A commit or a revert does to the header, a signed one to the
/// signature too.
fn stores_once(kind: &str, place: usize) -> bool {
    let in_header = (HEADER..HEADER + HEADER_LENGTH).contains(&place);
    match kind {
        "commit" | "revert" => in_header,
        "signed commit" | "signed revert" => in_header || place < SIGNATURE_LENGTH,
        _ => false,
    }
}

/// Begin and write may store to free bytes, an accepted write to the bytes of its range in an external level 4; an accepted commit or revert stores each byte of the header once, a signed one each of the signature too; no other
/// call stores. A byte that changes was stored to, or else the trace has not seen all.
fn judge_call(prepared: &Prepared, stores: &[u32], tally: &mut Tally) -> Result<(), String> {
    let mut after = prepared.image.clone();
    let accepted = prepared.call.perform(&Rules, &mut after, &mut prepared.session.clone()).accepted();
    let kind = kind_of(&prepared.call);
    let allowed = match (kind, open(&prepared.image)) {
        ("write", Ok(opened)) if accepted => Some(writable_bytes(&prepared.image, &opened, &prepared.call)),
        ("begin" | "write", Ok(opened)) => Some(free_bytes(&prepared.image, &opened)),
        _ => None,
    };
    for (place, &count) in stores.iter().enumerate() {
        if accepted && stores_once(kind, place) {
            require(count == 1, || format!("byte {place:#x} of what a {kind} stores was stored {count} times"))?;
        } else if count > 0 {
            let free = allowed.as_ref().is_some_and(|free| free[place]);
            require(free, || format!("a store to byte {place:#x}, which is protected from it"))?;
        }
        require(count > 0 || after[place] == prepared.image[place], || {
            format!("no store to byte {place:#x} was seen")
        })?;
    }
    let seen = tally.entry(kind).or_default();
    seen.calls += 1;
    seen.accepted += u64::from(accepted);
    seen.stored += stores.iter().map(|count| u64::from(*count)).sum::<u64>();
    Ok(())
}
