//! What traces and replays are to be seen doing, and what one of them does.

use crate::reference::{read_trace, verdict, Entry, Refusal, Verdict, PLACED};
use crate::traces::mended;

pub const AGREES: &str = "replay agrees";
const NOTHING_AGREES: &str = "replay of no accesses agrees";
const FIRST: &str = "replay differs at the first access";
const MIDDLE: &str = "replay differs in the middle";
const LAST: &str = "replay differs at the last access";
const LACKS_ALL: &str = "replay lacks every access";
const LACKS_LAST: &str = "replay lacks accesses at the end";
const LACKS_MIDDLE: &str = "replay lacks an access in the middle";
const EXTRA_ALONE: &str = "replay has accesses of a sheet without any";
const EXTRA_LAST: &str = "replay has an access too many at the end";
const EXTRA_MIDDLE: &str = "replay has an access too many in the middle";
const OTHER_STEP: &str = "replay differs in the step";
const OTHER_ELEMENT: &str = "replay differs in the element alone";
const OTHER_SORT: &str = "replay differs in the sort";
const OTHER_BYTE: &str = "replay differs in the byte alone";
const BEYOND_MEMORY: &str = "replay differs in a byte beyond memory";
const PAST_16_BITS: &str = "trace refused past byte 65,535";
const BOTH_REFUSED: &str = "sheet refused before its trace";
const SHEET_REFUSED: &str = "sheet refused with a good trace";
const SHEET_REFUSED_EMPTY: &str = "sheet refused with an empty trace";
const ROOM_FITS: &str = "trace in a room that fits";
const ROOM_TO_SPARE: &str = "trace with room to spare";
const ROOM_SHORT_BY_ONE: &str = "trace in a room one byte short";
const NO_ROOM: &str = "trace without room";
const NOTHING_WITHOUT_ROOM: &str = "trace of no accesses without room";

const PLAIN: [&str; 25] = [
    AGREES,
    NOTHING_AGREES,
    FIRST,
    MIDDLE,
    LAST,
    LACKS_ALL,
    LACKS_LAST,
    LACKS_MIDDLE,
    EXTRA_ALONE,
    EXTRA_LAST,
    EXTRA_MIDDLE,
    OTHER_STEP,
    OTHER_ELEMENT,
    OTHER_SORT,
    OTHER_BYTE,
    BEYOND_MEMORY,
    PAST_16_BITS,
    BOTH_REFUSED,
    SHEET_REFUSED,
    SHEET_REFUSED_EMPTY,
    ROOM_FITS,
    ROOM_TO_SPARE,
    ROOM_SHORT_BY_ONE,
    NO_ROOM,
    NOTHING_WITHOUT_ROOM,
];

/// The numbers that a sheet gets before its trace, or a room, is looked at.
pub const OF_SHEET: [u32; 16] = [1, 2, 3, 4, 5, 6, 7, 8, 9, 10, 11, 12, 13, 14, 15, 18];
/// Those that a trace gets.
const OF_TRACE: [u32; 5] = [1, 2, 4, 5, 26];
/// Numbers of which a field gets the first, and the second once it is mended of that.
const PAIRS: [[u32; 2]; 8] = [[1, 2], [1, 4], [2, 4], [2, 5], [2, 26], [4, 5], [4, 26], [5, 26]];

/// Everything that traces and replays are to be seen doing.
pub fn every() -> Vec<String> {
    let mut sights = PLAIN.map(String::from).to_vec();
    sights.extend(OF_SHEET.map(of_sheet));
    for number in OF_TRACE {
        sights.extend([false, true].map(|differs| of_trace(number, differs)));
    }
    sights.extend(PAIRS.map(both));
    sights
}

fn of_sheet(number: u32) -> String {
    format!("replay refused {number} for its sheet")
}

fn of_trace(number: u32, differs: bool) -> String {
    format!("trace refused {number} {} a difference", if differs { "after" } else { "without" })
}

fn both([given, other]: [u32; 2]) -> String {
    format!("trace refused {given} before {other}")
}

/// What the written trace of an accepted sheet does in a room; both lengths are in bytes.
pub fn of_room(length: usize, room: usize) -> Option<&'static str> {
    match (length, room) {
        (0, 0) => Some(NOTHING_WITHOUT_ROOM),
        (_, 0) => Some(NO_ROOM),
        _ if room == length => Some(ROOM_FITS),
        _ if room > length => Some(ROOM_TO_SPARE),
        _ if room + 1 == length => Some(ROOM_SHORT_BY_ONE),
        _ => None,
    }
}

/// What the replay of a trace does; of the sheet its accesses are given, or its refusal.
pub fn of_replay(
    sheet: &Result<Vec<Entry>, Refusal>,
    memory_len: usize,
    trace: &[u8],
) -> Vec<String> {
    match (sheet, read_trace(trace)) {
        (Err(refusal), traced) => {
            let beside = match traced {
                Ok(_) if trace.is_empty() => SHEET_REFUSED_EMPTY,
                Ok(_) => SHEET_REFUSED,
                Err(_) => BOTH_REFUSED,
            };
            vec![of_sheet(refusal.cause.number()), String::from(beside)]
        }
        (Ok(own), Ok(traced)) => {
            let sights = match verdict(own, &traced) {
                Verdict::Agrees if own.is_empty() => vec![AGREES, NOTHING_AGREES],
                Verdict::Agrees => vec![AGREES],
                Verdict::Differs(at) => of_difference(own, &traced, at, memory_len),
            };
            sights.into_iter().map(String::from).collect()
        }
        (Ok(own), Err(refusal)) => of_refused(own, trace, refusal),
    }
}

/// Two lists that differ at an index.
fn of_difference(
    own: &[Entry],
    traced: &[Entry],
    at: usize,
    memory_len: usize,
) -> Vec<&'static str> {
    let (Some(one), Some(other)) = (own.get(at), traced.get(at)) else {
        return vec![match (own.len(), traced.len()) {
            (_, 0) => LACKS_ALL,
            (0, _) => EXTRA_ALONE,
            (all, some) if some < all => LACKS_LAST,
            _ => EXTRA_LAST,
        }];
    };
    let mut sights = vec![match at {
        0 => FIRST,
        _ if at + 1 == own.len() => LAST,
        _ => MIDDLE,
    }];
    if own[at + 1..] == traced[at..] {
        sights.push(LACKS_MIDDLE);
    }
    if own[at..] == traced[at + 1..] {
        sights.push(EXTRA_MIDDLE);
    }
    sights.push(if one.step != other.step {
        OTHER_STEP
    } else if one.element != other.element {
        OTHER_ELEMENT
    } else if one.sort != other.sort {
        OTHER_SORT
    } else {
        OTHER_BYTE
    });
    if other.sort == PLACED && other.byte as usize >= memory_len {
        sights.push(BEYOND_MEMORY);
    }
    sights
}

/// A trace that is refused at a field.
fn of_refused(own: &[Entry], trace: &[u8], refusal: Refusal) -> Vec<String> {
    let (number, place) = (refusal.cause.number(), refusal.place[0] as usize);
    let (before, rest) = trace.split_at(place);
    let accesses = read_trace(before).expect("refused later");
    let mut sights = vec![of_trace(number, !own.starts_with(&accesses))];
    if place > usize::from(u16::MAX) {
        sights.push(String::from(PAST_16_BITS));
    }
    if let Some(mended) = mended(number, rest) {
        if let Err(next) = read_trace(&[before, &mended].concat()) {
            sights.push(both([number, next.cause.number()]));
        }
    }
    sights
}
