//! An office that nothing proves, written for speed: a map in order of keys, and what is here and the sums kept as running
//! numbers. Calls and answers are the bytes of docs/FORMATS.md.

use std::collections::BTreeMap;
use std::slice;

const ANSWER_BYTES: usize = 64;
const ENVELOPE_BYTES: usize = 80;
const MAX_AMOUNT: u32 = 1_000_000;
const KEYS_OF_AN_OFFICE: u32 = 65_536;

#[derive(Clone, Copy, PartialEq, Eq)]
enum Kind {
    Accepted,
    SentOn,
    ComeIn,
    HandedOut,
}

impl Kind {
    fn is_here(self) -> bool {
        matches!(self, Kind::Accepted | Kind::ComeIn)
    }
}

struct Parcel {
    step: u64,
    amount: u32,
    kind: Kind,
    to: u8,
    dest: u8,
}

pub struct Office {
    offices: u32,
    own: u32,
    limit: usize,
    parcels: BTreeMap<u32, Parcel>,
    accepted: u32,
    here: u64,
    collected: u64,
}

enum Answer {
    Refused { reason: u64, place: u64 },
    Number(u64),
    Slip([u64; 6]),
    Two(u64, u64),
}

// A refusal at place 0.
const fn refused(reason: u64) -> Answer {
    Answer::Refused { reason, place: 0 }
}

const OUT_OF_RANGE: Answer = refused(2);
const NOT_HERE: Answer = refused(4);
const WRONG_SLIP: Answer = refused(5);
const OTHER_OFFICE: Answer = refused(6);
const OVER_LIMIT: Answer = refused(9);

fn field(row: &[u8], index: usize) -> u32 {
    let at = 1 + 4 * index;
    u32::from_le_bytes([row[at], row[at + 1], row[at + 2], row[at + 3]])
}

fn write(out: &mut [u8; ANSWER_BYTES], number: u8, values: &[u64]) -> usize {
    out[0] = number;
    for (bytes, value) in out[1..].chunks_exact_mut(8).zip(values) {
        bytes.copy_from_slice(&value.to_le_bytes());
    }
    1 + 8 * values.len()
}

impl Answer {
    fn write(&self, out: &mut [u8; ANSWER_BYTES]) -> usize {
        match self {
            Answer::Refused { reason, place } => write(out, 0, &[*reason, *place]),
            Answer::Number(n) => write(out, 1, &[*n]),
            Answer::Slip(values) => write(out, 2, values),
            Answer::Two(m, n) => write(out, 5, &[*m, *n]),
        }
    }
}

fn slip(own: u32, key: u32, parcel: &Parcel) -> Answer {
    Answer::Slip([
        key.into(),
        parcel.step,
        own.into(),
        parcel.to.into(),
        parcel.dest.into(),
        parcel.amount.into(),
    ])
}

impl Office {
    fn accept(&mut self, dest: u32, amount: u32) -> Answer {
        if dest >= self.offices || amount > MAX_AMOUNT {
            return OUT_OF_RANGE;
        }
        if self.parcels.len() >= self.limit {
            return OVER_LIMIT;
        }
        let key = KEYS_OF_AN_OFFICE * self.own + self.accepted;
        self.parcels.insert(
            key,
            Parcel {
                step: 0,
                amount,
                kind: Kind::Accepted,
                to: self.own as u8,
                dest: dest as u8,
            },
        );
        self.accepted += 1;
        self.here += 1;
        Answer::Number(key.into())
    }

    fn send(&mut self, key: u32, to: u32) -> Answer {
        if to >= self.offices || to == self.own {
            return Answer::Refused {
                reason: 2,
                place: 1,
            };
        }
        match self.parcels.get_mut(&key) {
            Some(parcel) if parcel.kind.is_here() => {
                parcel.step += 1;
                parcel.kind = Kind::SentOn;
                parcel.to = to as u8;
                self.here -= 1;
                slip(self.own, key, parcel)
            }
            _ => NOT_HERE,
        }
    }

    fn slip_again(&self, key: u32) -> Answer {
        match self.parcels.get(&key) {
            Some(parcel) if parcel.kind == Kind::SentOn => slip(self.own, key, parcel),
            _ => NOT_HERE,
        }
    }

    fn take_in(&mut self, row: &[u8]) -> Answer {
        let [key, step, from, to, dest, amount] = std::array::from_fn(|index| field(row, index));
        if from >= self.offices
            || to >= self.offices
            || dest >= self.offices
            || amount > MAX_AMOUNT
        {
            return OUT_OF_RANGE;
        }
        if to != self.own {
            return WRONG_SLIP;
        }
        let parcel = Parcel {
            step: u64::from(step) + 1,
            amount,
            kind: Kind::ComeIn,
            to: self.own as u8,
            dest: dest as u8,
        };
        let is_full = self.parcels.len() >= self.limit;
        use std::collections::btree_map::Entry;
        match self.parcels.entry(key) {
            Entry::Occupied(mut known) => {
                if known.get().step >= u64::from(step) {
                    return WRONG_SLIP;
                }
                let known = known.insert(parcel);
                self.here += u64::from(!known.kind.is_here());
                // sums are of the parcels that were handed out last
                if known.kind == Kind::HandedOut {
                    self.collected -= u64::from(known.amount);
                }
            }
            Entry::Vacant(place) => {
                if is_full {
                    return OVER_LIMIT;
                }
                place.insert(parcel);
                self.here += 1;
            }
        }
        Answer::Number(dest.into())
    }

    fn hand_out(&mut self, key: u32) -> Answer {
        match self.parcels.get_mut(&key) {
            Some(parcel) if parcel.kind.is_here() => {
                if u32::from(parcel.dest) != self.own {
                    return OTHER_OFFICE;
                }
                parcel.step += 1;
                parcel.kind = Kind::HandedOut;
                parcel.to = self.own as u8;
                self.here -= 1;
                self.collected += u64::from(parcel.amount);
                Answer::Number(parcel.amount.into())
            }
            _ => NOT_HERE,
        }
    }

    fn here(&self, from: u32) -> Answer {
        let first = self
            .parcels
            .range(from..)
            .find(|(_, parcel)| parcel.kind.is_here());
        Answer::Two(self.here, first.map_or(0, |(key, _)| u64::from(*key) + 1))
    }

    fn answer(&mut self, row: &[u8]) -> Answer {
        let unreadable = |place| Answer::Refused {
            reason: 1,
            place: place as u64,
        };
        let Some(&number) = row.first() else {
            return unreadable(0);
        };
        let length = match number {
            0 | 1 => 9,
            2 | 4..=7 => 5,
            3 => 25,
            8 => 1,
            _ => return unreadable(0),
        };
        if row.len() != length {
            return unreadable(length.min(row.len()));
        }
        match number {
            0 => self.accept(field(row, 0), field(row, 1)),
            1 => self.send(field(row, 0), field(row, 1)),
            2 => self.slip_again(field(row, 0)),
            3 => self.take_in(row),
            4 => self.hand_out(field(row, 0)),
            7 => self.here(field(row, 0)),
            8 => Answer::Two(self.collected, 0),
            // paying, and where a parcel is, can't be done
            _ => OUT_OF_RANGE,
        }
    }
}

/// A new office, or null where the limits are out of range.
#[unsafe(no_mangle)]
pub extern "C" fn plain_open(offices: u32, own: u32, parcels: u32) -> *mut Office {
    if !(2..=16).contains(&offices) || own >= offices || parcels > 65_536 {
        return std::ptr::null_mut();
    }
    Box::into_raw(Box::new(Office {
        offices,
        own,
        limit: parcels as usize,
        parcels: BTreeMap::new(),
        accepted: 0,
        here: 0,
        collected: 0,
    }))
}

/// # Safety
/// An office of `plain_open`, not closed, and bytes that the caller lends.
#[unsafe(no_mangle)]
pub unsafe extern "C" fn plain_call(
    office: *mut Office,
    call: *const u8,
    call_bytes: usize,
    answer: *mut u8,
    answer_bytes: usize,
    _letters: *mut u8,
    letters_bytes: usize,
) -> u64 {
    let (office, row) = unsafe { (&mut *office, slice::from_raw_parts(call, call_bytes)) };
    let out = unsafe { slice::from_raw_parts_mut(answer, answer_bytes) };
    let Some(out) = out.first_chunk_mut::<ANSWER_BYTES>() else {
        return 0;
    };
    if letters_bytes < ENVELOPE_BYTES * office.offices as usize {
        return 0;
    }
    office.answer(row).write(out) as u64
}

/// # Safety
/// An office of `plain_open`, not closed.
#[unsafe(no_mangle)]
pub unsafe extern "C" fn plain_close(office: *mut Office) {
    drop(unsafe { Box::from_raw(office) });
}
