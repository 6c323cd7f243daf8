use crate::raw::{self, Answer};
use std::{ptr, slice};

/// Why a call was not done.
#[derive(Clone, Copy, Debug, PartialEq, Eq)]
pub enum Fault {
    NoVector,
    WrongType,
    WrongLength,
    BadSegments,
    BadIndex,
    ZeroDivisor,
    BadShift,
    TooLong,
    NoRoom,
    TooManyNames,
}

const FAULTS: [Fault; 10] = [
    Fault::NoVector,
    Fault::WrongType,
    Fault::WrongLength,
    Fault::BadSegments,
    Fault::BadIndex,
    Fault::ZeroDivisor,
    Fault::BadShift,
    Fault::TooLong,
    Fault::NoRoom,
    Fault::TooManyNames,
];

/// The reply to a call.
#[derive(Clone, Debug, PartialEq, Eq)]
pub enum Reply {
    /// The target was stored, or freed.
    Done,
    Int(i64),
    Bool(bool),
    Ints(Vec<i64>),
    Bools(Vec<bool>),
    /// The lengths of the segments of a segment list.
    Segments(Vec<usize>),
    /// The call was not done.
    Fault(Fault),
}

/// A copy of so many items, which lie there.
unsafe fn copied<T: Copy>(items: *const T, count: u64) -> Vec<T> {
    if count == 0 {
        return Vec::new();
    }
    unsafe { slice::from_raw_parts(items, count as usize) }.to_vec()
}

impl Reply {
    pub(crate) fn read(caller: &mut raw::Caller, number: u64, answer: Answer) -> Reply {
        let count = answer.count as usize;
        match answer.kind {
            1 => Reply::Int(answer.value),
            2 => Reply::Bool(answer.value == 1),
            3 => {
                let mut items = ptr::null();
                let count = unsafe { raw::cvl_ints_at(caller, number, &mut items) };
                Reply::Ints(unsafe { copied(items, count) })
            }
            4 => {
                let mut items = ptr::null();
                let count = unsafe { raw::cvl_bools_at(caller, number, &mut items) };
                Reply::Bools(unsafe { copied(items, count) })
            }
            5 => {
                let mut lengths = vec![0; count];
                unsafe { raw::cvl_lengths(caller, number, lengths.as_mut_ptr(), count) };
                Reply::Segments(lengths)
            }
            6 => Reply::Fault(FAULTS[answer.fault as usize - 1]),
            _ => Reply::Done,
        }
    }
}
