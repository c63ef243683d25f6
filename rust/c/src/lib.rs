//! The calls of `board` under their C names, for `include/arinduleu.h`. This is the one file with `unsafe`: rows and bytes come from C as a
//! pointer and how many, and become a slice here.
#![no_std]

use arinduleu::board;
use arinduleu::flat::{FlatObjects, FlatReading, FlatRequest, FlatTaken};
use arinduleu::lists::{Listing, Words};
use arinduleu::messages::{Message, MessageReading, Written};
use arinduleu::ports::{RemainingPower, Row};
use arinduleu::rules::{Profile, Profiled};
use arinduleu::summaries::{Summarized, Summary};
use arinduleu::verdicts::Verdict;

/// The rows or the bytes that C lends. A count of zero is none of them, whatever the pointer.
///
/// # Safety
/// For a count above zero, `first` points to that many, which nothing else reads or writes during the call.
unsafe fn lent<'a, T>(first: *mut T, count: usize) -> &'a mut [T] {
    if count == 0 || first.is_null() {
        return &mut [];
    }
    unsafe { core::slice::from_raw_parts_mut(first, count) }
}

/// As `lent`, for a call that writes none.
///
/// # Safety
/// For a count above zero, `first` points to that many, which nothing else writes during the call.
unsafe fn shown<'a, T>(first: *const T, count: usize) -> &'a [T] {
    if count == 0 || first.is_null() {
        return &[];
    }
    unsafe { core::slice::from_raw_parts(first, count) }
}

#[no_mangle]
pub extern "C" fn arin_default_profile(max: u16) -> Profiled {
    board::arin_default_profile(max)
}

#[no_mangle]
pub extern "C" fn arin_build(profile: Profile) -> Listing {
    board::arin_build(profile)
}

#[no_mangle]
pub extern "C" fn arin_check(profile: Profile, list: Words) -> Verdict {
    board::arin_check(profile, list)
}

#[no_mangle]
pub extern "C" fn arin_shape(list: Words) -> Verdict {
    board::arin_shape(list)
}

#[no_mangle]
pub extern "C" fn arin_read(list: Words) -> FlatReading {
    board::arin_read(list)
}

#[no_mangle]
pub extern "C" fn arin_write(list: FlatObjects) -> Listing {
    board::arin_write(list)
}

#[no_mangle]
pub extern "C" fn arin_answer(list: Words, word: u32) -> Verdict {
    board::arin_answer(list, word)
}

#[no_mangle]
pub extern "C" fn arin_summarize(list: Words) -> Summarized {
    board::arin_summarize(list)
}

#[no_mangle]
pub extern "C" fn arin_take_request(list: Words, word: u32) -> FlatTaken {
    board::arin_take_request(list, word)
}

#[no_mangle]
pub extern "C" fn arin_answer_summary(summary: Summary, request: FlatRequest) -> Verdict {
    board::arin_answer_summary(summary, request)
}

#[no_mangle]
pub extern "C" fn arin_sink_shape(list: Words) -> Verdict {
    board::arin_sink_shape(list)
}

#[no_mangle]
pub extern "C" fn arin_sink_read(list: Words) -> FlatReading {
    board::arin_sink_read(list)
}

#[no_mangle]
pub extern "C" fn arin_sink_write(list: FlatObjects) -> Listing {
    board::arin_sink_write(list)
}

#[no_mangle]
pub extern "C" fn arin_sink_check(rating: u16, list: Words) -> Verdict {
    board::arin_sink_check(rating, list)
}

/// # Safety
/// As `shown` and `lent` say, here and in the calls below.
#[no_mangle]
pub unsafe extern "C" fn arin_read_message(bytes: *const u8, length: usize) -> MessageReading {
    board::arin_read_message(unsafe { shown(bytes, length) })
}

#[no_mangle]
pub unsafe extern "C" fn arin_take_message(bytes: *const u8, length: usize) -> MessageReading {
    board::arin_take_message(unsafe { shown(bytes, length) })
}

#[no_mangle]
pub unsafe extern "C" fn arin_write_message(
    bytes: *mut u8,
    length: usize,
    message: Message,
) -> Written {
    board::arin_write_message(unsafe { lent(bytes, length) }, message)
}

#[no_mangle]
pub unsafe extern "C" fn arin_set_up(rows: *mut Row, count: usize, capacity: u16) -> Verdict {
    board::arin_set_up(unsafe { lent(rows, count) }, capacity)
}

#[no_mangle]
pub unsafe extern "C" fn arin_attach(
    rows: *mut Row,
    count: usize,
    capacity: u16,
    port: u8,
    cable: u16,
) -> Listing {
    board::arin_attach(unsafe { lent(rows, count) }, capacity, port, cable)
}

#[no_mangle]
pub unsafe extern "C" fn arin_advertise(
    rows: *mut Row,
    count: usize,
    capacity: u16,
    port: u8,
) -> Listing {
    board::arin_advertise(unsafe { lent(rows, count) }, capacity, port)
}

#[no_mangle]
pub unsafe extern "C" fn arin_request(
    rows: *mut Row,
    count: usize,
    capacity: u16,
    port: u8,
    word: u32,
) -> Verdict {
    board::arin_request(unsafe { lent(rows, count) }, capacity, port, word)
}

#[no_mangle]
pub unsafe extern "C" fn arin_detach(
    rows: *mut Row,
    count: usize,
    capacity: u16,
    port: u8,
) -> Verdict {
    board::arin_detach(unsafe { lent(rows, count) }, capacity, port)
}

#[no_mangle]
pub unsafe extern "C" fn arin_remaining(
    rows: *const Row,
    count: usize,
    capacity: u16,
) -> RemainingPower {
    board::arin_remaining(unsafe { shown(rows, count) }, capacity)
}

/// A library without std names what a panic does. The calls are proved never to get here.
#[cfg(not(test))]
#[panic_handler]
fn panic(_: &core::panic::PanicInfo) -> ! {
    loop {}
}
