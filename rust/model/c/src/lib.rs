//! The model's calls under C names, `model_build` for `arin_build` and so on: to measure beside the library what firmware gets. Structs go in by
//! pointer, as one would write it by hand; they are those of `include/arinduleu.h`.
#![no_std]

use model::{
    FlatObjects, FlatReading, FlatRequest, FlatTaken, Listing, Message, MessageReading, Profile,
    Profiled, RemainingPower, Row, Summarized, Summary, Verdict, Words, Written,
};

/// As the library has it: a count of zero is no row and no byte, whatever the pointer.
///
/// # Safety
/// For a count above zero, `first` points to that many rows or bytes, which nothing else reads or writes during the call.
unsafe fn lent<'a, T>(first: *mut T, count: usize) -> &'a mut [T] {
    if count == 0 || first.is_null() {
        return &mut [];
    }
    unsafe { core::slice::from_raw_parts_mut(first, count) }
}

/// `lent`, of bytes that are only read.
///
/// # Safety
/// For a count above zero, `bytes` points to that many bytes, which nothing writes during the call.
unsafe fn lent_to_read<'a>(bytes: *const u8, count: usize) -> &'a [u8] {
    if count == 0 || bytes.is_null() {
        return &[];
    }
    unsafe { core::slice::from_raw_parts(bytes, count) }
}

#[no_mangle]
pub extern "C" fn model_default_profile(max: u16) -> Profiled {
    model::default_profile(max)
}

#[no_mangle]
pub extern "C" fn model_build(profile: &Profile) -> Listing {
    model::build(profile)
}

#[no_mangle]
pub extern "C" fn model_check(profile: &Profile, list: &Words) -> Verdict {
    model::check(profile, list)
}

#[no_mangle]
pub extern "C" fn model_shape(list: &Words) -> Verdict {
    model::shape(list)
}

#[no_mangle]
pub extern "C" fn model_read(list: &Words) -> FlatReading {
    model::flat_read(list)
}

#[no_mangle]
pub extern "C" fn model_write(list: &FlatObjects) -> Listing {
    model::flat_write(list)
}

#[no_mangle]
pub extern "C" fn model_answer(list: &Words, word: u32) -> Verdict {
    model::answer(list, word)
}

#[no_mangle]
pub extern "C" fn model_summarize(list: &Words) -> Summarized {
    model::summarize(list)
}

#[no_mangle]
pub extern "C" fn model_take_request(list: &Words, word: u32) -> FlatTaken {
    model::flat_take_request(list, word)
}

#[no_mangle]
pub extern "C" fn model_answer_summary(summary: &Summary, request: &FlatRequest) -> Verdict {
    model::flat_answer_summary(summary, request)
}

#[no_mangle]
pub extern "C" fn model_sink_shape(list: &Words) -> Verdict {
    model::sink_shape(list)
}

#[no_mangle]
pub extern "C" fn model_sink_read(list: &Words) -> FlatReading {
    model::sink_flat_read(list)
}

#[no_mangle]
pub extern "C" fn model_sink_write(list: &FlatObjects) -> Listing {
    model::sink_flat_write(list)
}

#[no_mangle]
pub extern "C" fn model_sink_check(rating: u16, list: &Words) -> Verdict {
    model::sink_check(rating, list)
}

/// # Safety
/// As `lent_to_read` says, here and in the next call.
#[no_mangle]
pub unsafe extern "C" fn model_read_message(bytes: *const u8, count: usize) -> MessageReading {
    model::read_message(unsafe { lent_to_read(bytes, count) })
}

#[no_mangle]
pub unsafe extern "C" fn model_take_message(bytes: *const u8, count: usize) -> MessageReading {
    model::take_message(unsafe { lent_to_read(bytes, count) })
}

/// # Safety
/// As `lent` says, here and in the calls below.
#[no_mangle]
pub unsafe extern "C" fn model_write_message(
    bytes: *mut u8,
    count: usize,
    message: &Message,
) -> Written {
    model::write_message(unsafe { lent(bytes, count) }, message)
}

#[no_mangle]
pub unsafe extern "C" fn model_set_up(rows: *mut Row, count: usize, capacity: u16) -> Verdict {
    model::set_up(unsafe { lent(rows, count) }, capacity)
}

#[no_mangle]
pub unsafe extern "C" fn model_attach(
    rows: *mut Row,
    count: usize,
    capacity: u16,
    port: u8,
    cable: u16,
) -> Listing {
    model::attach(unsafe { lent(rows, count) }, capacity, port, cable)
}

#[no_mangle]
pub unsafe extern "C" fn model_advertise(
    rows: *mut Row,
    count: usize,
    capacity: u16,
    port: u8,
) -> Listing {
    model::advertise(unsafe { lent(rows, count) }, capacity, port)
}

#[no_mangle]
pub unsafe extern "C" fn model_request(
    rows: *mut Row,
    count: usize,
    capacity: u16,
    port: u8,
    word: u32,
) -> Verdict {
    model::request(unsafe { lent(rows, count) }, capacity, port, word)
}

#[no_mangle]
pub unsafe extern "C" fn model_detach(
    rows: *mut Row,
    count: usize,
    capacity: u16,
    port: u8,
) -> Verdict {
    model::detach(unsafe { lent(rows, count) }, capacity, port)
}

#[no_mangle]
pub unsafe extern "C" fn model_remaining(
    rows: *mut Row,
    count: usize,
    capacity: u16,
) -> RemainingPower {
    model::remaining(unsafe { lent(rows, count) }, capacity)
}

#[cfg(not(test))]
#[panic_handler]
fn panic(_: &core::panic::PanicInfo) -> ! {
    loop {}
}
