//! The archive's functions, as include/rcs956.h declares them. All unsafe code of the crate is here.

use crate::raw::{Arguments, Numbers, Outcome, RawSession};

const _: () = assert!(
    size_of::<RawSession>() == 1608 && size_of::<Outcome>() == 24 && size_of::<Numbers>() == 12,
    "the archive is for 64 bits"
);

unsafe extern "C" {
    safe fn rcs956_fresh() -> RawSession;

    fn rcs956_event(
        session: *mut RawSession,
        number: u8,
        packet: *const u8,
        packet_len: usize,
        buffer: *mut u8,
        buffer_len: usize,
    ) -> Outcome;

    fn rcs956_call(
        session: *mut RawSession,
        number: u8,
        numbers: Numbers,
        first: *const u8,
        first_len: usize,
        second: *const u8,
        second_len: usize,
        third: *const u8,
        third_len: usize,
        fourth: *const u8,
        fourth_len: usize,
        buffer: *mut u8,
        buffer_len: usize,
    ) -> Outcome;
}

pub fn fresh() -> RawSession {
    rcs956_fresh()
}

pub fn event(session: &mut RawSession, number: u8, packet: &[u8], buffer: &mut [u8]) -> Outcome {
    // SAFETY: a slice's pointer is never null, also of an empty slice; `&mut` lends overlap nothing; nothing is kept.
    unsafe { rcs956_event(session, number, packet.as_ptr(), packet.len(), buffer.as_mut_ptr(), buffer.len()) }
}

pub fn call(session: &mut RawSession, a: &Arguments<'_>, buffer: &mut [u8]) -> Outcome {
    // SAFETY: as in `event`.
    unsafe {
        rcs956_call(
            session,
            a.number,
            a.numbers,
            a.first.as_ptr(),
            a.first.len(),
            a.second.as_ptr(),
            a.second.len(),
            a.third.as_ptr(),
            a.third.len(),
            a.fourth.as_ptr(),
            a.fourth.len(),
            buffer.as_mut_ptr(),
            buffer.len(),
        )
    }
}
