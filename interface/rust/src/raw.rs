//! The calls of pkder.h on slices; all that is unsafe stands here.
use crate::{Limits, ReportForm};

pub const ACCEPTED: u32 = 0;
pub const FAULT: u32 = 1;
pub const NO_ROOM: u32 = 2;
pub const NO_MEMORY: u32 = 3;
pub const BAD_CALL: u32 = 4;
pub const NOT_DER: u32 = 5;
pub const REPORTED: u32 = 6;
pub const UNREPORTED: u32 = 7;
pub const ANOTHER: u32 = 8;

/// `pkder_outcome`.
#[repr(C)]
#[allow(dead_code)]
pub struct Outcome {
    pub status: u32,
    pub reason: u32,
    pub inside_reason: u32,
    pub which: u32,
    pub at: u64,
    pub inside_at: u64,
    pub taken: u64,
    pub size: u64,
}

type TextFunction = unsafe extern "C" fn(u32, u32, u64, *const u8, usize, *mut u8, usize) -> Outcome;

extern "C" {
    fn pkder_normalise(
        kind: u32,
        depth: u32,
        octets: u64,
        src: *const u8,
        src_len: usize,
        dst: *mut u8,
        dst_len: usize,
    ) -> Outcome;
    fn pkder_signed(
        part: u32,
        depth: u32,
        octets: u64,
        src: *const u8,
        src_len: usize,
        dst: *mut u8,
        dst_len: usize,
    ) -> Outcome;
    fn pkder_show(
        kind: u32,
        depth: u32,
        octets: u64,
        src: *const u8,
        src_len: usize,
        dst: *mut u8,
        dst_len: usize,
    ) -> Outcome;
    fn pkder_explain(
        kind: u32,
        depth: u32,
        octets: u64,
        form: u32,
        src: *const u8,
        src_len: usize,
        dst: *mut u8,
        dst_len: usize,
    ) -> Outcome;
    fn pkder_field(
        kind: u32,
        depth: u32,
        octets: u64,
        src: *const u8,
        src_len: usize,
        dst: *mut u8,
        dst_len: usize,
    ) -> Outcome;
    fn pkder_check(kind: u32, depth: u32, octets: u64, src: *const u8, src_len: usize) -> Outcome;
    fn pkder_same(
        kind: u32,
        depth: u32,
        octets: u64,
        first: *const u8,
        first_len: usize,
        second: *const u8,
        second_len: usize,
    ) -> Outcome;
    fn pkder_reason_name(reason: u32, dst: *mut u8, dst_len: usize) -> usize;
}

fn text(function: TextFunction, what: u32, limits: Limits, src: &[u8], dst: &mut [u8]) -> Outcome {
    // SAFETY: both are slices, which don't overlap since one is exclusive; the function is one of pkder.h.
    unsafe { function(what, limits.depth, limits.octets, src.as_ptr(), src.len(), dst.as_mut_ptr(), dst.len()) }
}

pub fn normalise(kind: u32, limits: Limits, src: &[u8], dst: &mut [u8]) -> Outcome {
    text(pkder_normalise, kind, limits, src, dst)
}

pub fn signed(part: u32, limits: Limits, src: &[u8], dst: &mut [u8]) -> Outcome {
    text(pkder_signed, part, limits, src, dst)
}

pub fn show(kind: u32, limits: Limits, src: &[u8], dst: &mut [u8]) -> Outcome {
    text(pkder_show, kind, limits, src, dst)
}

pub fn explain(kind: u32, limits: Limits, form: ReportForm, src: &[u8], dst: &mut [u8]) -> Outcome {
    let Limits { depth, octets } = limits;
    // SAFETY: both are slices, which don't overlap since one is exclusive.
    unsafe { pkder_explain(kind, depth, octets, form.number(), src.as_ptr(), src.len(), dst.as_mut_ptr(), dst.len()) }
}

pub fn field(kind: u32, limits: Limits, src: &[u8], dst: &mut [u8]) -> Outcome {
    text(pkder_field, kind, limits, src, dst)
}

pub fn check(kind: u32, limits: Limits, src: &[u8]) -> Outcome {
    // SAFETY: `src` is a slice.
    unsafe { pkder_check(kind, limits.depth, limits.octets, src.as_ptr(), src.len()) }
}

pub fn same(kind: u32, limits: Limits, first: &[u8], second: &[u8]) -> Outcome {
    let Limits { depth, octets } = limits;
    // SAFETY: both are slices, which the call only reads.
    unsafe { pkder_same(kind, depth, octets, first.as_ptr(), first.len(), second.as_ptr(), second.len()) }
}

pub fn reason_name(reason: u32, dst: &mut [u8]) -> usize {
    // SAFETY: `dst` is a slice.
    unsafe { pkder_reason_name(reason, dst.as_mut_ptr(), dst.len()) }
}

#[cfg(test)]
mod tests {
    extern "C" {
        fn pkder_interface() -> u32;
    }

    #[test]
    fn interface_is_the_one_that_is_called_here() {
        // SAFETY: it takes nothing.
        assert_eq!(unsafe { pkder_interface() }, 1);
        assert_eq!(std::mem::size_of::<super::Outcome>(), 48);
    }
}
