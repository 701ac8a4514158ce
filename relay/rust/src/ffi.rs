//! The functions of the static library, each behind a safe one. This module alone is unsafe.
//!
//! What the library asks for, Rust's slices give: memory of that length, and no overlap between
//! what is lent to be written and anything else.

use crate::raw::{Called, DONE};

/// `struct fashlemor_counts`.
#[repr(C)]
struct Counts {
    taken: usize,
    to_server: usize,
    to_client: usize,
}

/// The library sets all three counts with every answer; one that it did not set would be noticed.
const NOT_SET: Counts = Counts {
    taken: usize::MAX,
    to_server: usize::MAX,
    to_client: usize::MAX,
};

extern "C" {
    fn fashlemor_setup(
        record: *mut u8,
        record_length: usize,
        setup: *const u8,
        setup_length: usize,
    ) -> u8;

    fn fashlemor_arrive(
        record: *mut u8,
        record_length: usize,
        direction: u64,
        octets: *const u8,
        octets_length: usize,
        to_server: *mut u8,
        to_server_length: usize,
        to_client: *mut u8,
        to_client_length: usize,
        counts: *mut Counts,
    ) -> u8;

    fn fashlemor_end(
        record: *mut u8,
        record_length: usize,
        direction: u64,
        to_server: *mut u8,
        to_server_length: usize,
        to_client: *mut u8,
        to_client_length: usize,
        counts: *mut Counts,
    ) -> u8;

    fn fashlemor_offset(
        record: *const u8,
        record_length: usize,
        direction: u64,
        offset: *mut u32,
    ) -> u8;

    fn fashlemor_embed(
        prefix: *const u8,
        prefix_length: usize,
        bits: u64,
        ipv4: *const u8,
        ipv4_length: usize,
        ipv6: *mut u8,
        ipv6_length: usize,
    ) -> u8;

    fn fashlemor_extract(
        ipv6: *const u8,
        ipv6_length: usize,
        bits: u64,
        ipv4: *mut u8,
        ipv4_length: usize,
    ) -> u8;
}

/// Writes the record of a fresh session. Answers 0 or 5.
pub fn setup(record: &mut [u8], setup: &[u8]) -> u8 {
    unsafe {
        fashlemor_setup(
            record.as_mut_ptr(),
            record.len(),
            setup.as_ptr(),
            setup.len(),
        )
    }
}

/// Octets of a direction arrive at the session of a record.
pub fn arrive(
    record: &mut [u8],
    direction: u64,
    octets: &[u8],
    to_server: &mut [u8],
    to_client: &mut [u8],
) -> Called {
    let mut counts = NOT_SET;
    let answer = unsafe {
        fashlemor_arrive(
            record.as_mut_ptr(),
            record.len(),
            direction,
            octets.as_ptr(),
            octets.len(),
            to_server.as_mut_ptr(),
            to_server.len(),
            to_client.as_mut_ptr(),
            to_client.len(),
            &mut counts,
        )
    };
    called(answer, counts)
}

/// A direction of a record's session ends.
pub fn end(
    record: &mut [u8],
    direction: u64,
    to_server: &mut [u8],
    to_client: &mut [u8],
) -> Called {
    let mut counts = NOT_SET;
    let answer = unsafe {
        fashlemor_end(
            record.as_mut_ptr(),
            record.len(),
            direction,
            to_server.as_mut_ptr(),
            to_server.len(),
            to_client.as_mut_ptr(),
            to_client.len(),
            &mut counts,
        )
    };
    called(answer, counts)
}

/// The offset of a direction, or none for a direction that there is not.
pub fn offset(record: &[u8], direction: u64) -> Option<u32> {
    let mut offset = 0;
    let answer = unsafe { fashlemor_offset(record.as_ptr(), record.len(), direction, &mut offset) };
    (answer == DONE).then_some(offset)
}

fn called(answer: u8, counts: Counts) -> Called {
    Called {
        answer,
        taken: counts.taken,
        to_server: counts.to_server,
        to_client: counts.to_client,
    }
}

/// Puts an IPv4 address behind a prefix of so many bits, into `ipv6`. Answers 0, 9 or 10.
pub fn embed(prefix: &[u8], bits: u64, ipv4: &[u8], ipv6: &mut [u8]) -> u8 {
    unsafe {
        fashlemor_embed(
            prefix.as_ptr(),
            prefix.len(),
            bits,
            ipv4.as_ptr(),
            ipv4.len(),
            ipv6.as_mut_ptr(),
            ipv6.len(),
        )
    }
}

/// Takes the IPv4 address out of an IPv6 address with a prefix of so many bits, into `ipv4`.
/// Answers 0, 9 or 10.
pub fn extract(ipv6: &[u8], bits: u64, ipv4: &mut [u8]) -> u8 {
    unsafe {
        fashlemor_extract(
            ipv6.as_ptr(),
            ipv6.len(),
            bits,
            ipv4.as_mut_ptr(),
            ipv4.len(),
        )
    }
}
